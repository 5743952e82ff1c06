#!/usr/bin/env bash
# Uses gcs_server by curl: puts an object into a new bucket, reads and lists it, is refused a stale change, and deletes it.
# server.sh, which starts and ends the server, says what is printed.
source "$(dirname "${BASH_SOURCE[0]}")/server.sh"

check "a bucket is made" '{"location":"US","name":"box"}' \
    "$(call '/storage/v1/b?project=p&fields=name,location' \
        --header 'Content-Type: application/json' --data '{"name":"box"}')"

# The digest is that of the nine bytes, in base64 (RFC 1321, RFC 4648).
check "an object is uploaded" '{"md5Hash":"JfnnlDI7RTiF9RgfG2JNCw==","size":"9"}' \
    "$(call '/upload/storage/v1/b/box/o?uploadType=media&name=notes/d&fields=size,md5Hash' \
        --header 'Content-Type: text/plain' --data-binary 123456789)"

# Within a path the `/` of a name is written %2F.
check "its bytes are read" 123456789 "$(call '/storage/v1/b/box/o/notes%2Fd?alt=media')"
check "three of them are read" 345 "$(call '/storage/v1/b/box/o/notes%2Fd?alt=media' --range 2-4)"

check "it is listed below its prefix" '{"items":[{"name":"notes/d"}]}' \
    "$(call '/storage/v1/b/box/o?prefix=notes/&fields=items/name')"
check "names are folded at a delimiter" '{"prefixes":["notes/"]}' \
    "$(call '/storage/v1/b/box/o?delimiter=/&fields=prefixes')"

# 0 is the generation of no version, so this uploads only where none is there (Cloud Storage, "Request preconditions").
check "an upload that may replace nothing is refused" 412 \
    "$(status '/upload/storage/v1/b/box/o?uploadType=media&name=notes/d&ifGenerationMatch=0' --data-binary x)"

check "it is deleted" 204 "$(status '/storage/v1/b/box/o/notes%2Fd' --request DELETE)"
check "then it isn't there" 404 "$(status '/storage/v1/b/box/o/notes%2Fd')"
check "the empty bucket is deleted" 204 "$(status /storage/v1/b/box --request DELETE)"
exit "$failed"
