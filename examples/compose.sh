#!/usr/bin/env bash
# Uploads that bring metadata beside their content (multipart), and objects that the server joins and copies without a byte being
# sent again (Cloud Storage, "Composite objects"). server.sh, which starts and ends the server, says what is printed.
source "$(dirname "${BASH_SOURCE[0]}")/server.sh"

objects=/storage/v1/b/box/o

# Two parts, the metadata and the content, each behind a line of the boundary (RFC 2046, 5.1.1).
upload() {
    printf -- '--part\r\nContent-Type: application/json\r\n\r\n%s\r\n--part\r\nContent-Type: text/plain\r\n\r\n%s\r\n--part--\r\n' "$1" "$2" |
        call '/upload/storage/v1/b/box/o?uploadType=multipart&fields=metadata,name,size' \
            --header 'Content-Type: multipart/related; boundary=part' --data-binary @-
}
bytes() { call "$objects/$1?alt=media"; }

check "a bucket is made" 200 "$(status '/storage/v1/b?project=p' --data '{"name":"box"}')"
check "a part is uploaded with its metadata" '{"metadata":{"by":"Ann"},"name":"log.1","size":"6"}' \
    "$(upload '{"name":"log.1","metadata":{"by":"Ann"}}' 'first ')"
check "and another" '{"name":"log.2","size":"6"}' "$(upload '{"name":"log.2"}' 'second')"

check "both are joined" '{"componentCount":2,"contentType":"text/plain","size":"12"}' \
    "$(call "$objects/log/compose?fields=componentCount,contentType,size" \
        --data '{"sourceObjects":[{"name":"log.1"},{"name":"log.2"}],"destination":{"contentType":"text/plain"}}')"
check "in their order" 'first second' "$(bytes log)"

# An object may be a source of itself, so that a part is appended to it.
check "one more is appended" '{"componentCount":3,"size":"18"}' \
    "$(call "$objects/log/compose?fields=componentCount,size" --data '{"sourceObjects":[{"name":"log"},{"name":"log.2"}]}')"
check "behind the others" 'first secondsecond' "$(bytes log)"

check "a source of another generation is refused" 412 \
    "$(status "$objects/log/compose" --data '{"sourceObjects":[{"name":"log.1","objectPreconditions":{"ifGenerationMatch":"1"}}]}')"
check "a source that isn't there is refused" 404 \
    "$(status "$objects/log/compose" --data '{"sourceObjects":[{"name":"log.3"}]}')"

check "the whole is copied" 200 "$(status "$objects/log/copyTo/b/box/o/kept" --request POST)"
check "with its bytes" 'first secondsecond' "$(bytes kept)"
exit "$failed"
