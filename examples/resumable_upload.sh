#!/usr/bin/env bash
# An upload in pieces, which goes on where it broke off, and one that is cancelled (Cloud Storage, "Resumable uploads"). server.sh,
# which starts and ends the server, says what is printed.
source "$(dirname "${BASH_SOURCE[0]}")/server.sh"

object=/storage/v1/b/box/o/numbers

# The content, and its size. Each piece but the last has a multiple of 262,144 bytes.
content() { seq 60000; }
size=$(content | wc -c)
piece=262144

digest() { md5sum | cut -d ' ' -f 1; }
head_field() { sed -n "s/^$1: \(.*\)\r$/\1/p"; }

# Begins an upload, and answers the place to which its pieces are sent.
begin() {
    call '/upload/storage/v1/b/box/o?uploadType=resumable&name=numbers' --header 'X-Upload-Content-Type: text/plain' \
        --header 'Content-Type: application/json' --data '{"metadata":{"from":"seq"}}' --dump-header - | head_field Location
}

# Sends what comes on the input as the piece at that place, and answers the status.
send() { status "$upload" --request PUT --header "Content-Range: bytes $1" --data-binary @-; }

# The bytes that are kept, as `bytes=0-LAST`.
kept() {
    call "$upload" --request PUT --header 'Content-Range: bytes */*' --data '' --dump-header - | head_field Range
}

check "a bucket is made" 200 "$(status '/storage/v1/b?project=p' --data '{"name":"box"}')"

place=$(begin)
check "an upload is begun" "http://$address/upload/storage/v1/b/box/o?uploadType=resumable&upload_id=1" "$place"
upload=${place#"http://$address"}
check "the first piece is kept" 308 "$(content | head -c "$piece" | send "0-$((piece - 1))/*")"
check "a piece behind a hole isn't" 400 "$(content | tail -c 1 | send "$((size - 1))-$((size - 1))/$size")"
check "and there is no object yet" 404 "$(status "$object")"

# A client that doesn't know what has come asks, and goes on behind it.
last=$(kept)
check "what is kept is told" "bytes=0-$((piece - 1))" "$last"
next=$((${last#bytes=0-} + 1))
check "the rest makes the object" 200 "$(content | tail -c "+$((next + 1))" | send "$next-$((size - 1))/$size")"

check "it has the digest of the whole" "$(content | digest)" \
    "$(call "$object?fields=md5Hash" | field md5Hash | base64 --decode | od -An -tx1 | tr -d ' \n')"
check "and its bytes" "$(content | digest)" "$(call "$object?alt=media" | digest)"
check "and the type that was told at the start" text/plain "$(call "$object?fields=contentType" | field contentType)"
check "who asks again is told the object" 200 "$(send '*/*' </dev/null)"

place=$(begin)
upload=${place#"http://$address"}
check "another upload is cancelled" 499 "$(status "$upload" --request DELETE)"
check "and takes no piece any more" 410 "$(content | send "0-$((size - 1))/$size")"
exit "$failed"
