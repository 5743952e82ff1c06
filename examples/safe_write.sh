#!/usr/bin/env bash
# Two writers who change one object, and lose nothing: each writes only over the generation that it has read, and the one who
# comes second reads again (Cloud Storage, "Request preconditions"). server.sh, which starts and ends the server, says what is
# printed.
source "$(dirname "${BASH_SOURCE[0]}")/server.sh"

object=/storage/v1/b/box/o/counter

# The generation of the object, and its bytes.
generation() { call "$object?fields=generation" | field generation; }
bytes() { call "$object?alt=media"; }

# Writes the object over that generation alone, and answers the status. 0 stands for no object.
write() {
    status "/upload/storage/v1/b/box/o?uploadType=media&name=counter&ifGenerationMatch=$1" --data-binary "$2"
}

check "a bucket is made" 200 "$(status '/storage/v1/b?project=p' --data '{"name":"box"}')"
check "the first of two makes the object" 200 "$(write 0 1)"
check "the second can't make it too" 412 "$(write 0 1)"

# Both read the same generation, and add one to what they have read.
seen_by_ann=$(generation)
seen_by_bob=$(generation)
check "Ann adds one" 200 "$(write "$seen_by_ann" 2)"
check "Bob is refused, since the object isn't the one that he read" 412 "$(write "$seen_by_bob" 2)"

# So he reads again, and adds one to what is there now.
seen_by_bob=$(generation)
next=$(($(bytes) + 1))
check "Bob reads again and adds one" 200 "$(write "$seen_by_bob" "$next")"
check "both additions are there" 3 "$(bytes)"

check "a deletion goes the same way" 412 "$(status "$object?ifGenerationMatch=$seen_by_ann" --request DELETE)"
check "of the generation that is there" 204 "$(status "$object?ifGenerationMatch=$(generation)" --request DELETE)"
exit "$failed"
