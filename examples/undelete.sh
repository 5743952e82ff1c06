#!/usr/bin/env bash
# What is deleted can be had back within a bucket's soft-delete window: an object by its generation, and a bucket with all that
# was in it (Cloud Storage, "Soft delete"). server.sh, which starts and ends the server, says what is printed.
source "$(dirname "${BASH_SOURCE[0]}")/server.sh"

bucket=/storage/v1/b/box
object=$bucket/o/letter

upload() { status '/upload/storage/v1/b/box/o?uploadType=media&name=letter' --data-binary "$1"; }
generation() { call "$1?fields=generation" | field generation; }
bytes() { call "$object?alt=media"; }

# A window of seven days, which is also what a bucket has that names none.
check "a bucket is made" 200 "$(status '/storage/v1/b?project=p' \
    --data '{"name":"box","softDeletePolicy":{"retentionDurationSeconds":"604800"}}')"
check "an object is uploaded" 200 "$(upload 'Dear Ann')"
first=$(generation "$object")

check "it is deleted by mistake" 204 "$(status "$object" --request DELETE)"
check "then it isn't there" 404 "$(status "$object")"
check "but is listed as soft-deleted" "$first" "$(call "$bucket/o?softDeleted=true&fields=items/generation" | field generation)"
check "it is restored by its generation" 200 "$(status "$object/restore?generation=$first" --request POST)"
check "with its bytes" 'Dear Ann' "$(bytes)"
check "as a generation of its own" other "$([[ $(generation "$object") == "$first" ]] && echo same || echo other)"

# An upload over an object soft-deletes the one before.
before=$(generation "$object")
check "it is overwritten by mistake" 200 "$(upload 'Dear Bob')"
check "the one before is restored" 200 "$(status "$object/restore?generation=$before" --request POST)"
check "with its bytes again" 'Dear Ann' "$(bytes)"

# A bucket must be empty of live versions to be deleted; the soft-deleted ones go with it and come back with it.
last=$(generation "$object")
made=$(generation "$bucket")
check "the object is deleted" 204 "$(status "$object" --request DELETE)"
check "and the bucket" 204 "$(status "$bucket" --request DELETE)"
check "which isn't there then" 404 "$(status "$bucket")"
check "the bucket is restored by its generation" 200 "$(status "$bucket/restore?generation=$made" --request POST)"
check "and the object in it" 200 "$(status "$object/restore?generation=$last" --request POST)"
check "with its bytes for the third time" 'Dear Ann' "$(bytes)"

check "a generation that never was can't be restored" 404 "$(status "$object/restore?generation=1" --request POST)"
exit "$failed"
