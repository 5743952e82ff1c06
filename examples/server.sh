# What the examples share: a server that is started on a free port and ended with the script, and the steps, each with its line:
# `ok STEP`, or `FAILED STEP` with what was wanted and what came. The server is ./run of this repository, which builds it first, or
# the program that GCS_SERVER names. A script that reads this file ends with `exit "$failed"`, which is 1 where a step failed.
set -u

top=$(cd "$(dirname "${BASH_SOURCE[0]}")/.." && pwd) || exit 1
errors=$(mktemp) || exit 1
failed=0

# With port 0 the system chooses a free port, which the server's line tells.
"${GCS_SERVER:-$top/run}" serve 127.0.0.1:0 4 2> >(tee "$errors" >&2) &
server=$!
trap 'kill "$server" 2>/dev/null; wait "$server" 2>/dev/null; rm -f "$errors"' EXIT

# The address on which the server listens, once it does.
listening() {
    local line
    while kill -0 "$server" 2>/dev/null; do
        line=$(grep '^gcs_server: listening on ' "$errors") && echo "${line##* }" && return
        sleep 0.1
    done
    return 1
}

check() {
    local step=$1 wanted=$2 came=$3
    if [[ $came == "$wanted" ]]; then
        echo "ok $step"
    else
        echo "FAILED $step: wanted $wanted, and $came came"
        failed=1
    fi
}

# What is answered to a request, by its path and what curl is given besides.
call() {
    curl --silent --show-error --max-time 30 --noproxy '*' "http://$address$1" "${@:2}"
}

# The status alone.
status() {
    call "$@" --output /dev/null --write-out '%{http_code}'
}

# The text of a field of a JSON reply.
field() {
    sed -n "s/.*\"$1\":\"\([^\"]*\)\".*/\1/p"
}

address=$(listening) || { echo "FAILED the server doesn't listen" && exit 1; }
