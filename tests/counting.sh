# How .ci/run and tests/run count, for both to source: a part that stops, or that ends well without its count, must not pass for
# nothing. Wherever the script ends before its end, the last line says so, since that of an earlier part may be 'N passed, 0 failed'.
set -euo pipefail
log=$(mktemp)
trap 'status=$?; rm -f "$log"; [ "$status" = 0 ] || echo "FAILED: stopped with status $status"' EXIT

passed=0
# the seconds that a command may take; while it is empty, as many as it needs
limit=

# counted PREFIX COMMAND...: runs the command and adds the N of its line 'PREFIXN passed, 0 failed', which has to stand there once
counted() {
    local prefix=$1 count status=0
    shift
    ${limit:+timeout "$limit"} "$@" | tee "$log" || status=$?
    if [ -n "$limit" ] && [ "$status" = 124 ]; then
        echo "$1: did not end within $limit s"
    fi
    [ "$status" = 0 ] || return "$status"
    count=$(sed -n "s/^$prefix\([0-9]*\) passed, 0 failed\$/\1/p" "$log")
    if ! [[ $count =~ ^[1-9][0-9]*$ ]]; then
        echo "$1: no line '${prefix}N passed, 0 failed', or more than one"
        return 1
    fi
    passed=$((passed + count))
}
