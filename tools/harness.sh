# What tools/test and tools/tests/* share: `top`, the built program in QBS_PROGRAM, a folder `room`, and checks that are counted.
# shellcheck shell=bash disable=SC2034
set -u
export LC_ALL=C
top=$(cd "$(dirname "$(readlink -f "${BASH_SOURCE[0]}")")/.." && pwd)
cd "$top" || exit 2
program=$(readlink -f "${1:-release/qbs}")
export QBS_PROGRAM=$program
room=$(mktemp -d)
trap 'rm -rf "$room"' EXIT
schema=$top/examples/users.sql
passed=0
failed=0

# check WHAT COMMAND..: the command has to end with 0.
check() {
    local what=$1
    shift
    if "$@" >"$room/said" 2>&1; then
        passed=$((passed + 1))
    else
        failed=$((failed + 1))
        echo "test: $what"
        head -n 20 "$room/said" | sed 's/^/    /'
    fi
}
# is WANTED COMMAND..: the command has to end with this status. What it writes is in room/out and room/err.
is() {
    local wanted=$1 status
    shift
    "$@" >"$room/out" 2>"$room/err" </dev/null
    status=$?
    [ "$status" = "$wanted" ] || { echo "status $status, not $wanted"; cat "$room/err"; return 1; }
}
# holds FILE PATTERN [NUMBER]: so many lines of the file have the pattern, at least one where nothing is said.
holds() {
    local count
    count=$(grep -acE -- "$2" "$1")
    if [ "$count" = "${3:-$count}" ] && { [ "$count" != 0 ] || [ "${3:-}" = 0 ]; }; then return 0; fi
    echo "$count lines with $2, not ${3:-some}"
    cat -v "$1"
    return 1
}
# counted: the last line of a file of tests.
counted() {
    echo "$passed passed, $failed failed"
    [ "$failed" = 0 ]
}
