# shellcheck shell=sh
# What the checks share. A check ends with status 0 where all holds, 1 where something doesn't, and 77
# where a tool that it needs is missing; its last line then says which.
case ${1-} in
--help | -h)
    sed -n '2,/^[^#]/s/^# //p' "$0"
    exit
    ;;
?*)
    echo "usage: checks/${0##*/}" >&2
    exit 2
    ;;
esac
case $0 in */*) top=${0%/*}/.. ;; *) top=.. ;; esac
top=$(cd "$top" && pwd -P) || exit 1

# The program under test: the start script, or what the environment names.
# shellcheck disable=SC2034 # the checks use it
mesh=${MESH:-$top/bin/mesh}

# A folder for a check's files, which goes when the check ends.
scratch() {
    scratch=$(mktemp -d) || exit 1
    trap 'rm -rf "$scratch"' EXIT
    trap 'exit 130' INT
    trap 'exit 143' HUP TERM
}

# needs TOOL: ends the check as skipped where the tool is missing.
needs() {
    command -v "$1" >/dev/null || skip "there is no $1"
}

skip() {
    echo "skipped: $*"
    exit 77
}

failures=0
wrong() {
    echo "wrong: $*"
    failures=$((failures + 1))
}

# Ends the check.
finish() {
    [ "$failures" -eq 0 ] || exit 1
    echo "$*"
    exit 0
}
