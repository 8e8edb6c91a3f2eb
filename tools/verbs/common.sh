# What lint, diff, apply and page share; each is run as VERB PROGRAM WORD.. by the launcher. It wants bash, coreutils, awk, grep and diff alone.
# shellcheck shell=bash disable=SC2034
set -u
export LC_ALL=C
unset CDPATH
verbs=$(dirname "$(readlink -f "${BASH_SOURCE[0]}")")
rules=$verbs/../rules.tsv
verb=$(basename "$0")
# (an output that is closed is one that can't be written, not one that another file takes the place of)
[ -e /dev/fd/1 ] || exec >/dev/full
[ -e /dev/fd/2 ] || exec 2>/dev/full

# refuse WORDS: the words are not those of the verb.
refuse() {
    echo "qbs $verb: $1; ./qbs help says which words it takes" >&2
    exit 2
}

# Each tool that is called has to be there and to end well, or the verb ends with 2: nothing that failed is taken for nothing to say.
set -o pipefail
broken() {
    echo "qbs $verb: $1 failed" >&2
    exit 2
}
# to_out COMMAND..: where the reader of a pipe went away, that is the end.
to_out() {
    "$@" && return
    [ "$?" != 141 ] || exit 141
    broken "${1##*/}"
}
# has WORD..: whether grep finds it; alike FILE FILE: whether two files are. One that can't tell is the end, for the file that is tried (`at`) too.
has() {
    grep "$@"
    told "$?" grep
}
alike() {
    cmp -s -- "$1" "$2"
    told "$?" cmp
}
told() {
    case $1 in 0 | 1) return "$1" ;; esac
    [ -z "${at-}" ] || echo broken >"$at.status"
    broken "$2"
}
for tool in awk cat cmp cp cut diff grep head mktemp mv sed sort tail tr; do
    command -v "$tool" >/dev/null || broken "$tool"
done

# say LINE: a line on standard error, with names of files as they can be shown.
say() {
    SAID=$1 awk -f "$verbs/bytes.awk" -f <(echo 'BEGIN { print "qbs " shown(ENVIRON["SAID"], "plain") }') >&2
}

# shellcheck source-path=SCRIPTDIR source=words.sh
. "$verbs/words.sh"
# shellcheck source-path=SCRIPTDIR source=work.sh
. "$verbs/work.sh"
