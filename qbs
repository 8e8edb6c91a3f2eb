#!/usr/bin/env bash
# Runs qbs in the caller's folder with the words as given, and ends with its status; ./qbs help says which words there are.
#
# What runs is the first of these that there is: the program that QBS_PROGRAM names; the proved program of this very source
# that was built here; the one in release/, where it was built from this very source; an unproved build of this source, made
# in a minute for this one run, with a line on standard error that says so. Where no sources stand beside it, as in what
# tools/dist makes, it is the one in release/. A program that isn't the one that its SUM names never runs.
set -eu
self=$(readlink -f -- "${BASH_SOURCE[0]}")
top=${self%/*}
# (a signal for files that grow too long would end the program before it can say so: unheeded, it is a write that fails)
trap '' XFSZ
# (what the verbs make stands in a folder of TMPDIR, and its names are words of awk and diff: from / on they are never options)
case ${TMPDIR-} in '' | /*) ;; *) export TMPDIR=$PWD/$TMPDIR ;; esac

# ends LINE: with a line, where it can be written, and 70.
ends() {
    printf 'qbs: %s\n' "$1" >&2 || :
    exit 70
}
[ "$#" != 0 ] || { "$top/tools/verbs/help" >&2; exit 2; }
case $1 in
help | -h | --help) shift && exec "$top/tools/verbs/help" "$@" ;;
--version) exec "$top/tools/verbs/version" ;;
esac
case $1 in '' | *[!a-z]*) ;; *) case ${2-} in -h | --help) [ ! -f "$top/tools/help/$1.txt" ] || exec "$top/tools/verbs/help" "$1" ;; esac ;; esac
if [ "$*" = build ]; then
    [ -d "$top/crates" ] || ends 'there are no sources here to build from, and release/ has the program'
    exec "$top/tools/build"
fi

# (the verbs round the program are files of tools/verbs, and run the program that they are given)
verb=
case $1 in lint | diff | apply | page)
    verb=$top/tools/verbs/$1
    shift
    ;;
esac
# answer WORD..: the program, or the verb with it, in place of this shell.
answer() {
    shopt -s execfail
    exec -- ${verb:+"$verb"} "$program" "$@" || ends "$program can't be run"
}

# shellcheck source=tools/choose.sh
. "$top/tools/choose.sh"
case $chosen in
named) QBS_ASKED=1 && export QBS_ASKED && answer "$@" ;;
misnamed) ends "$why" ;;
proved) answer "$@" ;;
unlike) ends "$program is not the program that the SUM beside it names, so it doesn't run" ;;
barred) ends "$program may not be executed here, by its rights or by those of its disk" ;;
esac
[ -d "$top/crates" ] || ends 'release/ has no program with its SUM, and there are no sources to build one from'
command -v rt >/dev/null || ends 'this source has no program yet, and rt, which builds it, is not on the path'
[ -z "$verb" ] || ends 'this source has no proved program yet: ./qbs build makes it, and QBS_PROGRAM may name another'
printf 'qbs: %s\n' 'an unproved build of this source answers, in a minute; ./qbs build proves it and keeps the program' >&2
program=$top/tools/try
answer "$@"
