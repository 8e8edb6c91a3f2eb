# Which program answers in the folder `top`: leaves `program` and `chosen`: named (by QBS_PROGRAM), misnamed, proved, unlike (it is not
# what its SUM says), barred (it may not be executed) or none; and `sources`, the sum of the sources or nothing where there are
# none or nobody asked. The launcher and its --version share it.
#
# Sums of some thousand files take most of a second, so what came out stands in a stamp, beside the list of all that it hangs
# on: it holds as long as none of these was touched since (their ctime, which no tool sets back), the clock wasn't set back,
# and the programs and their SUMs have the device, inode, size and times that they had. It is in out/stamp or, where that
# can't be written, in the user's folder of caches. Where neither can, sums are made each time.
# shellcheck shell=bash disable=SC2034,SC2154

# said NAME FILE: what a SUM says.
said() {
    local line
    while IFS= read -r line; do
        case $line in "$1: "*) printf '%s' "${line#"$1: "}" ;; esac
    done <"$2"
}
# choose_named: the program that QBS_PROGRAM names, or `why` says why there is none.
choose_named() {
    sources=
    chosen=misnamed
    if ! program=$(type -P -- "$QBS_PROGRAM") || [ ! -f "$program" ]; then
        why='QBS_PROGRAM names no program'
    # (also where it comes back here by a script of its own)
    elif [ "$(readlink -f -- "$program")" = "$top/qbs" ] || [ -n "${QBS_ASKED:-}" ]; then
        why='QBS_PROGRAM names the launcher, or what runs it again, and has to name a program'
    else
        chosen=named
    fi
}
# choose FOLDER..: the first folder whose program was built of these sources.
choose() {
    local folder
    chosen=none
    program=
    for folder in "$@"; do
        if [ ! -f "$top/$folder/qbs" ] || [ ! -f "$top/$folder/SUM" ]; then continue; fi
        [ -z "$sources" ] || [ "$(said sources "$top/$folder/SUM")" = "$sources" ] || continue
        program=$top/$folder/qbs
        chosen=barred
        [ -x "$program" ] || return 0
        chosen=unlike
        [ "$(said program "$top/$folder/SUM")" != "$(sha256sum <"$program" | cut -c1-64)" ] || chosen=proved
        return 0
    done
}
# stamp_folders: where a stamp may stand.
stamp_folders() {
    local cache=${XDG_CACHE_HOME:-${HOME:+$HOME/.cache}} name=${top//[!a-zA-Z0-9]/_}
    [ "${#name}" -le 100 ] || name=${name: -100}
    stamps=("$top/out/stamp")
    case $cache in /*) stamps+=("$cache/qbs/$name") ;; esac
}
# touched LIST STAMP: the first of the files that was touched since the stamp, or else how the programs and their SUMs stand.
# A link stands for what it leads to.
touched() {
    # shellcheck disable=SC2185
    (cd "$top" && find -L -files0-from "$1" -maxdepth 0 \( -cnewer "$2" -print -quit -o -type f \( -path 'release/*' -o -path 'out/built/*' \) -printf '%p %D %i %s %T@ %C@\n' \) 2>&1)
}
# stamped FOLDER: whether the stamp there holds, which is read then. It has to be of this user or of who owns the sources.
stamped() {
    local line list='' place='' made='' seen='' now stands
    [ -f "$1/stamp" ] || return 1
    [ -O "$1/stamp" ] || [ "$1" = "$top/out/stamp" ] || return 1
    while IFS= read -r line; do
        case $line in
        'sources: '*) sources=${line#*: } ;;
        'chosen: '*) chosen=${line#*: } ;;
        'program: '*) program=${line#*: } ;;
        'list: '*) list=${line#*: } ;;
        'made: '*) made=${line#*: } ;;
        'place: '*) place=${line#*: } ;;
        'seen: '*) seen+=${line#*: }$'\n' ;;
        esac
    done <"$1/stamp"
    printf -v now '%(%s)T' -1
    [ "$place" = "${top//$'\n'/ }" ] && [ -n "$list" ] && [ "$now" -ge "$made" ] 2>/dev/null || return 1
    stands=$(touched "$1/$list" "$1/stamp") && [ "$stands" = "${seen%$'\n'}" ] || return 1
    program=${program:+$top/$program}
}

# found: what is chosen by a stamp that holds, or else by sums.
found() {
    local folder stamps before
    stamp_folders
    for folder in "${stamps[@]}"; do
        if stamped "$folder"; then return; fi
    done
    # (what changes in the second before is looked at once more)
    before=$(($(date +%s) - 1))
    sources=$("$top/tools/sum")
    choose out/built release
    # (what a disk lets run hangs on how it is mounted, of which no file tells)
    [ "$chosen" != barred ] || return 0
    for folder in "${stamps[@]}"; do
        if "$top/tools/stamp" "$folder" "$before" "$sources" "$chosen" "${program#"$top/"}" 2>/dev/null; then return; fi
    done
}
if [ -n "${QBS_PROGRAM:-}" ]; then
    choose_named
elif [ -d "$top/crates" ]; then
    found
else
    sources=
    choose release
fi
