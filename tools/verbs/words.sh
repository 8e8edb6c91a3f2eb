# What the words of a verb and the files qbs.conf say: which files there are, and of each its schema and its options.
# shellcheck shell=bash disable=SC2034,SC2154

# says["K NAME"]: what the file of settings with the number K says; K is 0 for the words, which go before any file.
declare -A says=()
# begin PROGRAM WORD..: leaves `program`, `files`, of each its settings conf[N], and a folder `room`.
begin() {
    program=$1
    shift
    room=$(mktemp -d) || exit 2
    case $room in /*) ;; *) room=$PWD/$room ;; esac
    new=
    ticker=
    trap 'rm -rf "$room"; [ -z "$new" ] || rm -f -- "$new"; [ -z "$ticker" ] || kill "$ticker" 2>/dev/null' EXIT
    trap 'exit 130' INT
    trap 'exit 143' TERM HUP
    trouble=0
    unread=0
    left_out=0
    fault=
    confs=0
    files=()
    conf=()
    # (a word that names no option ends them, `-` too)
    while [ "$#" -gt 0 ]; do
        case $1 in
        --)
            shift
            break
            ;;
        --all | --keep-comments | --inline) option "$1" yes ;;
        --*=*) option "${1%%=*}" "${1#*=}" ;;
        --only | --size | --candidates | --format | --fail-on | --stdin-name | --schema | --view)
            [ "$#" -gt 1 ] || refuse "$1 has no value"
            option "$1" "$2"
            shift
            ;;
        -?*) refuse "an option that it doesn't have" ;;
        *) break ;;
        esac
        shift
    done
    stdin_name=${says['0 stdin-name']:--}
    if [ -z "${says['0 schema']+x}" ]; then
        if [ "$#" -gt 0 ] && is_source "$1"; then settings_of "$1"; else found=0; fi
        if [ "$found" = 0 ] || [ -z "${says["$found schema"]+x}" ]; then
            [ "$#" -gt 1 ] || refuse "SCHEMA and FILE.. are wanted"
            says['0 schema']=$1
            shift
        fi
    fi
    [ "$#" -gt 0 ] || refuse "FILE.. is wanted"
    for word in "$@"; do add_files "$word"; done
    fit_views
    # (for the page, which says what it was made with)
    schema=
    options=()
    if [ "${#files[@]}" != 0 ]; then
        set_for 0 schema ''
        schema=$value
        set_for 0 size 8
        options+=("--size=$value")
        set_for 0 candidates 1000000
        options+=("--candidates=$value")
        set_for 0 only ''
        [ -z "$value" ] || options+=("--only=$value")
        set_for 0 view ''
        [ -z "$value" ] || options+=("--view=$value")
    fi
    [ "$left_out" = 0 ] || say "$verb: files that qbs.conf leaves out: $left_out"
}
# fit_views: with a map no more than rewrite is used, so what asks for something else is refused.
fit_views() {
    local number value
    for number in "${!files[@]}"; do
        set_for "$number" view ''
        [ -n "$value" ] || continue
        [ -z "${says['0 inline']:-}" ] || refuse "--inline doesn't go with --view"
        set_for "$number" only rewrite
        case ,$value, in *,rewrite,*) ;; *) refuse "--view goes with rewrite alone, and --only leaves it out" ;; esac
    done
}
is_source() { [ "$1" = - ] || [ -d "$1" ] || [[ $1 == *.java ]]; }

# option --NAME VALUE: a word that is an option.
option() {
    local name=${1#--}
    case $verb,$name in
    *,only | *,size | *,candidates | *,stdin-name | *,schema | *,view | *,keep-comments) ;;
    lint,format | lint,fail-on | lint,all | lint,inline | diff,inline | apply,inline) ;;
    *,format | *,fail-on | *,all | *,inline) refuse "$1 is no option of it" ;;
    *) refuse "an option that it doesn't have" ;;
    esac
    [ -z "${says["0 $name"]+x}" ] || refuse "$1 stands twice"
    fits "$name" "$2" || refuse "$why"
    says["0 $name"]=$2
}
# fits NAME VALUE: whether the value is one of the option; else `why` says what is.
fits() {
    local kind
    why=
    case $1 in
    size) number "$2" 0 8 || why="--size is a number from 0 to 8" ;;
    candidates) number "$2" 1 1000000 || why="--candidates is a number from 1 to 1000000" ;;
    format) case $2 in text | github | json | sarif) ;; *) why="--format is text, github, json or sarif" ;; esac ;;
    keep-comments) case $2 in yes | no) ;; *) why="--keep-comments is yes or no" ;; esac ;;
    schema | stdin-name | view) [ -n "$2" ] || why="--$1 names a file" ;;
    fail-on)
        for kind in ${2//,/ }; do
            case $kind in found | unnested | narrowed | outside | none | budget | stays | unseen | shared | unlike | error | [KV][1-9] | V1[0-2]) ;; *) why=$fails ;; esac
        done
        case $2 in *[!a-zKV0-9,]*) why=$fails ;; esac
        ;;
    all | inline) [ "$2" = yes ] || why="--$1 has no value" ;;
    only)
        for kind in ${2//,/ }; do
            case $kind in rewrite | unnest | narrow) ;; *) why="--only has rewrite, unnest and narrow, parted by commas" ;; esac
        done
        case $2 in *[a-z]*) ;; *) why="--only has rewrite, unnest and narrow, parted by commas" ;; esac
        case $2 in *[!a-z,]*) why="--only has rewrite, unnest and narrow, parted by commas" ;; esac
        ;;
    esac
    [ -z "$why" ]
}
fails='--fail-on has found, unnested, narrowed, outside, none, budget, stays, unseen, shared, unlike, error and rules as K4 and V7, parted by commas'
number() {
    case $1 in '' | *[!0-9]* | ????????*) return 1 ;; esac
    [ "$((10#$1))" -ge "$2" ] && [ "$((10#$1))" -le "$3" ]
}

# add_files WORD: a file, the files below a folder that end in .java, or standard input.
add_files() {
    local file any=
    if [ "$1" = - ]; then
        [ ! -e "$room/stdin" ] || refuse "- stands twice"
        head -c 1048577 >"$room/stdin" || broken head
        add_file "$stdin_name"
        stdin_number=$((${#files[@]} - 1))
        return
    fi
    if [ ! -d "$1" ]; then
        add_file "$1"
        return
    fi
    shopt -s globstar nullglob
    # (a name that is an option for others stays one of a file)
    for file in "${1%/}"/**/*.java; do
        [ -f "$file" ] || continue
        any=yes
        add_file "$file"
    done
    shopt -u globstar nullglob
    if [ -z "$any" ]; then
        if [ -r "$1" ] && [ -x "$1" ]; then say "$verb: no file ends in .java below $1"; else say "$verb: read $1"; fi
        trouble=1
    fi
}
add_file() {
    local pattern
    settings_of "$1"
    while [ -n "${says["$found leave-out"]:-}" ] && IFS= read -r pattern; do
        # (nothing but * stands for other bytes)
        # shellcheck disable=SC1003
        pattern=${pattern//'\'/'\\'}
        pattern=${pattern//'['/'\['}
        pattern=${pattern//'?'/'\?'}
        pattern=${pattern//'('/'\('}
        # shellcheck disable=SC2053
        if [ -n "$pattern" ] && [[ $beneath == $pattern ]]; then
            left_out=$((left_out + 1))
            return
        fi
    done <<<"${says["$found leave-out"]:-}"
    files+=("$1")
    conf+=("$found")
}

# settings_of FILE: `found` is the number of the first qbs.conf upwards from a file, 0 where there is none, and `beneath` the file's name from its folder on.
declare -A conf_above=() conf_number=() folder_of=()
settings_of() {
    local folder=$1 name=$1 above
    [ "$folder" != - ] || folder=$stdin_name
    case $folder in */*) ;; *) folder=./$folder ;; esac
    name=${folder##*/}
    folder=${folder%/*}/
    if [ -d "$1" ] && [ "$1" != - ]; then
        folder=$1
        name=
    fi
    if [ -z "${folder_of[$folder]+x}" ]; then
        # (a name may end in line feeds, which the shell would take off)
        above=$(cd -- "$folder" 2>/dev/null && pwd -P && echo .) || above=$'/\n.'
        folder_of[$folder]=${above%$'\n.'}
    fi
    folder=${folder_of[$folder]}
    beneath=${folder%/}/$name
    if [ -z "${conf_above["$folder"]+x}" ]; then
        above=$folder
        while [ ! -f "${above%/}/qbs.conf" ] && [ "$above" != / ]; do
            above=${above%/*}
            above=${above:-/}
        done
        conf_above["$folder"]=
        [ ! -f "${above%/}/qbs.conf" ] || conf_above["$folder"]=${above%/}
    fi
    found=0
    above=${conf_above["$folder"]}
    if [ -z "$above" ] && [ ! -f /qbs.conf ]; then return; fi
    [ -n "${conf_number["$above/"]+x}" ] || read_conf "$above"
    found=${conf_number["$above/"]}
    beneath=${beneath#"$above/"}
}

# read_conf FOLDER: what its qbs.conf says, a line `name = value` each; `#` begins a line that says nothing.
read_conf() {
    local line name value at=0
    confs=$((confs + 1))
    conf_number["$1/"]=$confs
    [ -r "$1/qbs.conf" ] || wrong_conf "read $1/qbs.conf"
    while IFS= read -r line || [ -n "$line" ]; do
        at=$((at + 1))
        line=${line%$'\r'}
        trimmed "$line"
        line=$text
        case $line in '' | '#'*) continue ;; *=*) ;; *) wrong_conf "$1/qbs.conf:$at: no name, = and value" ;; esac
        trimmed "${line%%=*}"
        name=$text
        trimmed "${line#*=}"
        value=$text
        case $name in
        leave-out)
            says["$confs leave-out"]=${says["$confs leave-out"]:-}$value$'\n'
            continue
            ;;
        schema | view | size | candidates | only | fail-on | keep-comments) ;;
        *) wrong_conf "$1/qbs.conf:$at: its names are schema, view, size, candidates, only, fail-on, keep-comments and leave-out" ;;
        esac
        case $name in fail-on | only) value=${value//[$blank]/} ;; esac
        [ -z "${says["$confs $name"]+x}" ] || wrong_conf "$1/qbs.conf:$at: $name stands twice"
        fits "$name" "$value" || wrong_conf "$1/qbs.conf:$at: ${why#--}"
        case $name,$value in schema,/* | view,/*) ;; schema,* | view,*) value=$1/$value ;; esac
        says["$confs $name"]=$value
    done <"$1/qbs.conf"
}
wrong_conf() {
    say "$verb: $1"
    exit 2
}
blank=$' \t'
trimmed() {
    text=${1#"${1%%[!"$blank"]*}"}
    text=${text%"${text##*[!"$blank"]}"}
}

# set_for N NAME VALUE: what is said of the file with this number, by the words or else its qbs.conf; VALUE where neither says anything. It goes to `value`.
set_for() {
    local number=${conf[$1]}
    value=${says["0 $2"]-${says["$number $2"]-$3}}
}
