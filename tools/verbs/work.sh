# How a file is tried: what the program makes of it, and what of that is written.
# shellcheck shell=bash disable=SC2034,SC2154

# take NAME BYTES TO: a copy of the first bytes of a file. What follows reads copies alone, under plain names.
take() {
    [ -r "$1" ] && [ ! -d "$1" ] && head -c "$2" <"$1" >"$3" 2>/dev/null
}

# outputs AT READ: what the pass at hand makes of a source: a text (AT.made), a report (AT.report) and its status (AT.status).
outputs() {
    local limits=()
    case $pass in rewrite | unnest) limits=("--size=$size" "--candidates=$candidates") ;; esac
    [ -z "$map_read" ] || limits+=("--view=$map_read")
    "$program" "$pass" ${limits[@]+"${limits[@]}"} -- "$schema_read" "$2" >"$1.made" 2>"$1.report"
    status=$?
    echo "$status" >"$1.status"
}
# knows COMMAND: whether the program has the command. One that hasn't ends with 14.
knows() {
    "$program" "$1" -- /dev/null /dev/null >/dev/null 2>&1
    [ $? != 14 ]
}
# probe_views: whether the program rewrites by a map, where a file wants that.
probe_views() {
    local number value
    for number in "${!files[@]}"; do
        set_for "$number" view ''
        [ -n "$value" ] || continue
        "$program" rewrite --view=/dev/null -- /dev/null /dev/null >/dev/null 2>&1
        [ $? = 14 ] || return 0
        say "$verb: the program has no rewrite --view"
        exit 2
    done
}
# probe_passes: which of unnest and narrow the program has, asked once for all files that use them, in `known`.
probe_passes() {
    local number kind asked=
    known=rewrite
    if [ -n "${says['0 inline']:-}" ] && ! knows inline; then
        say "$verb: the program has no inline"
        exit 2
    fi
    for number in "${!files[@]}"; do
        set_for "$number" view ''
        [ -z "$value" ] || continue
        set_for "$number" only rewrite,unnest,narrow
        for kind in unnest narrow; do
            case ,$value, in *,"$kind",*) ;; *) continue ;; esac
            case ,$asked, in *,"$kind",*) continue ;; esac
            asked+=,$kind
            ! knows "$kind" || known+=,$kind
        done
    done
    for number in "${!files[@]}"; do
        set_for "$number" view ''
        [ -z "$value" ] || continue
        set_for "$number" only ''
        for kind in unnest narrow; do
            case ,$value, in *,"$kind",*) ;; *) continue ;; esac
            case ,$known, in *,"$kind",*) continue ;; esac
            say "$verb: the program has no $kind"
            exit 2
        done
    done
}
# passes_of N: the passes that a file goes through, in `passes`. Where there is but one, and nobody chose it, `passes_said` is empty: nothing says which it is.
passes_of() {
    local kind
    passes=()
    set_for "$1" only "${known#rewrite}"
    passes_said=${value:+rewrite}
    [ -z "${says['0 inline']:-}" ] || passes=(inline)
    set_for "$1" only rewrite,unnest,narrow
    for kind in rewrite unnest narrow; do
        case ,$value, in *,"$kind",*) ;; *) continue ;; esac
        case ,$known, in *,"$kind",*) passes+=("$kind") ;; esac
    done
}

# whole FILE: its bytes for java.awk, which shows whether a line end stands last. (no byte of a source that is read is 255, and awk wants none that is 0)
whole() {
    tr '\000' '\377' <"$1" && echo x
}

# try NUMBER: takes one file, and leaves its new text (.text), what there is to say of it (.findings), and the diff of both (.diff).
try() {
    local at=$room/$1 name=${files[$1]} size candidates keep value schema_read map_read passes passes_said
    [ "$1" != "${stdin_number:-}" ] || name=$room/stdin
    if ! take "$name" 1048577 "$at.java"; then
        echo read >"$at.status"
        return
    fi
    set_for "$1" size 8
    size=$value
    set_for "$1" candidates 1000000
    candidates=$value
    set_for "$1" keep-comments yes
    keep=$value
    schema_of "$1"
    passes_of "$1"
    # (each copy has to be whole: a disk may be full)
    if [ -n "$map_read" ]; then
        if ! { : >"$at.findings" && : >"$at.diff" && go_by_view "$at"; }; then echo broken >"$at.status"; fi
        return
    fi
    if ! { : >"$at.findings" && : >"$at.diff" && cp "$at.java" "$at.text" && go_through "$at"; }; then echo broken >"$at.status"; fi
}
# go_through AT: the passes, each on what the one before it wrote (.before), with what it did (.PASS.moves). One that ends with another status than 0 is the last.
go_through() {
    local pass status
    for pass in "${passes[@]}"; do
        cp "$1.text" "$1.before" && as_read "$1" || return
        outputs "$1" "$1.read"
        case $status in
        0) "told_by_$pass" "$1" || return ;;
        # (what a pass wrote is read by the next one)
        5 | 6 | 7) if [ "$pass" != "${passes[0]}" ] || ! faults "$1"; then return 1; fi ;;
        esac
        [ "$(<"$1.status")" = 0 ] || return 0
    done
    [ "${passes[*]}" = rewrite ] || joined "$1" || return
    diff -a "$1.java" "$1.text" >"$1.diff" || [ $? = 1 ]
}
# go_by_view AT: the same of a real file, which goes through rewrite alone. What the program writes is the text.
go_by_view() {
    local pass=rewrite status mark=
    outputs "$1" "$1.java"
    case $status in
    0) ;;
    5 | 16)
        faults "$1"
        return
        ;;
    *) return 0 ;;
    esac
    if [[ $(<"$1.report") == loop* ]]; then
        export FETCHES=$map_read.fetches
        if has -aqF 'qbs:off' "$1.java"; then
            cp "$1.java" "$1.read" && silence "$1" || return
            [ "$(<"$1.status")" = 0 ] || return 0
        fi
        MARK=${mark:+"System.out.println(\"$mark\");"} END_MARK=${mark:+"/*$mark*/"} SHIFTS=${mark:+"$1.shifts"} TO=$1.new SILENCED=$1.silenced SIZE=$size CANDIDATES=$candidates \
            awk -f "$verbs/java.awk" -f "$verbs/places.awk" -f "$verbs/viewed.awk" "$rules" "$1.report" <(whole "$1.java") <(whole "$1.made") >"$1.findings" || return
        [ -z "$mark" ] || tr '\377' '\000' <"$1.new" >"$1.made" || return
    fi
    mv "$1.made" "$1.text" || return
    alike "$1.java" "$1.text" || diff -a "$1.java" "$1.text" >"$1.diff" || [ $? = 1 ]
}

# as_read AT: the (int) that stand where apply writes them are blank to the program.
as_read() {
    cp "$1.before" "$1.read" || return
    has -aqE '\([[:space:]]*int[[:space:]]*\)' "$1.before" || return 0
    whole "$1.before" | awk -f "$verbs/java.awk" -f "$verbs/casts.awk" | tr '\377' '\000' >"$1.read"
}

# told_by_inline AT: the text with the methods in which a call stood as they came.
told_by_inline() {
    alike "$1.read" "$1.made" && return
    MOVES=$1.inline.moves TO=$1.new awk -f "$verbs/java.awk" -f "$verbs/places.awk" -f "$verbs/patches.awk" -f "$verbs/anew.awk" /dev/null /dev/null <(whole "$1.read") <(whole "$1.made") <(whole "$1.before") || return
    tr '\377' '\000' <"$1.new" >"$1.text"
}
# told_by_narrow AT: what the report says of the for-eachs, and the text with queries in place of their fetches.
told_by_narrow() {
    local sole=
    has -q '^loop ' "$1.report" || return 0
    case " ${passes[*]} " in *' rewrite '* | *' unnest '*) ;; *) sole=yes ;; esac
    SOLE=$sole MOVES=$1.narrow.moves TO=$1.new SILENCED=$1.silenced awk -f "$verbs/java.awk" -f "$verbs/places.awk" -f "$verbs/patches.awk" -f "$verbs/narrowed.awk" "$rules" "$1.report" <(whole "$1.read") <(whole "$1.made") <(whole "$1.before") >>"$1.findings" || return
    tr '\377' '\000' <"$1.new" >"$1.text"
}
# joined AT: the findings of all passes at places of the file, each fix as what becomes of bytes of the file. A method that was printed anew stands as it was where
# nothing in it gave way.
joined() {
    [ -s "$1.findings" ] || [ -s "$1.inline.moves" ] || return 0
    AT=$1 TO=$1.new ANEW=$1.anew awk -f "$verbs/java.awk" -f "$verbs/joined.awk" <(whole "$1.java") <(whole "$1.text") "$1.findings" >"$1.joined" || return
    mv "$1.joined" "$1.findings" && tr '\377' '\000' <"$1.new" >"$1.text"
}

# told_by_rewrite AT, told_by_unnest AT: what the report says of the loops, and the text with what stands in their place.
told_by_rewrite() {
    told_by_search "$1" "$passes_said" found
}
told_by_unnest() {
    told_by_search "$1" unnest unnested
}
# told_by_search AT PASS KIND: the same, where a loop that gave way is of this kind. A silenced loop is one for all passes, and counts where the first one passes it over.
told_by_search() {
    local mark=
    has -q '^loop ' "$1.report" || return 0
    silence "$1" || return
    [ "$(<"$1.status")" = 0 ] || return 0
    PASS=$2 FOUND=$3 MOVES=$1.$pass.moves MARK=${mark:+"System.out.println(\"$mark\");"} END_MARK=${mark:+"/*$mark*/"} SHIFTS=${mark:+"$1.shifts"} TO=$1.new SILENCED=$1.$pass.silenced KEEP=$keep SIZE=$size CANDIDATES=$candidates \
        awk -f "$verbs/java.awk" -f "$verbs/places.awk" -f "$verbs/patches.awk" -f "$verbs/findings.awk" "$rules" "$1.report" <(whole "$1.read") <(whole "$1.made") <(whole "$1.before") >>"$1.findings" || return
    [ -s "$1.silenced" ] || mv "$1.$pass.silenced" "$1.silenced" || return
    tr '\377' '\000' <"$1.new" >"$1.text"
}

# silence AT: where a loop that gave way is silenced by a comment, the program reads the source once more, so that the loop stands.
silence() {
    if ! has -aqF 'qbs:off' "$1.read" || ! has -q ' found [0-9]*$' "$1.report"; then return 0; fi
    mark=qbs-off-$RANDOM$RANDOM
    while has -aqF "$mark" "$1.read"; do mark=$mark$RANDOM; done
    MARK="System.out.println(\"$mark\");" END_MARK="/*$mark*/" SHIFTS=$1.shifts \
        awk -f "$verbs/java.awk" -f "$verbs/places.awk" -f "$verbs/silence.awk" "$rules" "$1.report" <(whole "$1.read") /dev/null >"$1.held"
    case $? in
    0) tr '\377' '\000' <"$1.held" >"$1.marked" && outputs "$1" "$1.marked" ;;
    1) mark= ;;
    *) return 1 ;;
    esac
}

# faults AT: the fault, and those of other members. Each member with one is made blank, and the program reads what is left, until it finds none.
faults() {
    local first=$status left=$1.read turns=0 by_inline=
    # (a class that is read where calls give way to the methods' bodies)
    if [ "$first" = 6 ] && [ "$pass" != inline ] && has -q ' parse 1 ' "$1.report" && "$program" inline -- "$schema_read" "$1.read" >/dev/null 2>&1; then by_inline=yes; fi
    while [ "$status" = 6 ] || [ "$status" = 7 ]; do
        cat "$1.report" >>"$1.faults" || return
        turns=$((turns + 1))
        [ "$turns" -lt 50 ] || break
        awk -f "$verbs/java.awk" -f "$verbs/members.awk" "$1.report" <(whole "$left") >"$1.blank"
        case $? in
        0) tr '\377' '\000' <"$1.blank" >"$1.left" || return ;;
        1) break ;;
        *) return 1 ;;
        esac
        left=$1.left
        outputs "$1" "$left"
    done
    case $first in 5 | 16) cp "$1.report" "$1.faults" || return ;; esac
    echo "$first" >"$1.status" || return
    case $first in 5) left=$schema_read ;; 16) left=$map_read ;; *) left=$1.java ;; esac
    INLINE=$by_inline CHARACTERS=yes awk -f "$verbs/java.awk" -f "$verbs/faults.awk" -f "$verbs/constructs.awk" "$rules" "$verbs/../cures.tsv" "$1.faults" <(whole "$left") >"$1.findings"
}

# schema_of N: the copies of the schema and of the map of a file, in `schema_read` and `map_read`, which is empty where there is none.
schema_of() {
    schema_read=$room/schema.${conf[$1]}.sql
    [ -z "${says['0 schema']+x}" ] || schema_read=$room/schema.0.sql
    map_read=
    [ -z "${says["${conf[$1]} view"]+x}" ] || map_read=$room/view.${conf[$1]}.map
    [ -z "${says['0 view']+x}" ] || map_read=$room/view.0.map
}
# take_schemas: a copy of each schema and each map there is, and of a map what it asks by.
take_schemas() {
    local number schema_read map_read
    for number in "${!files[@]}"; do
        schema_of "$number"
        if [ -n "$map_read" ] && [ ! -e "$map_read" ]; then
            set_for "$number" view ''
            if ! take "$value" 262145 "$map_read"; then
                say "$verb: read $value"
                exit 2
            fi
            whole "$map_read" | awk -f "$verbs/java.awk" -f "$verbs/fetches.awk" >"$map_read.fetches" || broken awk
        fi
        set_for "$number" schema ''
        [ -n "$value" ] || refuse "no schema for ${files[$number]}"
        [ ! -e "$schema_read" ] || continue
        if ! take "$value" 16777217 "$schema_read"; then
            say "$verb: read $value"
            exit 2
        fi
        draw "$value" "$schema_read"
    done
}

# draw NAME READ: where a file is no schema of the language, as the dump of a database isn't, what is read in its place is the schema that the program
# draws from it. A line says so, and how much of it was taken. Where no table is taken the file stays, and its fault is told.
draw() {
    local counts
    "$program" rewrite -- "$2" /dev/null >/dev/null 2>&1
    case $? in 5 | 13) ;; *) return 0 ;; esac
    "$program" schema -- "$2" >"$2.drawn" 2>"$2.counts" || return 0
    has -q '^CREATE TABLE ' "$2.drawn" || return 0
    if has -q '^-- table .*: left out, more than 64 tables' "$2.drawn"; then draw_named "$2" || return 0; fi
    # (what is left out would count for the size of a schema)
    grep -v '^ *--' "$2.drawn" >"$2.bare" || broken grep
    mv "$2.bare" "$2.drawn"
    counts=$(awk '{ printf "%s%s %s", (NR > 1 ? ", " : ""), $2 " of " $4, $1 }' "$2.counts") || broken awk
    mv "$2.drawn" "$2" || broken mv
    say "$verb: $1 is read as a dump: $counts are taken; qbs schema says of each why not"
}

# draw_named READ: of more tables than a schema has, those that a file names.
draw_named() {
    local number named
    sed -nE 's/^(CREATE TABLE|-- table) ([A-Za-z0-9_]+)( \(|: left out, more than 64 tables.*)$/\2/p' "$1.drawn" | sort -u >"$1.tables" || broken sed
    for number in "${!files[@]}"; do
        if [ "$number" = "${stdin_number:-}" ]; then cat "$room/stdin"; else cat -- "${files[$number]}" 2>/dev/null; fi
    done | { grep -aoE '[A-Za-z_][A-Za-z0-9_]*' || [ "$?" = 1 ]; } | sort -u | comm -12 - "$1.tables" | paste -sd , >"$1.named" || broken 'grep, sort, comm or paste'
    named=$(<"$1.named")
    [ -z "$named" ] || "$program" schema --tables="$named" -- "$1" >"$1.drawn" 2>"$1.counts"
}

# try_all: every file, as many side by side as there are processors. On a terminal a line says how far it is.
try_all() {
    local number running=0 most
    take_schemas
    probe_views
    probe_passes
    most=$(nproc 2>/dev/null || echo 2)
    if [ -t 2 ]; then
        progress &
        ticker=$!
    fi
    for number in "${!files[@]}"; do
        if [ "$running" -ge "$most" ]; then
            wait -n
            running=$((running - 1))
        fi
        try "$number" &
        running=$((running + 1))
        tried+=("$!")
    done
    wait ${tried[@]+"${tried[@]}"}
    [ -z "$ticker" ] || stop_progress
}
tried=()
# progress: after a second, and then now and again, how many files are done and how many loops were found; gone at the end.
progress() {
    local ended found
    trap 'printf "\r\033[K" >&2; exit' TERM
    nap 1
    while :; do
        ended=("$room"/*.status)
        found=$(cat "$room"/*.findings 2>/dev/null | awk -F'\t' '$3 ~ /^(found|unnested)$/ { count++ } END { print count + 0 }')
        [ -e "${ended[0]}" ] || ended=()
        printf '\r\033[Kqbs %s: %d of %d files, loops found: %d' "$verb" "${#ended[@]}" "${#files[@]}" "$found" >&2
        nap 0.2
    done
}
# (a shell that waits hears a signal at once, one that runs something doesn't)
nap() {
    sleep "$1" >/dev/null 2>&1 &
    wait "$!"
}
stop_progress() {
    kill "$ticker" 2>/dev/null
    wait "$ticker" 2>/dev/null
    ticker=
    printf '\r\033[K' >&2
}

# wants_memory SOURCE: whether the program wants memory where it reads this source, and is asked nothing more of it.
wants_memory() {
    "$program" check -- "$schema_read" "$1" /dev/null >/dev/null 2>&1
    [ "$?" = 12 ]
}
# too_deep AT: where a source gets too deep for the stack, if that is why memory is wanted: from there on the fronts of the source want it as well. The program's answer
# has no place, so it is asked of fronts that end behind a token, each time of the middle one of those that are left.
too_deep() {
    local low=0 high all middle
    wants_memory "$1.java" || return 0
    awk -f "$verbs/java.awk" -f "$verbs/fronts.awk" <(whole "$1.java") >"$1.ends" || broken awk
    all=$(wc -l <"$1.ends")
    high=$all
    while [ $((high - low)) -gt 1 ]; do
        middle=$(((low + high) / 2))
        head -c "$(sed -n "${middle}s/ .*//p" "$1.ends")" "$1.java" >"$1.front"
        if wants_memory "$1.front"; then high=$middle; else low=$middle; fi
    done
    # (no front wants it, so that something else does than how deep the source is)
    [ "$high" -lt "$all" ] || return 0
    sed -n "${high}s/.* /: too deep for the stack, at /p" "$1.ends"
}

# judged NUMBER: whether the program said what becomes of the file. Else a line says why not, and `trouble` is 1.
# A file with a fault is judged; `fault` says whether it has one, and whether it is the schema's.
judged() {
    local status at=$room/$1 schema_read
    status=$(cat "$at.status" 2>/dev/null)
    fault=
    case $status in
    0) return 0 ;;
    5) fault=schema ;;
    16) fault=map ;;
    6 | 7) fault=source ;;
    read) say "$verb: read ${files[$1]}" ;;
    2) refuse "a number out of range, or an option twice" ;;
    broken) broken 'diff or awk' ;;
    12)
        schema_of "$1"
        say "$verb: memory, for ${files[$1]}$(too_deep "$at")"
        ;;
    13)
        if has -qE 'schema|map' "$at.report"; then
            say "$verb: $(sed 's/^qbs: //' "$at.report")"
            exit 2
        fi
        if has -q view "$at.report"; then say "$verb: limit: view, more than 1 MiB is seen of ${files[$1]}"; else say "$verb: limit: source, more than 1 MiB in ${files[$1]}"; fi
        ;;
    *) say "$verb: the program ended with status ${status:-none} for ${files[$1]}" ;;
    esac
    [ -n "$fault" ] && return 0
    trouble=1
    return 1
}

# lines NUMBER FORMAT [COLOUR]: the findings of a file as lines. Where the schema has the fault, they are of it.
lines() {
    local file=${files[$1]} value
    case $fault in schema | map)
        set_for "$1" "${fault/map/view}" ''
        file=$value
        ;;
    esac
    FILE=$file awk -v format="$2" -v colour="${3:-}" -f "$verbs/bytes.awk" -f "$verbs/format.awk" "$room/$1.findings" || broken awk
}
# in_colour FD: whether what is written there may have colours.
in_colour() { [ -t "$1" ] && [ -z "${NO_COLOR:-}" ] && [ "${TERM:-dumb}" != dumb ]; }
# of_all: whether the fault is one of the schema or the map, so of every file.
of_all() { [ "$fault" = schema ] || [ "$fault" = map ]; }
# say_faults NUMBER: the lines of a file that isn't read, on standard error. A fault of the schema or the map is an end.
say_faults() {
    local colour=
    ! in_colour 2 || colour=yes
    lines "$1" text "$colour" >&2
    unread=1
    ! of_all || exit 2
}
