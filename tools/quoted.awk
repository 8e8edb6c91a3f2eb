# Over docs/tried/*.md and then pages: each line there that begins with `> ` has to stand in a page, and each paragraph, bullet and row of a page has to hold such a
# line, or a block that is run has to stand behind it. Prints what doesn't.
function plain(text) { gsub(/[ \t\n]+/, " ", text); sub(/^ /, "", text); sub(/ $/, "", text); return text }
function ended(    number) {
    item = plain(item)
    # (a row of dashes is none, the row above it is a head, and a list of links is no sentence)
    if (item != "" && item !~ /^\| ---/ && item !~ /^- \[/) {
        items++
        said[items] = item
        at[items] = place
        near = items
    } else if (item ~ /^\| ---/) items--
    item = ""
}
/^ *```/ {
    if (!inside) {
        ended()
        if (FILENAME !~ /docs\/tried/ && $0 ~ /^ *```(sql|java|csv|console)/) run[near] = 1
    }
    inside = !inside
    next
}
inside { next }
FILENAME ~ /docs\/tried/ {
    if (/^> /) {
        quotes++
        quote[quotes] = plain(substr($0, 3))
        of[quotes] = FILENAME ":" FNR
    }
    next
}
FNR == 1 { ended() }
/^#/ { ended(); near = 0; next }
/^ *$/ { ended(); next }
/^\|/ || /^- / || /^[0-9]+\. / { ended() }
{
    if (item == "") place = FILENAME ":" FNR
    item = item " " $0
}
END {
    ended()
    for (number = 1; number <= quotes; number++)
        for (other = 1; other <= items; other++)
            if (index(said[other], quote[number])) {
                used[number] = 1
                run[other] = 1
            }
    for (number = 1; number <= quotes; number++) if (!used[number]) print of[number] ": no page says: " quote[number]
    for (other = 1; other <= items; other++) if (!run[other]) print at[other] ": nothing tries: " said[other]
}
