# Over all findings and docs/RULES.md: each rule that a finding names, as the page says it, with its examples. With bytes.awk before it.
FILENAME == ARGV[1] {
    split($0, field, "\t")
    if (field[4] != "") wanted[field[4]] = 1
    next
}
/^#/ {
    ended()
    inside = 0
    if (/^### /) {
        name = substr($0, 5)
        sub(/: .*/, "", name)
        if (name ~ /^view [0-9]+ /) {
            split(name, part, " ")
            name = "V" part[2]
        }
        inside = name in wanted
        if (inside) {
            if (!rules++) print "<h2 class=\"rules\">Rules</h2>"
            split(name, part, " ")
            print "<h3 id=\"rule-" (part[2] == "" ? name : part[1] "-" part[2]) "\">" shown(substr($0, 5), "html") "</h3>"
        }
    }
    next
}
!inside { next }
/^```/ {
    ended()
    fenced = !fenced
    print fenced ? "<pre>" : "</pre>"
    next
}
fenced { print shown($0, "html"); next }
/^$/ { ended(); next }
{
    sub(/^- /, "")
    paragraph = paragraph (paragraph ? " " : "") $0
}
# (links lead to other places of that page)
function ended() {
    if (paragraph == "") return
    paragraph = shown(paragraph, "html")
    gsub(/\]\([^)]*\)/, "", paragraph)
    gsub(/\[/, "", paragraph)
    print "<p>" paragraph "</p>"
    paragraph = ""
}
END { ended() }
