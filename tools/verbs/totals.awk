# The findings of all files, behind tools/rules.tsv: how many there are of each kind, as bars.
BEGIN {
    FS = "\t"
    split("found none budget error", names, " ")
    title["found"] = "gave way to a query"
    title["unnested"] = "gave way with the queries that it asked for each row"
    title["narrowed"] = "asks for the rows alone that it wants"
    title["none"] = "none of the queries that were tried"
    title["shared"] = "a query would give other objects"
    title["unlike"] = "what would be written isn't seen alike"
    title["budget"] = "too many queries to try"
    title["error"] = "fault in the file"
}
FILENAME == ARGV[1] {
    if ($1 == "kernel") title[$3] = $3 ": " $4
    if ($1 == "narrow") title[reason[$2] = "narrow " $2 " " $3] = $3 ": " $4
    if ($1 == "view") title["V" $2] = "V" $2 ": " $4
    next
}
{ count[$3 ~ /^(outside|stays|unseen)$/ ? $4 : $3]++ }
function bar(name, class) {
    if (count[name]) printf "<tr><td>%s</td><td>%d</td><td><div class=\"%s\" style=\"width:%d%%\"></div></td></tr>\n", title[name], count[name], class, 100 * count[name] / most
}
END {
    for (name in count) if (count[name] > most) most = count[name]
    print "<table class=\"totals\">"
    bar("found", "found")
    bar("unnested", "found")
    bar("narrowed", "narrowed")
    for (number = 1; number <= 9; number++) bar("K" number, "outside")
    for (number = 1; number in reason; number++) bar(reason[number], "stays")
    for (number = 1; number <= 12; number++) bar("V" number, "stays")
    bar("shared", "stays")
    bar("unlike", "stays")
    bar("none", "none")
    bar("budget", "budget")
    bar("error", "error")
    print "</table>"
}
