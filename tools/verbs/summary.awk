# Of the findings of a file that changed, what is said beside the change: how many loops gave way, how many (int) were put in, and which comments go. With `all` as one
# line, else only what isn't seen in a diff. With bytes.awk; FILE names the file.
BEGIN { FS = "\t" }
$3 ~ /^(found|unnested)$/ {
    found++
    casts += $11
    if ($13 != "") gone = gone " " $13
}
$3 == "narrowed" { narrowed++ }
$3 == "anew" {
    anew = anew ", " $7
    if ($13 != "") gone = gone " " $13
}
END {
    if (all && (found || !narrowed)) said = ", " found (found == 1 ? " loop" : " loops") " gave way"
    if (all && narrowed) said = said ", " narrowed (narrowed == 1 ? " loop was" : " loops were") " narrowed"
    if (all && anew != "") said = said ", printed anew: " substr(anew, 3)
    if (casts) said = said ", (int) stands before " casts (casts == 1 ? " query" : " queries") ", as javac wants it"
    count = split(gone, line, " ")
    if (count) {
        said = said ", " count (count == 1 ? " comment goes: line " : " comments go: lines ")
        for (number = 1; number <= count; number++) said = said (number > 1 ? ", " : "") line[number]
    }
    if (said != "") print (all ? "" : "qbs diff: ") shown(ENVIRON["FILE"], "plain") ": " substr(said, 3)
}
