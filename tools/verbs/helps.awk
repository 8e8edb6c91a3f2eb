# docs/RULES.md as help: a line for each rule, its name and then its prose without the examples, and for `found` what is found.
BEGIN {
    print "found\tA query that is proved to give what the loop gives, in its place."
    print "unnested\tOne query that is proved to give what the loop gives, in place of the loop and of the queries that it asks for each row."
    print "narrowed\tA query for the rows that the loop wants, in place of its fetch. The loop stays."
    print "none\tNone of the queries that were tried is proved to give what the loop gives."
    print "budget\tNot all queries were tried."
    print "shared\tA row of a query is another object than the same row of a fetch. Where the method or its callers could tell, the loop stands, but for tables that the map has by value."
    print "unlike\tWhat would be written isn't seen as the method that is left, so the loop stands."
}
function told() {
    gsub(/[ \t\r]+/, " ", text)
    gsub(/\[LANGUAGE\]\([^)]*\)/, "docs/LANGUAGE.md", text)
    gsub(/\[sql\]\([^)]*\)/, "sql", text)
    # (the reasons of views are called V1 to V12)
    if (name ~ /^view [0-9]+ /) {
        split(name, part, " ")
        name = "V" part[2]
    }
    if (name != "") print name "\t" text
    name = text = ""
}
/^## / { told() }
/^### / {
    told()
    text = $0
    sub(/^### /, "", text)
    name = text
    sub(/: .*/, "", name)
    sub(/^[^:]*: /, "", text)
    text = toupper(substr(text, 1, 1)) substr(text, 2) "."
    next
}
/^ *```/ { inside = !inside; next }
!inside && name != "" && !/^ *$/ { text = text " " $0 }
END { told() }
