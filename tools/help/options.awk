# Over options.tsv: the options of one verb, for the help, within 80 columns. A row has an option, its value, its verbs and a sentence.
BEGIN { FS = "\t" }
/^#/ || index(" " $3 " ", " " verb " ") == 0 { next }
{
    if (!options++) print "\nOptions, which stand before " (verb == "schema" ? "DUMP" : verb == "map" ? "the files" : "SCHEMA") ":\n"
    head = "  " $1 ($2 == "" ? "" : "=" $2)
    if (length(head) > 22) {
        print head
        head = ""
    }
    words = split($4, word, " ")
    line = sprintf("%-23s", head)
    for (number = 1; number <= words; number++) {
        if (length(line) + length(word[number]) > 78) {
            print line
            line = sprintf("%-23s", "")
        }
        line = line (line ~ / $/ ? "" : " ") word[number]
    }
    print line
}
