# What narrow says of the for-eachs of a source, as lines of findings.awk, and the new text in the file TO; with java.awk, places.awk and patches.awk. With SOLE, no other
# pass says why a loop stands, so lines with the reasons come too, and how many are silenced goes to the file SILENCED.
END {
    find_loops()
    find_silence()
    for (number = 1; number <= loops; number++) {
        if (kind[number] != "narrowed") continue
        stretch_of[loop[number]] = ++stretches
        stretch_first[stretches] = fetch_for(loop[number])
        stretch_last[stretches] = stretch_first[stretches] + 7
        stays[stretches] = is_silent(number)
    }
    if (!find_answers(")")) exit 2
    for (g = 1; g <= stretches; g++) stretch_text[g] = statement_text[g, 1]
    write_text(ENVIRON["TO"])
    for (number = 1; number <= loops; number++) {
        self = loop[number]
        if (passed_over(number)) continue
        g = kind[number] == "narrowed" ? stretch_of[self] : 0
        if (!g && ENVIRON["SOLE"] == "") continue
        place = g ? token_line[stretch_first[g]] "\t" token_column[stretch_first[g]] "\t" token_last[stretch_last[g]] "\t" token_end[stretch_last[g]] "\t" packed(stretch_text[g]) : "\t\t\t\t"
        print said_line[number] "\t" said_column[number] "\t" kind[number] "\t" rule[number] "\t" said_line[number] "\t" said_column[number] "\t" (g ? stretch_text[g] : message[number]) "\t" token_last[last[self]] "\t" token_end[last[self]] "\t" (over_table(self) ? "table" : "list") "\t\t\t\t" place "\t\t\t\t" characters(self, g) "\tnarrow"
    }
    if (ENVIRON["SOLE"] != "") print silenced + 0 >ENVIRON["SILENCED"]
}
# The first token of the fetch that a for-each walks: it stands in its head, or in the declaration before it.
function fetch_for(self,    at) {
    for (at = first[self]; token[at] != ":"; at++) continue
    if (token[at + 1] != "db") for (at = first[statement_of[block_of[self], place_of[self] - 1]]; token[at] != "="; at++) if (at >= first[self]) exit 2
    if (token[at + 1] != "db" || token[at + 3] != "fetch") exit 2
    return at + 1
}
