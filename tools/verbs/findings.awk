# A line for each loop of a source that was read, parted by tabs, and the new text in the file TO; with java.awk, places.awk and patches.awk. A line has
#  1 line, 2 column, 3 kind (found as FOUND names it, outside, none, budget; error comes from faults.awk), 4 rule, 5, 6 line and column that it speaks of, 7 message,
#  8, 9 line and column behind the loop, 10 what it walks (table, list), 11 how many (int) its stretch has, 12 lines of comments that are kept, 13 that go,
#  14 to 17 the place of all that goes with it, 18 what takes its place, 19 to 21 are for faults, 22 columns as characters (of 2, 9, 15 and 17), 23 the pass, where
#  there is more than one, 24 the method that --inline prints anew, where its place is told instead.
# A text has byte 251 for a line feed, 252 for a tab and 253 for a carriage return, none of which UTF-8 has. How many loops are silenced goes to the file SILENCED.
END {
    find_loops()
    find_silence()
    find_stretches()
    if (!find_answers("")) exit 2
    next_comment = comment_loop = 1
    for (g = 1; g <= stretches; g++) write_stretch(g)
    write_text(ENVIRON["TO"])
    for (number = 1; number <= loops; number++) {
        self = loop[number]
        if (passed_over(number)) continue
        if (kind[number] == "found") message[number] = answer(self)
        g = kind[number] == "found" ? stretch_of[self] : 0
        place = g ? token_line[stretch_first[g]] "\t" token_column[stretch_first[g]] "\t" token_last[stretch_last[g]] "\t" token_end[stretch_last[g]] "\t" packed(stretch_text[g]) : "\t\t\t\t"
        print said_line[number] "\t" said_column[number] "\t" (kind[number] == "found" ? ENVIRON["FOUND"] : kind[number]) "\t" rule[number] "\t" where_line[number] "\t" where_column[number] "\t" message[number] "\t" token_last[last[self]] "\t" token_end[last[self]] "\t" (over_table(self) || g ? "table" : "list") "\t" (g ? casts_of(self) : "") "\t" substr(comments_kept[self], 2) "\t" substr(comments_gone[self], 2) "\t" place "\t\t\t\t" characters(self, g) "\t" ENVIRON["PASS"]
    }
    print silenced + 0 >ENVIRON["SILENCED"]
}
# The statements of its stretch that give a loop's variables their values, as many as a message holds; where a later one took what it gave, all that ask.
function answer(self,    number, out, asking, g) {
    g = stretch_of[self]
    for (number = 1; number <= answers[g] && length(out) < 1000 && length(asking) < 1000; number++) {
        if (is_of(g, number, self)) out = out " " statement_text[g, number]
        if (index(statement_text[g, number], "db.query")) asking = asking " " statement_text[g, number]
    }
    return substr(out == "" ? asking : out, 2)
}
function casts_of(self,    number, g, count) {
    g = stretch_of[self]
    for (number = 1; number <= answers[g]; number++)
        if (is_of(g, number, self) && as_javac_reads(statement_text[g, number], self) != statement_text[g, number]) count++
    return count
}
