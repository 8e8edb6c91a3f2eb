# Where a loop that gave way is silenced: the source once more, with statements in that loop, and in those inside of it, with which none is of the kernel form, so that
# it stands; and, in the file SHIFTS, where so many bytes were put in. Ends with 1 where there is nothing to silence. With java.awk and places.awk.
END {
    find_loops()
    find_silence()
    if (!offs) exit 1
    for (number = 1; number <= loops; number++)
        if (kind[number] == "found" && is_silent(number))
            for (self = loop[number]; self <= made && first[self] <= last[loop[number]]; self++)
                if (kind_of[self] == "loop") hold(self)
    if (!holds) exit 1
    ORS = ""
    for (at = 1; at <= total; at++) {
        if (at in before) put(token_line[at], token_column[at], before[at])
        if (at in after) put(token_last[at], token_end[at], after[at])
    }
    for (number = 1; number <= lines; number++) {
        column = 1
        for (mark = 1; mark <= puts_in[number]; mark++) {
            print substr(source[number], column, put_column[number, mark] - column) put_text[number, mark]
            column = put_column[number, mark]
        }
        print substr(source[number], column) (number < lines ? "\n" : "")
    }
}
function hold(self,    at) {
    if (self in held) return
    held[self] = ++holds
    at = body_of[self]
    if (token[at] == "{") before[at + 1] = ENVIRON["MARK"] before[at + 1]
    else {
        before[at] = "{/**/" ENVIRON["MARK"] before[at]
        after[body_last[self]] = after[body_last[self]] "}" ENVIRON["END_MARK"]
    }
}
function put(line, column, text) {
    puts_in[line]++
    put_column[line, puts_in[line]] = column
    put_text[line, puts_in[line]] = text
    print line " " column " " length(text) "\n" >ENVIRON["SHIFTS"]
}
