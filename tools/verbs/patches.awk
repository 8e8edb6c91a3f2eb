# What takes the place of which bytes. Loops that gave way stand with the run before them in one stretch of the source; where two have nothing but a run between them,
# it is one stretch of both. What is between stretches stands in the text as it was, so that what stands there else are the statements of the stretches, a line each.
# With java.awk and places.awk.

# Stretch g goes from its token stretch_first[g] to stretch_last[g]; last_loop[g] is the statement of its last loop, stretch_of[s] the stretch of loop s.
function find_stretches(    number, self, block, place, before) {
    for (number = 1; number <= loops; number++) {
        if (kind[number] != "found") continue
        self = loop[number]
        block = block_of[self]
        for (place = place_of[self]; place > 1; place--) {
            before = statement_of[block, place - 1]
            if (kind_of[before] != "run") break
        }
        if (place > 1 && before in stretch_of) stretch_of[self] = stretch_of[before]
        else {
            stretch_of[self] = ++stretches
            stretch_first[stretches] = first[statement_of[block, place]]
        }
        stretch_last[stretch_of[self]] = last[self]
        last_loop[stretch_of[self]] = self
    }
}

# Whether the text goes on, where it was read to, with the source from one place to another; if so it is read to behind that.
function goes_on(from_line, from, to_line, to,    at, column, piece) {
    at = text_at
    column = text_column
    for (; from_line < to_line; from_line++) {
        if (substr(text[at], column) != substr(source[from_line], from)) return 0
        from = column = 1
        at++
    }
    piece = substr(source[to_line], from, to - from)
    if (substr(text[at], column, length(piece)) != piece) return 0
    text_at = at
    text_column = column + length(piece)
    return 1
}
# The statement with which the text goes on where it was read to; it is read to behind that. Where there is none, `lost` is 1.
function next_statement(    at, character, quoted, begins) {
    if (text_column > length(text[text_at])) {
        text_at++
        match(text[text_at], /^[ \t]*/)
        text_column = RLENGTH + 1
    }
    begins = text_column
    for (at = begins; at <= length(text[text_at]); at++) {
        character = substr(text[text_at], at, 1)
        if (quoted && character == "\\") at++
        else if (character == "\"") quoted = !quoted
        else if (character == ";" && !quoted) {
            text_column = at + 1
            return substr(text[text_at], begins, at + 1 - begins)
        }
    }
    lost = 1
}
# In the same way all to the `)` or the `}` that closes what is opened first.
function next_closed(closer,    at, begins, character, quoted, depth, out) {
    for (; text_at <= texts; text_at++) {
        begins = text_column
        for (at = begins; at <= length(text[text_at]); at++) {
            character = substr(text[text_at], at, 1)
            if (quoted && character == "\\") at++
            else if (character == "\"") quoted = !quoted
            else if (quoted) continue
            else if (character == (closer == ")" ? "(" : "{")) depth++
            else if (character == closer && !--depth) {
                text_column = at + 1
                return out substr(text[text_at], begins, at + 1 - begins)
            }
        }
        out = out substr(text[text_at], begins) "\n"
        text_column = 1
    }
    lost = 1
}
# What came in place of each stretch: statements, statement_text[g, 1] to statement_text[g, answers[g]], or, with a closer, one thing that it closes. Whether the text
# is the source with these.
function find_answers(closer,    g) {
    text_at = text_column = 1
    lost = 0
    for (g = 1; g <= stretches; g++) {
        if (g == 1 && !goes_on(1, 1, token_line[stretch_first[1]], token_column[stretch_first[1]])) return 0
        do {
            if (closer != "" && answers[g]) return 0
            statement_text[g, ++answers[g]] = closer == "" ? next_statement() : next_closed(closer)
            if (lost) return 0
        } while (!goes_on(token_last[stretch_last[g]], token_end[stretch_last[g]], g < stretches ? token_line[stretch_first[g + 1]] : lines, g < stretches ? token_column[stretch_first[g + 1]] : length(source[lines]) + 1))
    }
    return !stretches || text_at >= texts && text_column > length(text[texts])
}

# Whether the answer of this number gives a variable of this loop its value.
function is_of(g, number, self,    name) {
    if (!index(statement_text[g, number], "db.query")) return 0
    name = substr(statement_text[g, number], 1, index(statement_text[g, number], " = ") - 1)
    sub(/^.* /, "", name)
    return sets(self, name)
}
function sets(self, name,    at) {
    if (!(self in read_sets)) {
        read_sets[self] = 1
        for (at = body_of[self]; at < last[self]; at++)
            if (token[at + 1] ~ /^(=|\+=|\+\+)$/ || token[at + 1] == "." && token[at + 2] == "add") set_in[self, token[at]] = 1
    }
    return (self, name) in set_in
}

# The type with which a variable is declared that is in sight at a statement.
function declared(name, self,    block, place, at, number) {
    for (; self; self = up[self]) {
        block = block_of[self]
        for (place = place_of[self]; place >= 1; place--) {
            at = first[statement_of[block, place]]
            if (token[at + 1] == name && token[at + 2] == "=") return token[at]
        }
        if (up[self] && token[first[up[self]]] == "for" && token[first[up[self]] + 3] == name) return token[first[up[self]] + 2]
        number = member_of[self]
    }
    for (at = member_first[number]; token[at] != "{"; at++) if (token[at] == name && token[at + 1] ~ /^[,)]$/) return token[at - 1]
    return ""
}
# To javac a number of a query is a long: where the variable is an int, (int) goes before it.
function as_javac_reads(said, self,    name) {
    if (!match(said, /^(int )?[A-Za-z_][A-Za-z0-9_]* = db\.queryLong\(/)) return said
    name = substr(said, 1, RLENGTH - 16)
    if (name !~ /^int / && declared(name, self) != "int") return said
    return name " = (int) " substr(said, length(name) + 4)
}

# What stands in the place of a stretch, with the ends of lines of the file, and above each answer the comments that stood in its loop and run. A comment with \u stays
# out: to javac it may hold code. comments_kept[s] and comments_gone[s] are the lines of the comments of a loop.
function write_stretch(g,    number, line, end, indent, out, self, comment, above) {
    line = token_line[stretch_first[g]]
    end = ends_in_cr(line) || line == lines && ends_in_cr(1) ? "\r\n" : "\n"
    match(source[line], /^[ \t]*/)
    indent = end substr(source[line], 1, RLENGTH)
    split("", above)
    for (; next_comment <= comments && comment_next[next_comment] <= stretch_last[g]; next_comment++) {
        if (comment_next[next_comment] <= stretch_first[g]) continue
        self = loop_of_comment(g, next_comment)
        comment = between(comment_line[next_comment], comment_column[next_comment], comment_last[next_comment], comment_end[next_comment])
        if (ENVIRON["KEEP"] == "no" || index(comment, "\\u")) comments_gone[self] = comments_gone[self] " " comment_line[next_comment]
        else {
            comments_kept[self] = comments_kept[self] " " comment_line[next_comment]
            for (number = 1; number < answers[g] && !is_of(g, number, self); number++) continue
            above[number] = above[number] comment indent
        }
    }
    for (number = 1; number <= answers[g]; number++)
        out = out (number > 1 ? indent : "") above[number] as_javac_reads(statement_text[g, number], last_loop[g])
    stretch_text[g] = out
}
function ends_in_cr(line) { return substr(source[line], length(source[line])) == "\r" }
# The loop of a stretch with which a comment goes: the first one that ends behind it.
function loop_of_comment(g, comment) {
    while (comment_loop < loops && (kind[comment_loop] != "found" || last[loop[comment_loop]] < comment_next[comment] || stretch_of[loop[comment_loop]] < g)) comment_loop++
    return loop[comment_loop]
}

# The file with each stretch in the place of its bytes, without an end behind its last line where it has none. A stretch that `stays` has its bytes. The file MOVES has a
# line for each other one: where it began and ended, where what came does, and printed[g], the method that was printed anew.
function write_text(to,    g, line, column, new_line, new_column, begins, ends, part) {
    line = column = new_line = new_column = 1
    ORS = ""
    printf "" >ENVIRON["MOVES"]
    for (g = 1; g <= stretches; g++) {
        if (stays[g]) continue
        write_bytes(line, column, token_line[stretch_first[g]], token_column[stretch_first[g]], to)
        new_column = token_column[stretch_first[g]] + (token_line[stretch_first[g]] > line ? 0 : new_column - column)
        new_line += token_line[stretch_first[g]] - line
        print stretch_front[g] stretch_text[g] >to
        line = token_last[stretch_last[g]]
        column = token_end[stretch_last[g]]
        begins = further_on(new_line, new_column, stretch_front[g])
        split(begins, part, " ")
        ends = further_on(part[1], part[2], stretch_text[g])
        print token_line[stretch_first[g]], token_column[stretch_first[g]], line, column, begins, ends, printed[g] "\n" >ENVIRON["MOVES"]
        split(ends, part, " ")
        new_line = part[1]
        new_column = part[2]
    }
    write_bytes(line, column, lines, length(source[lines]) + 1, to)
    ORS = "\n"
    close(to)
}
# The place behind a text that begins at this one.
function further_on(line, column, text,    count, piece) {
    count = split(text, piece, "\n")
    return count < 2 ? line " " column + length(text) : line + count - 1 " " length(piece[count]) + 1
}
function write_bytes(line, column, to_line, to_column, to) {
    for (; line < to_line; line++) {
        print substr(bytes_of(line), column) "\n" >to
        column = 1
    }
    print substr(bytes_of(line), column, to_column - column) >to
}
function bytes_of(line) { return originals ? original[line] : source[line] }
# The columns of a loop and its stretch, counted in characters.
function characters(self, g) {
    if (ENVIRON["CHARACTERS"] == "") return ""
    return character_at(token_line[first[self]], token_column[first[self]]) " " character_at(token_last[last[self]], token_end[last[self]]) (g ? " " character_at(token_line[stretch_first[g]], token_column[stretch_first[g]]) " " character_at(token_last[stretch_last[g]], token_end[stretch_last[g]]) : "")
}
