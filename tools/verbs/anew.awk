# What inline printed anew of a source, in the file TO, with the (int) and the ends of lines of the file: the methods in which a call stands, from the first token to the
# last; where the rest isn't as it was, all of it. Comments go with them, so each `qbs:off` of such a method, and of those that it calls, stands above it, outside of what
# MOVES says. With java.awk, places.awk and patches.awk.
END {
    find_loops()
    for (line = 1; line <= lines; line++) if (source[line] != original[line]) casts = 1
    find_calls()
    find_offs()
    if (stretches && find_answers("}")) {
        for (g = 1; g <= stretches; g++) {
            stretch_front[g] = offs_of[member_in[g]] == "" ? "" : "\n" offs_of[member_in[g]]
            stretch_text[g] = as_in_file(statement_text[g, 1], token_line[stretch_first[g]])
        }
        write_text(ENVIRON["TO"])
    } else write_whole(ENVIRON["TO"])
}
function find_calls(    member, at, has) {
    for (member = 1; member <= members; member++) {
        has = 0
        for (at = member_first[member]; at < member_last[member]; at++) {
            if (token[at] == "(" && !name_of[member]) name_of[member] = token[at - 1]
            if (token[at] != "=" || token[at + 1] !~ /^[A-Za-z_]/ || token[at + 1] == "new" || token[at + 2] != "(") continue
            has = 1
            called[member, ++calls[member]] = token[at + 1]
        }
        if (!has) continue
        stretch_first[++stretches] = member_first[member]
        stretch_last[stretches] = member_last[member]
        member_in[stretches] = member
        printed[stretches] = name_of[member]
    }
}
# The comments `qbs:off` that each method has: its own, and those of the methods that it calls.
function find_offs(    number, text, member, from, on, at, other, more) {
    for (number = 1; number <= comments; number++) {
        text = between(comment_line[number], comment_column[number], comment_last[number], comment_end[number])
        if (!match(text, /(^|[^A-Za-z0-9_:-])qbs:off([^A-Za-z0-9_-]|$)/)) continue
        text = substr(text, RSTART + RLENGTH - 1)
        text = "/* qbs:off" (match(text, /^([ ,]*K[1-9])+/) ? substr(text, 1, RLENGTH) : "") " */\n"
        all_offs = all_offs text
        from = comment_next[number]
        on = from > 1 && token_last[from - 1] == comment_line[number]
        for (member = 1; member <= members; member++) if (member_first[member] <= from - on && from - on <= member_last[member]) offs_of[member] = offs_of[member] text
    }
    do {
        more = 0
        for (member = 1; member <= members; member++)
            for (at = 1; at <= calls[member]; at++)
                for (other = 1; other <= members; other++)
                    if (name_of[other] == called[member, at] && offs_of[other] != "" && !index(offs_of[member], offs_of[other])) {
                        offs_of[member] = offs_of[member] offs_of[other]
                        more = 1
                    }
    } while (more)
}
# A text in canonical layout with the ends of lines of the file, and with (int) where the file had some and javac wants it.
function as_in_file(text, line,    count, row, number, out) {
    count = split(text, row, "\n")
    for (number = 1; number <= count; number++) out = out (number > 1 ? (ends_in_cr(line) && row[number - 1] !~ /\r$/ ? "\r\n" : "\n") : "") (casts ? with_cast(row[number], text) : row[number])
    return out
}
function with_cast(row, text,    to) {
    if (!match(row, /^ *(int )?[A-Za-z_][A-Za-z0-9_]* = db\.queryLong\(/)) return row
    to = substr(row, 1, RLENGTH - 14)
    sub(/ =.*/, "", to)
    sub(/^ */, "", to)
    if (to !~ /^int / && (text !~ "(^|[^A-Za-z0-9_])int " to "[ ,)]" || text ~ "(^|[^A-Za-z0-9_])long " to "[ ,)]")) return row
    sub(/ = db/, " = (int) db", row)
    return row
}
function write_whole(to,    at, out) {
    for (at = 1; at <= texts; at++) out = out (at > 1 ? "\n" : "") text[at]
    out = as_in_file(out, 1)
    ORS = ""
    print all_offs out >to
    print 1, 1, lines, length(source[lines]) + 1, further_on(1, 1, all_offs), further_on(1 + gsub(/\n/, "\n", all_offs), 1, out), "class\n" >ENVIRON["MOVES"]
}
