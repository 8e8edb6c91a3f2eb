# The section of one file, the NUMBER-th: its findings, the diff of source and text, and the source itself, in this order; FILE names it. Whole lines have the
# colour of the loop that they go with, a run as its loop; beside stands what takes their place, or why they stand. What no loop touches is folded but for three
# lines before and behind. With bytes.awk before it.
BEGIN {
    CONTEXT = 3
    number = ENVIRON["NUMBER"]
}
FILENAME == ARGV[1] {
    split($0, field, "\t")
    loops++
    at_line[loops] = field[1]
    kind[loops] = field[3]
    # (the lines of the loop, and of all that goes with it, where that is told)
    first[loops] = field[14] ? field[14] : field[1]
    last[loops] = field[16] ? field[16] : field[8] ? field[8] : field[1]
    if (field[3] !~ /^(found|unnested|narrowed)$/) note[field[1]] = note[field[1]] verdict(field[3], field[4], field[5] ":" field[6], field[7])
    next
}
FILENAME == ARGV[2] {
    if ($0 ~ /^[0-9]+(,[0-9]+)?[acd][0-9]+(,[0-9]+)?$/) {
        hunks++
        split($0, part, /[acd]/)
        split(part[1], ends, ",")
        goes[hunks] = ends[1]
        until[hunks] = ends[2] ? ends[2] : ends[1]
        # (what is put in behind a line takes the place of none)
        if ($0 ~ /a/) {
            goes[hunks]++
            until[hunks] = goes[hunks] - 1
        }
    } else if (/^> /) text[hunks, ++texts[hunks]] = substr($0, 3)
    next
}
{ source[++lines] = $0 }

# Why a loop stands, with a link to its rule, which rules.awk has at the end of the page.
function verdict(kind, rule, where, says,    said) {
    said = rule == "" ? "at " where (kind == "none" ? "" : ": " kind) : "<a href=\"#rule-" anchor(rule) "\">" shown(rule, "html") " at " where "</a>"
    return "<p class=\"" kind "\">" said ": " shown(says, "html") "</p>"
}
function anchor(rule,    part) { return split(rule, part, " ") > 1 ? part[1] "-" part[2] : rule }

# What is put in by a hunk, as far to the left as its lines allow, each query broken at its clauses.
function made(hunk,    line, margin, out) {
    margin = -1
    for (line = 1; line <= texts[hunk]; line++) {
        match(text[hunk, line], /^[ \t]*/)
        if (margin < 0 || RLENGTH < margin) margin = RLENGTH
    }
    for (line = 1; line <= texts[hunk]; line++) out = out clauses(substr(text[hunk, line], margin + 1)) "\n"
    return out
}
# A line of Java, with line ends in front of its queries and of their FROM, WHERE, GROUP BY and ORDER BY, deeper inside of parentheses. What is in '..' is a text.
# (pieces, so that a line of a megabyte takes no square of it)
function clauses(line,    at, from, character, quoted, sql, literal, depth, piece, out) {
    from = 1
    for (at = 1; at <= length(line); at++) {
        character = substr(line, at, 1)
        if (quoted && character == "\\") at++
        else if (character == "\"") {
            quoted = !quoted
            literal = depth = 0
            sql = quoted && substr(line, at + 1, 7) == "SELECT "
            if (sql) {
                piece = piece trimmed(substr(line, from, at - from)) "\n    "
                from = at
            }
        } else if (sql && quoted) {
            if (character == "'") literal = !literal
            else if (literal) continue
            else if (character == "(") depth++
            else if (character == ")") depth--
            else if (character == " " && substr(line, at + 1, 9) ~ /^(FROM |WHERE |GROUP BY |ORDER BY )/) {
                piece = piece shown(substr(line, from, at - from), "html") "\n" sprintf("%" 4 + 4 * (depth > 0 ? depth : 0) "s", "")
                from = at + 1
            }
        }
        if (length(piece) > 1000) {
            out = out piece
            piece = ""
        }
    }
    return out piece shown(substr(line, from), "html")
}
function trimmed(text) { sub(/ +$/, "", text); return shown(text, "html") }

# The lines from one to another, each with its number.
function numbered(from, to,    line) {
    print "<div class=\"code\">"
    for (line = from; line <= to; line++) printf "<div%s><b>%d</b>%s</div>\n", class[line] ? " class=\"" class[line] "\"" : "", line, shown(source[line], "html")
    print "</div>"
}
# A row: lines, and what stands beside them.
function row(from, to, beside) {
    print "<div class=\"row\">"
    numbered(from, to)
    print "<div class=\"beside\">" beside "</div></div>"
}
# Lines that no loop touches.
function untouched(from, to,    begins, ends) {
    begins = from == 1 ? from : from + CONTEXT
    ends = to == lines ? to : to - CONTEXT
    if (ends - begins < 1) {
        row(from, to, "")
        return
    }
    if (begins > from) row(from, begins - 1, "")
    print "<details><summary>" ends - begins + 1 " lines</summary>"
    row(begins, ends, "")
    print "</details>"
    if (ends < to) row(ends + 1, to, "")
}

END {
    for (loop = 1; loop <= loops; loop++) {
        if (last[loop] > lines) source[lines = last[loop]] = ""
        for (line = first[loop]; line <= last[loop]; line++) class[line] = kind[loop]
    }
    for (hunk = 1; hunk <= hunks; hunk++) {
        if (until[hunk] < goes[hunk] && goes[hunk] > lines) source[lines = goes[hunk]] = ""
        for (line = goes[hunk]; line <= until[hunk]; line++) if (class[line] != "narrowed") class[line] = "found"
        beside[goes[hunk]] = beside[goes[hunk]] "<pre class=\"made\">" made(hunk) "</pre>"
        starts[until[hunk] + 1] = 1
    }
    print "<section id=\"file-" number "\"><h2>" shown(ENVIRON["FILE"], "html") "</h2>"
    if (!loops) print "<p>No loop over a table.</p>"
    begins = 1
    for (line = 1; line <= lines; line++) {
        beside[line] = beside[line] note[line]
        told = class[line] || beside[line] ? 1 : 0
        if (line > 1 && (told != before || beside[line] || starts[line])) {
            if (before) row(begins, line - 1, beside[begins])
            else untouched(begins, line - 1)
            begins = line
        }
        before = told
    }
    if (lines && before) row(begins, lines, beside[begins])
    else if (lines) untouched(begins, lines)
    print "</section>"
}
