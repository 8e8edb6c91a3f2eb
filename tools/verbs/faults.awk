# A line for each fault of a source, in the form of findings.awk, with 19 what stands there in Java, 20 what to write instead, 21 its line and, parted by byte 251, the
# column of its place in it and how many columns it has. It reads tools/rules.tsv, tools/cures.tsv, reports, and the source. With java.awk and constructs.awk.
FILENAME == ARGV[1] {
    split($0, field, "\t")
    sentence[field[1] " " field[2]] = field[4]
    next
}
FILENAME == ARGV[2] {
    if ($0 ~ /^#/) next
    split($0, field, "\t")
    gsub(/\\\|/, "|", field[4])
    name_of[field[1]] = field[2]
    cure_of[field[1]] = field[4]
    next
}
FILENAME == ARGV[3] {
    if (!match($0, /(schema|map|types|lex|parse|helpers):? [0-9]+ [A-Za-z0-9]+ at [0-9]+:[0-9]+$/)) next
    text = substr($0, RSTART)
    gsub(/:? +/, " ", text)
    split(text, field, " ")
    faults++
    kind[faults] = field[1]
    rule[faults] = field[1] " " field[2] " " field[3]
    said[faults] = sentence[field[1] " " field[2]]
    split(field[5], part, ":")
    at_place[faults] = part[1] * 10000000 + part[2]
    fault_line[faults] = part[1]
    fault_column[faults] = part[2]
    next
}
{ take_line($0) }
END {
    whole()
    tokens()
    class_members()
    for (number = 1; number <= faults; number++) {
        # (in the order of their places)
        least = 0
        for (other = 1; other <= faults; other++) if (!(other in told) && (!least || at_place[other] < at_place[least])) least = other
        told[least] = 1
        tell(least)
    }
}
function tell(number,    line, column, at, end, id, from, to, end_line) {
    line = fault_line[number]
    column = fault_column[number]
    at = token_at(line, column)
    # (a method that was made blank is no fault of those that call it)
    if (rule[number] ~ /NoMethod/ && is_method(token[at])) return
    end_line = line
    end = at <= total && token_line[at] == line && token_column[at] == column && kind[number] != "lex" ? token_end[at] : column + 1
    while (substr(source[line], end, 1) ~ /^[\200-\277]$/) end++
    if (end > column + 1 && token_last[at] > line) end = length(source[line]) + 1
    id = construct(kind[number], rule[number], at, line, column)
    # (a part of a long line)
    from = column > 120 ? column - 80 : 1
    to = end - column > 120 ? column + 120 : end
    text = (from > 1 ? ".. " : "") substr(source[line], from, to - from + 80) (length(source[line]) >= to + 80 ? " .." : "")
    sub(/\r$/, "", text)
    gsub(/\t/, "\374", text)
    print line "\t" column "\terror\t" rule[number] "\t" line "\t" column "\t" said[number] "\t" line "\t" end "\t\t\t\t\t\t\t\t\t\t" name_of[id] "\t" cure_of[id] "\t" text "\373" (column - from + 1 + (from > 1 ? 3 : 0)) "\373" (to - column) "\t" characters_of(line, column) " " characters_of(line, end)
}
function is_method(name,    number, at) {
    for (number = 1; number <= members; number++)
        for (at = member_first[number]; at < member_last[number] && token[at] != "{"; at++) if (token[at] == name && token[at + 1] == "(") return 1
    return 0
}
function characters_of(line, column,    text) {
    text = substr(source[line], 1, column - 1)
    gsub(/[\200-\277]/, "", text)
    return length(text) + 1
}
