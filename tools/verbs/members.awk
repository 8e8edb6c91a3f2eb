# A source with the member of its class made blank in which the fault of a report stands; of the class's head, the annotation, the word, or all that stands behind the
# class's name; behind the class, all. Ends with 1 where nothing can be told to go. With java.awk.
FILENAME == ARGV[1] {
    if (match($0, / at [0-9]+:[0-9]+$/)) split(substr($0, RSTART + 4), place, ":")
    next
}
{ take_line($0) }
END {
    whole()
    tokens()
    class_members()
    at = token_at(place[1], place[2])
    # (in a class that isn't closed no brace tells what it closes)
    if (at > total || class_close > total) exit 1
    if (at > class_close) from_to(at, total)
    else if (at == class_close || at == class_open) exit 1
    else if (at < class_open) head(at)
    else {
        for (number = 1; number <= members; number++) if (member_last[number] >= at) break
        if (number > members || number == broken) exit 1
        from_to(member_first[number], member_last[number])
    }
    ORS = ""
    for (number = 1; number <= lines; number++) print source[number] (number < lines ? "\n" : "")
}
function head(at,    number) {
    if (token[at] == "@") {
        for (number = at + 1; token[number + 1] == "."; number += 2) continue
        if (token[number + 1] == "(") number = closing(number + 1)
        from_to(at, number)
        return
    }
    for (number = 1; number < at && token[number] != "class"; number++) continue
    if (token[number] == "class" && at > number + 1) from_to(at, class_open - 1)
    else if (token[at] ~ /^(final|abstract|static|strictfp|sealed)$/) from_to(at, at)
    else exit 1
}
# All bytes from one token to another are blank, line ends aside.
function from_to(from, to,    line, begins, ends) {
    for (line = token_line[from]; line <= token_last[to]; line++) {
        begins = line == token_line[from] ? token_column[from] : 1
        ends = line == token_last[to] ? token_end[to] : length(source[line]) + 1
        source[line] = substr(source[line], 1, begins - 1) blanks(substr(source[line], begins, ends - begins)) substr(source[line], ends)
    }
}
function blanks(text) {
    gsub(/[^\r]/, " ", text)
    return text
}
