# The findings of all passes, with java.awk: it reads the file, the text that came of it, and a line for each finding, as findings.awk has them, at a place of what its pass
# read. Each comes with its place in the file, and a fix with what becomes of which bytes of the file. The text goes to the file TO. The files AT.inline.moves,
# AT.rewrite.moves, AT.unnest.moves and AT.narrow.moves say what each pass moved. A method that was printed anew stays as it was where no other pass did anything in it; of each other
# one the file ANEW has a line, with its name and the lines of the comments that go.
FILENAME == ARGV[1] { take_line($0); next }
FILENAME == ARGV[2] { came[++came_lines] = $0; next }
{ finding[++findings] = $0 }
END {
    whole()
    if (came[came_lines] !~ /x$/) exit 2
    came[came_lines] = substr(came[came_lines], 1, length(came[came_lines]) - 1)
    read_moves("inline")
    read_moves("rewrite")
    read_moves("unnest")
    read_moves("narrow")
    join_moves("inline", "rewrite", "before unnest")
    join_moves("before unnest", "unnest", "before narrow")
    join_moves("before narrow", "narrow", "all")
    for (number = 1; number <= findings; number++) tell(number)
    # (those of each pass come in the order of the text, and at one place those of an earlier pass first)
    for (number = 1; number <= findings; number++) {
        if (number == 1 || turn[number] != turn[number - 1]) turns[++groups] = number
    }
    turns[groups + 1] = findings + 1
    for (number = 1; number <= groups; number++) next_of[number] = turns[number]
    for (number = 1; number <= findings; number++) {
        chosen = 0
        for (group = 1; group <= groups; group++)
            if (next_of[group] < turns[group + 1] && (!chosen || is_before(next_of[group], next_of[chosen]))) chosen = group
        print out[next_of[chosen]++]
    }
    write_all(ENVIRON["TO"])
    if (count["inline"]) tell_anew(ENVIRON["ANEW"])
}

# ---- moves: move[list, n, 1 to 8] are where a change begins and ends, before and after; of[list, n] is the method that it prints anew, if it does, and inside[list, n]
# says whether another pass did something in it

function read_moves(list,    file, line, part, number) {
    file = ENVIRON["AT"] "." list ".moves"
    count[list] = 0
    while ((getline line <file) > 0) {
        number = split(line, part, " ")
        count[list]++
        for (number = 1; number <= 8; number++) move[list, count[list], number] = part[number]
        of[list, count[list]] = part[9]
    }
}
function is_behind(line, column, other_line, other_column) { return line > other_line || line == other_line && column >= other_column }
# place_line, place_column: the place that is as far behind a place as this one is behind another.
function shift(line, column, from_line, from, to_line, to) {
    place_line = line - from_line + to_line
    place_column = line == from_line ? column - from + to : column
}
# Where a place is behind the changes of a list that end before it.
function forth(list, line, column,    number, found) {
    for (number = 1; number <= count[list] && is_behind(line, column, move[list, number, 3], move[list, number, 4]); number++) found = number
    place_line = line
    place_column = column
    if (found) shift(line, column, move[list, found, 3], move[list, found, 4], move[list, found, 7], move[list, found, 8])
}
# Where a place was before the changes of a list. In what one of them put in it is where that began, or ended; its number is the answer then.
function back(list, line, column, end,    number, found) {
    place_line = line
    place_column = column
    for (number = 1; number <= count[list] && is_behind(line, column - (end ? 1 : 0), move[list, number, 5], move[list, number, 6]); number++) found = number
    if (!found) return 0
    if (!is_behind(line, column, move[list, found, 7], move[list, found, 8])) {
        place_line = move[list, found, end ? 3 : 1]
        place_column = move[list, found, end ? 4 : 2]
        return found
    }
    shift(line, column, move[list, found, 7], move[list, found, 8], move[list, found, 3], move[list, found, 4])
    return 0
}
# The changes of one list and then those of another, as those of one.
function join_moves(list, next_list, to,    one, other, number) {
    one = other = 1
    count[to] = 0
    while (one <= count[list] || other <= count[next_list]) {
        number = ++count[to]
        if (other > count[next_list] || one <= count[list] && is_behind(move[next_list, other, 1], move[next_list, other, 2], move[list, one, 5], move[list, one, 6])) {
            copy(list, one, to, number, 1)
            of[to, number] = of[list, one]
            inside[to, number] = inside[list, one]
            forth(next_list, move[list, one, 5], move[list, one, 6])
            put(to, number, 5)
            for (; other <= count[next_list] && is_behind(move[list, one, 7], move[list, one, 8], move[next_list, other, 3], move[next_list, other, 4]); other++) inside[to, number] = 1
            forth(next_list, move[list, one, 7], move[list, one, 8])
            put(to, number, 7)
            one++
        } else {
            copy(next_list, other, to, number, 5)
            back(list, move[next_list, other, 1], move[next_list, other, 2])
            put(to, number, 1)
            back(list, move[next_list, other, 3], move[next_list, other, 4], "end")
            put(to, number, 3)
            other++
        }
    }
}
function copy(list, number, to, other, from,    at) { for (at = from; at < from + 4; at++) move[to, other, at] = move[list, number, at] }
function put(to, number, at) {
    move[to, number, at] = place_line
    move[to, number, at + 1] = place_column
}

# ---- findings

function tell(number,    field, list, anew, change, at, line) {
    split(finding[number], field, "\t")
    list = field[23] ~ /^(unnest|narrow)$/ ? "before " field[23] : "inline"
    turn[number] = list
    # (a method printed anew has one place for all that is in it)
    anew = back(list, field[1], field[2])
    if (anew && of[list, anew] == "") anew = 0
    if (anew) field[24] = of[list, anew]
    set_place(field, 1)
    if (anew) set_place(field, 5)
    else {
        back(list, field[5], field[6])
        set_place(field, 5)
    }
    back(list, field[8], field[9], "end")
    set_place(field, 8)
    for (at = 12; at <= 13; at++) field[at] = lines_back(list, field[at])
    if (field[14] != "") {
        back(list, field[14], field[15])
        for (change = count["all"]; change > 1 && !is_behind(place_line, place_column, move["all", change, 1], move["all", change, 2]); change--) continue
        for (at = 1; at <= 4; at++) field[13 + at] = move["all", change, at]
        field[18] = packed(came_between(move["all", change, 5], move["all", change, 6], move["all", change, 7], move["all", change, 8]))
    }
    if (ENVIRON["CHARACTERS"] != "") field[22] = character_at(field[1], field[2]) " " character_at(field[8], field[9]) (field[14] == "" ? "" : " " character_at(field[14], field[15]) " " character_at(field[16], field[17]))
    line = field[1]
    for (at = 2; at <= 24; at++) line = line "\t" field[at]
    out[number] = line
    line_of[number] = field[1]
    column_of[number] = field[2]
}
function set_place(field, at) {
    field[at] = place_line
    field[at + 1] = place_column
}
function is_before(number, other) { return !is_behind(line_of[number], column_of[number], line_of[other], column_of[other]) }
# Numbers of lines with comments, in the file.
function lines_back(list, text,    part, number, total_of, out_text) {
    total_of = split(text, part, " ")
    for (number = 1; number <= total_of; number++) {
        back(list, part[number], 10000000)
        out_text = out_text (number > 1 ? " " : "") place_line
    }
    return out_text
}
function came_between(from_line, from, to_line, to,    at, text) {
    if (from_line == to_line) return substr(came[from_line], from, to - from)
    text = substr(came[from_line], from)
    for (at = from_line + 1; at < to_line; at++) text = text "\n" came[at]
    return text "\n" substr(came[to_line], 1, to - 1)
}

# ---- the text

function stands(number) { return of["all", number] != "" && !inside["all", number] }
function write_all(to,    number, line, column) {
    ORS = ""
    line = column = 1
    for (number = 1; number <= count["all"]; number++) {
        if (stands(number)) continue
        print between(line, column, move["all", number, 1], move["all", number, 2]) came_between(move["all", number, 5], move["all", number, 6], move["all", number, 7], move["all", number, 8]) >to
        line = move["all", number, 3]
        column = move["all", number, 4]
    }
    print between(line, column, lines, length(source[lines]) + 1) >to
    ORS = "\n"
}
function tell_anew(to,    number, comment, gone) {
    tokens()
    printf "" >to
    for (number = 1; number <= count["all"]; number++) {
        if (of["all", number] == "" || stands(number)) continue
        gone = ""
        for (comment = 1; comment <= comments; comment++)
            if (is_behind(comment_line[comment], comment_column[comment], move["all", number, 1], move["all", number, 2]) && !is_behind(comment_line[comment], comment_column[comment], move["all", number, 3], move["all", number, 4]))
                gone = gone (gone == "" ? "" : " ") comment_line[comment]
        print move["all", number, 1] "\t" move["all", number, 2] "\tanew\t\t\t\t" of["all", number] "\t\t\t\t\t\t" gone >to
    }
}
