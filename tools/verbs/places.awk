# What a report of the program says of the loops of a source, told by the places of its tokens; with java.awk. It reads tools/rules.tsv, the report, the source as
# the program read it, the text that came, and the source as it stands in its file (each source as take_line() wants it).
FILENAME == ARGV[1] {
    split($0, field, "\t")
    if (field[1] == "view") sentence["V" field[2]] = field[4]
    if (field[1] != "kernel" && field[1] != "narrow") next
    sentence[field[3]] = field[4]
    id_of[field[3]] = field[1] == "kernel" ? field[3] : field[1] " " field[2] " " field[3]
    next
}
FILENAME == ARGV[2] {
    if ($1 != "loop") next
    loops++
    split($2, part, ":")
    said_line[loops] = part[1]
    said_column[loops] = part[2]
    kind[loops] = $3
    if ($3 ~ /^(outside|unseen)$/) {
        rule[loops] = $4
        split($6, part, ":")
        message[loops] = sentence[$4]
    } else if ($3 == "stays") {
        rule[loops] = id_of[$4]
        message[loops] = sentence[$4]
    } else if ($3 == "none") message[loops] = "none of " $5 " candidates does what the loop does" further("")
    else if ($3 == "shared") message[loops] = "a query would give other objects than those that the method or its callers hold; \"by value\" in the map says that none can tell"
    else if ($3 == "unlike") message[loops] = "what would be written isn't seen as the method that is left"
    else if ($3 == "budget") message[loops] = $4 " of " $6 " candidates were tried" further($6)
    where_line[loops] = part[1]
    where_column[loops] = part[2]
    next
}
FILENAME == ARGV[3] { take_line($0); next }
FILENAME == ARGV[4] {
    # (what silence.awk put in goes)
    text[++texts] = ENVIRON["MARK"] == "" ? $0 : unmarked($0)
    next
}
{ original[++originals] = $0 }

# Which option would look further, where `all` is how many candidates there are if not all were tried.
function further(all) {
    if (all != "") {
        if (ENVIRON["CANDIDATES"] + 0 >= 1000000) return "; no option tries more"
        return "; --candidates " (all + 0 <= 1000000 ? all : 1000000) " tries " (all + 0 <= 1000000 ? "all" : "more")
    }
    return ENVIRON["SIZE"] + 0 >= 8 ? "; no option looks further" : "; --size 8 looks further"
}

# A line without what silence.awk put into it: the statements MARK, with `{/**/` before them, and `}` with the comment END_MARK.
function unmarked(line) { return without(without(without(line, "{/**/" ENVIRON["MARK"]), ENVIRON["MARK"]), "}" ENVIRON["END_MARK"]) }
function without(line, part,    at, out) {
    while (at = index(line, part)) {
        out = out substr(line, 1, at - 1)
        line = substr(line, at + length(part))
    }
    return out line
}

# A place of the source that the program read is one of the file: what silence.awk put in before it in its line is taken off.
function unshifted(line, column,    number, before, part) {
    for (number = 1; number <= shifts; number++) {
        split(shift[number], part, " ")
        if (part[1] != line || part[2] + before > column) continue
        if (column < part[2] + before + part[3]) return part[2]
        before += part[3]
    }
    return column - before
}
function read_shifts(    line) {
    if (ENVIRON["SHIFTS"] == "") return
    while ((getline line <ENVIRON["SHIFTS"]) > 0) shift[++shifts] = line
    for (number = 1; number <= loops; number++) {
        said_column[number] = unshifted(said_line[number], said_column[number])
        where_column[number] = unshifted(where_line[number], where_column[number])
    }
}

# Which statement each loop of the report is.
function find_loops(    number, at) {
    whole()
    if (originals) original[originals] = substr(original[originals], 1, length(original[originals]) - 1)
    if (texts && text[texts] !~ /x$/) exit 2
    if (texts) text[texts] = substr(text[texts], 1, length(text[texts]) - 1)
    tokens()
    statements()
    read_shifts()
    for (number = 1; number <= loops; number++) {
        at = token_at(said_line[number], said_column[number])
        # (a loop in a lambda or a nested class, of which a view says that it isn't seen)
        if (!(at in loop_at) && ENVIRON["FETCHES"] != "" && token[at] ~ /^(for|while|do)$/) statement(at, ++blocks, 0, member_at(at))
        loop[number] = loop_at[at]
        if (!loop[number]) exit 2
    }
}
function member_at(at,    member) {
    for (member = 1; member < members && member_last[member] < at; member++) continue
    return member
}

# Whether what a loop walks may be a table: it is a fetch, or a variable that is given one somewhere before it in its method.
function over_table(self,    at) {
    if (ENVIRON["FETCHES"] != "") return asks(self)
    at = first[self]
    if (token[at] == "for") {
        for (at += 2; token[at] != ":"; at++) continue
        if (token[at + 1] == "db") return token[at + 3] == "fetch"
        return fetched_before(at + 1, self)
    }
    for (; at < last[self]; at++)
        if (token[at + 1] == "." && (token[at + 2] == "size" || token[at + 2] == "get") && fetched_before(at, self)) return 1
    return 0
}
# Whether the variable that this token names is given a fetch in the method, in front of the statement.
function fetched_before(number, self,    at, member) {
    member = member_of[self]
    if (!(member in looked)) {
        looked[member] = 1
        for (at = member_first[member]; at <= member_last[member]; at++)
            if (token[at] == "=" && token[at + 1] == "db" && token[at + 3] == "fetch" && !((member, token[at - 1]) in fetch_of))
                fetch_of[member, token[at - 1]] = at
    }
    return ((member, token[number]) in fetch_of) && fetch_of[member, token[number]] < first[self]
}

# Which loops a comment `qbs:off` silences, all or those that break the rules behind it: from the loop or member that it stands above to its end, or those that begin
# in the line that it ends. Above a loop is above its run too.
function find_silence(    number, text, from, to, on, member, block, place) {
    for (number = 1; number <= made; number++) statement_at[first[number]] = number
    for (number = 1; number <= comments; number++) {
        text = between(comment_line[number], comment_column[number], comment_last[number], comment_end[number])
        if (!match(text, /(^|[^A-Za-z0-9_:-])qbs:off([^A-Za-z0-9_-]|$)/)) continue
        text = substr(text, RSTART + RLENGTH - 1)
        off_rules[++offs] = match(text, /^([ ,]*(K[1-9]|V1[0-2]|V[1-9]))+/) ? substr(text, 1, RLENGTH) " " : ""
        from = comment_next[number]
        on = from > 1 && token_last[from - 1] == comment_line[number] ? comment_line[number] : 0
        off_line[offs] = on
        # (a member whose head stands in the line, or which the comment stands above)
        for (member = 1; member <= members; member++) {
            for (to = member_first[member]; to < member_last[member] && token[to] != "{"; to++) continue
            if (on ? token_line[member_first[member]] <= on && token_line[to] >= on : member_first[member] == from) {
                off_first[offs] = member_first[member]
                off_last[offs] = member_last[member]
            }
        }
        if (on || off_last[offs]) continue
        if (from < class_open) {
            off_first[offs] = from
            off_last[offs] = total
        } else if (from in statement_at) {
            block = block_of[statement_at[from]]
            place = place_of[statement_at[from]]
            while (kind_of[statement_of[block, place]] == "run") place++
            if (kind_of[statement_of[block, place]] == "loop") {
                off_first[offs] = first[statement_of[block, place]]
                off_last[offs] = last[statement_of[block, place]]
            }
        }
    }
}
# Whether the loop of this number in the report is silenced.
function is_silent(number,    off, at, self) {
    at = first[loop[number]]
    for (off = 1; off <= offs; off++) {
        if (off_rules[off] != "" && (rule[number] == "" || off_rules[off] !~ rule[number] "[ ,KV]")) continue
        if (off_last[off] && at >= off_first[off] && at <= off_last[off]) return 1
        if (off_line[off] && rule[number] != "" && where_line[number] == off_line[off]) return 1
        for (self = loop[number]; self && off_line[off]; self = up[self]) if (kind_of[self] == "loop" && token_line[first[self]] == off_line[off]) return 1
    }
    return 0
}
# Whether a loop of a real file has to do with the database: a fetch of the map, or the beginning of a question, stands in it, or its head names a variable that is given one,
# or something of such a variable. The file FETCHES has a line of tokens for each.
function asks(self,    at, to, member) {
    if (!fetched) find_fetches()
    if (fetches_to[last[self]] > fetches_to[first[self] - 1]) return 1
    member = member_of[self]
    to = closing(first[self] + 1)
    if (token[first[self]] != "do") for (at = first[self] + 2; at < to; at++) if ((member, token[at]) in fetch_of && fetch_of[member, token[at]] < first[self]) return 1
    return 0
}
function find_fetches(    line, number, at, part, size, member, target) {
    fetched = 1
    while ((getline line <ENVIRON["FETCHES"]) > 0) {
        fetch[++fetches] = line
        split(line, part, " ")
        begin_with[part[1]] = begin_with[part[1]] " " fetches
    }
    member = 1
    for (at = 1; at <= total; at++) {
        fetches_to[at] = fetches_to[at - 1]
        while (member < members && member_last[member] < at) member++
        if (token[at] ~ /^[;{}]$/) target = ""
        else if (token[at] == "=") target = token[at - 1]
        if (target != "" && (member, token[at]) in fetch_of && !((member, target) in fetch_of)) fetch_of[member, target] = at
        if (!(token[at] in begin_with)) continue
        size = split(begin_with[token[at]], part, " ")
        for (number = 1; number <= size; number++) if (stands_at(fetch[part[number]], at)) break
        if (number > size) continue
        fetches_to[at]++
        if (target != "" && !((member, target) in fetch_of)) fetch_of[member, target] = at
    }
}
function stands_at(tokens_of, at,    number, part, size) {
    size = split(tokens_of, part, " ")
    for (number = 1; number <= size; number++) if (token[at + number - 1] != part[number]) return 0
    return 1
}

# Whether the loop of this number is silenced; it counts those over a table that stand in no other one. To be asked once for each loop, in the order of the file.
function passed_over(number,    self) {
    if (!is_silent(number)) return 0
    self = loop[number]
    if (over_table(self) && first[self] > silent_to) silenced++
    if (last[self] > silent_to) silent_to = last[self]
    return 1
}
