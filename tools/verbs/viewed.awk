# A line for each loop of a real file, as findings.awk has them, of what `rewrite --view` says and wrote; with java.awk and places.awk. The text is the program's own: where
# a comment silences a loop it goes, without what silence.awk put in, to the file TO. A fix is a part of the source, and what the text has there.
END {
    read_text()
    find_loops()
    find_silence()
    if (!has_class()) exit 0
    aligned = find_patches()
    for (number = 1; number <= loops; number++) {
        self = loop[number]
        if (passed_over(number)) continue
        p = kind[number] == "found" ? patch_of[number] : 0
        if (kind[number] == "found") message[number] = p ? patch_said[p] : "a query takes its place"
        place = p ? token_line[patch_first[p]] "\t" token_column[patch_first[p]] "\t" token_last[patch_last[p]] "\t" token_end[patch_last[p]] "\t" packed(patch_text[p]) : "\t\t\t\t"
        print said_line[number] "\t" said_column[number] "\t" kind[number] "\t" rule[number] "\t" where_line[number] "\t" where_column[number] "\t" message[number] "\t" token_last[last[self]] "\t" token_end[last[self]] "\t" (p || asks(self) ? "table" : "list") "\t\t\t" (p && patch_of[number - 1] != p ? substr(patch_gone[p], 2) : "") "\t" place "\t\t\t\t" characters_of(self, p) "\t"
    }
    if (ENVIRON["SILENCED"] != "") print silenced + 0 >ENVIRON["SILENCED"]
}

# The tokens of the text that came, in came_token and its like; what java.awk has is that of the source then.
function read_text(    number, held) {
    for (number = 1; number <= lines; number++) held[number] = source[number]
    held_lines = lines
    lines = texts
    for (number = 1; number <= texts; number++) source[number] = text[number]
    whole()
    text[texts] = source[texts]
    if (ENVIRON["MARK"] != "") write_text(ENVIRON["TO"])
    tokens()
    for (number = 1; number <= total; number++) {
        came_token[number] = token[number]
        came_line[number] = token_line[number]
        came_column[number] = token_column[number]
        came_last[number] = token_last[number]
        came_end[number] = token_end[number]
    }
    came = total
    # (a bracket without its like closes with the last token)
    for (number = 1; number <= total; number++) {
        if (opens(number)) open[++depth] = number
        else if (closes(number) && depth) came_close[open[depth--]] = number
    }
    total = comments = 0
    split("", token)
    lines = held_lines
    for (number = 1; number <= lines; number++) source[number] = held[number]
    # (find_loops takes the mark of the last line's end off, of both)
    text[texts] = text[texts] "x"
}
function write_text(to,    number) {
    for (number = 1; number <= texts; number++) printf "%s%s", text[number], number < texts ? "\n" : "" >to
    close(to)
}

# Whether the file has a class or a record: of others there is nothing to say.
function has_class(    number) {
    for (number = 1; number < total; number++) {
        if (token[number] == "@" && token[number + 1] == "interface") return 0
        if (token[number] ~ /^(interface|enum)$/) return 0
        if (token[number] == "class" && token[number - 1] != "." || token[number] == "record" && token[number + 1] ~ /^[A-Za-z_$]/) return 1
        if (opens(number)) number = closing(number)
    }
    return 0
}

# Whether a token of the source is the one of the text.
function same(at, other) {
    if (token[at] != came_token[other]) return 0
    return token[at] !~ /^["']/ || substr(source[token_line[at]], token_column[at], token_end[at] - token_column[at]) == substr(text[came_line[other]], came_column[other], came_end[other] - came_column[other])
}
# Whether what stands in front of both is the same as well.
function same_gap(at, other) {
    if (at == 1 || other == 1) return at == other
    if (token_last[at - 1] == token_line[at] && came_last[other - 1] == came_line[other])
        return substr(source[token_line[at]], token_end[at - 1], token_column[at] - token_end[at - 1]) == substr(text[came_line[other]], came_end[other - 1], came_column[other] - came_end[other - 1])
    return between(token_last[at - 1], token_end[at - 1], token_line[at], token_column[at]) == came_between(came_last[other - 1], came_end[other - 1], came_line[other], came_column[other])
}
# The token of the text with which the statement ends that begins with this one; 0 where none does.
function came_statement(at) {
    for (; at <= came; at++) {
        if (at in came_close) at = came_close[at]
        else if (came_token[at] == ";") return at
        else if (came_token[at] ~ /^[)}\]]$/) return 0
    }
    return 0
}
# How many tokens of both are alike from these on, up to 300; at the end of both, as many.
function alike(at, other,    count) {
    while (count < 300 && at <= total && other <= came && same(at, other) && same_gap(at, other)) {
        at++
        other++
        count++
    }
    return at > total && other > came ? 300 : count
}

# Patch p: its tokens patch_first[p] to patch_last[p] of the source, what the text has there, the same in one line, and the lines of comments that go. A loop that gave way
# isn't in the text, so the first token in which both differ stands in front of its end; its patch begins with that statement, and ends with the loop, or with the `return`
# behind it, where both go on alike for longest. Whether the patches make the text of the source; where they don't, no fix is told.
function find_patches(    number, at, other, floor, a, b, k, gone) {
    at = other = floor = 1
    for (number = 1; number <= loops; number++) {
        if (kind[number] != "found" || is_silent(number)) continue
        a = first[loop[number]]
        b = last[loop[number]]
        if (b < floor) {
            patch_of[number] = patches
            continue
        }
        for (; at < a && other <= came && same(at, other) && (at == floor || same_gap(at, other)); at++) other++
        # (where several statements come, what parts them is of the patch)
        if (at > floor && !same_gap(at, other)) {
            at--
            other--
        }
        for (; at > floor && token[at - 1] !~ /^[;{}:]$/; at--) other--
        patch_of[number] = ++patches
        while (!ends_at(b, other)) {
            # (nothing stands as it was between this loop and the next one that gave way, so that both have one patch)
            for (k = number + 1; k <= loops && (kind[k] != "found" || last[loop[k]] <= b); k++) continue
            if (k > loops) return forget()
            b = last[loop[k]]
        }
        patch_first[patches] = at
        patch_last[patches] = best_to
        came_first[patches] = other
        came_to[patches] = best_other
        at = floor = best_to + 1
        other = best_other + 1
    }
    text_at = text_column = 1
    a = b = 1
    for (k = 1; k <= patches; k++) {
        if (!goes_on(a, b, token_line[patch_first[k]], token_column[patch_first[k]])) return forget()
        patch_text[k] = came_first[k] > came_to[k] ? "" : came_between(text_at, text_column, came_last[came_to[k]], came_end[came_to[k]])
        if (patch_text[k] != "") {
            text_at = came_last[came_to[k]]
            text_column = came_end[came_to[k]]
        }
        a = token_last[patch_last[k]]
        b = token_end[patch_last[k]]
        patch_said[k] = patch_text[k]
        gsub(/[ \t\r]*\n[ \t]*/, " ", patch_said[k])
    }
    if (!goes_on(a, b, lines, length(source[lines]) + 1) || text_at < texts || text_column <= length(text[texts])) return forget()
    for (number = 1; number <= comments; number++) {
        for (k = gone + 1; k <= patches && patch_last[k] < comment_next[number]; k++) gone = k
        if (k > patches || comment_next[number] <= patch_first[k]) continue
        if (!index(patch_text[k], between(comment_line[number], comment_column[number], comment_last[number], comment_end[number]))) patch_gone[k] = patch_gone[k] " " comment_line[number]
    }
    return 1
}
# Where a patch ends that ends with the token b of the source, or with the return behind it, and begins with the token `other` of the text: best_to and best_other.
function ends_at(b, other,    k, end, to, reach, best) {
    best = b
    end = other - 1
    for (k = 1; k <= 40 && best < b + 300 && (end = came_statement(end + 1)); k++) {
        reach = alike(b + 1, end + 1) + b
        if (reach > best) { best = reach; best_to = b; best_other = end }
        if (token[b + 1] == "return") {
            for (to = b + 1; to < total && token[to] !~ /^[;{}]$/; to++) continue
            reach = token[to] == ";" ? alike(to + 1, end + 1) + to : 0
            if (reach > best) { best = reach; best_to = to; best_other = end }
        }
    }
    return best > b
}
function forget() {
    split("", patch_of)
    return 0
}
function came_between(from_line, from, to_line, to,    at, out) {
    if (from_line == to_line) return substr(text[from_line], from, to - from)
    out = substr(text[from_line], from)
    for (at = from_line + 1; at < to_line; at++) out = out "\n" text[at]
    return out "\n" substr(text[to_line], 1, to - 1)
}
# Whether the text goes on, where it was read to, with the source from one place to another; if so it is read to behind that.
function goes_on(from_line, from, to_line, to,    at, column, piece) {
    at = text_at
    column = text_column
    for (; from_line < to_line; from_line++) {
        if (substr(text[at], column) != substr(source[from_line], from)) return 0
        from = column = 1
        at++
    }
    piece = substr(source[to_line], from, to - from)
    if (substr(text[at], column, length(piece)) != piece) return 0
    text_at = at
    text_column = column + length(piece)
    return 1
}
# The columns of a loop and its patch, counted in characters.
function characters_of(self, p) {
    if (ENVIRON["CHARACTERS"] == "") return ""
    return character_at(token_line[first[self]], token_column[first[self]]) " " character_at(token_last[last[self]], token_end[last[self]]) (p ? " " character_at(token_line[patch_first[p]], token_column[patch_first[p]]) " " character_at(token_last[patch_last[p]], token_end[patch_last[p]]) : "")
}
