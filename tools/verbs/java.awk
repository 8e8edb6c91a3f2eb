# Tokens, comments and statements of a source in Java, also of one that qbs doesn't read. A line of a file comes to take_line() as it is, with byte 0 as 255, and the last
# one with an `x` behind it, so that it shows whether a line end stood there (whole() takes it off).
#
# token[n] stands at token_line[n], token_column[n] and ends before token_end[n] of token_last[n]; a text is `"` alone. comment_*[c] are alike, comment_next[c] is
# the token behind it. (no more than a few bytes of a line are looked at together, so that long lines take no longer than short ones)
function take_line(text) { source[++lines] = text }
function whole() {
    if (source[lines] !~ /x$/) exit 2
    source[lines] = substr(source[lines], 1, length(source[lines]) - 1)
}

# The column behind what `mark` closes, from this column of the line `at_line` on, which goes down the lines as need be; 0 where nothing closes it, and then nothing closes
# what is opened so behind it on the same line, or in the same file.
function behind(mark, column, escapes,    size, rest) {
    if (open_at[mark] == (escapes == "line" ? at_line : "file")) return 0
    for (; at_line <= lines; at_line++) {
        while (column <= length(source[at_line])) {
            rest = substr(source[at_line], column, 64)
            if (escapes && rest ~ /^\\/) column += 2
            else if (index(rest, mark) == 1) return column + length(mark)
            else {
                size = escapes ? match(substr(rest, 2), /["'\\]/) : index(substr(rest, 2), substr(mark, 1, 1))
                column += size ? size : length(rest)
            }
        }
        column = 1
        if (escapes == "line") break
    }
    open_at[mark] = escapes == "line" ? at_line : "file"
    return 0
}

function add_token(text, line, column, end) {
    token[++total] = text
    token_line[total] = line
    token_column[total] = column
    token_last[total] = at_line
    token_end[total] = end
}
function add_comment(line, column, end) {
    comment_line[++comments] = line
    comment_column[comments] = column
    comment_last[comments] = at_line
    comment_end[comments] = end
    comment_next[comments] = total + 1
}

function tokens(    at, size, text, begins, mark) {
    split("", open_at)
    at = 1
    for (at_line = 1; at_line <= lines; ) {
        text = substr(source[at_line], at, 64)
        if (text == "") {
            at_line++
            at = 1
        } else if (match(text, /^[ \t\r\f]+/)) at += RLENGTH
        else if (text ~ /^\/\//) {
            size = length(source[at_line]) + (source[at_line] !~ /\r$/)
            add_comment(at_line, at, size)
            at = size
        } else if (text ~ /^\/\*/ || text ~ /^"""/ || text ~ /^["']/) {
            begins = at_line
            mark = text ~ /^\// ? "*/" : text ~ /^"""/ ? "\"\"\"" : substr(text, 1, 1)
            size = behind(mark, at + length(mark), mark == "*/" ? "" : length(mark) == 1 ? "line" : "text")
            # (what nothing closes is a sign; in front of a third quote two are an empty text)
            if (!size) {
                at_line = begins
                size = at + (length(mark) == 3 ? 2 : 1)
                mark = substr(text, 1, 1)
            }
            if (mark == "*/") add_comment(begins, at, size)
            else add_token(mark, begins, at, size)
            at = size
        } else {
            size = 1
            if (match(text, /^[A-Za-z0-9_$\200-\376]+/)) {
                size = RLENGTH
                while (substr(source[at_line], at + size, 1) ~ /^[A-Za-z0-9_$\200-\376]$/) size++
            } else if (match(text, /^(\.\.\.|->|::|\+\+|--|&&|\|\||[-+*\/%&|^<=!>]=)/)) size = RLENGTH
            add_token(substr(source[at_line], at, size), at_line, at, at + size)
            at += size
        }
    }
}

# The number of the first token that ends behind a place; total + 1 where none does.
function token_at(line, column,    low, high, middle) {
    low = 1
    high = total + 1
    while (low < high) {
        middle = int((low + high) / 2)
        if (token_last[middle] < line || token_last[middle] == line && token_end[middle] <= column) low = middle + 1
        else high = middle
    }
    return low
}

function opens(number) { return token[number] ~ /^[({[]$/ }
function closes(number) { return token[number] ~ /^[)}\]]$/ }
# The token that closes what the token of this number opens, the last one where nothing does.
function closing(number,    depth) {
    for (; number <= total; number++) {
        if (opens(number)) depth++
        if (closes(number) && --depth <= 0) return number
    }
    return total
}

# The members of the first class: member_first, member_last. What stands before it, its name and what follows to its brace is the head, class_open is the brace
# and class_close closes it. A member that isn't closed has `broken`.
function class_members(    number, depth, equals) {
    for (number = 1; number <= total && token[number] != "{"; number++)
        if (token[number] == "(") number = closing(number)
    class_open = number
    number++
    while (number <= total && token[number] != "}") {
        if (token[number] == ";") {
            number++
            continue
        }
        member_first[++members] = number
        depth = 0
        equals = 0
        for (; number <= total; number++) {
            if (!depth && token[number] == "=") equals = 1
            if (opens(number)) depth++
            if (closes(number)) depth--
            if (depth < 0) break
            if (!depth && (token[number] == ";" || token[number] == "}" && !equals)) break
        }
        if (number > total || depth < 0) broken = members
        member_last[members] = number > total ? total : depth < 0 ? number - 1 : number
        number = member_last[members] + 1
    }
    class_close = number
}

# The statements of a source, lambdas and nested classes aside. Statement s has its tokens first[s] to last[s], its kind (run, loop or other), its block and its place
# there, the statement `up` that it stands in, and its member; statement_of[block, place] has its number, and loop_at[token] that of a loop, whose body goes from the token
# body_of[s] to body_last[s].
function statements(    number, member, block) {
    class_members()
    for (member = 1; member <= members; member++) {
        for (number = member_first[member]; number < member_last[member] && token[number] !~ /^[{=]$/; number++) if (token[number] == "(") number = closing(number)
        if (token[number] == "=") continue
        block = ++blocks
        number++
        while (number < member_last[member]) number = statement(number, block, 0, member)
    }
}
function statement(number, block, above, member,    self, head) {
    self = ++made
    first[self] = number
    block_of[self] = block
    place_of[self] = ++places[block]
    statement_of[block, places[block]] = self
    up[self] = above
    member_of[self] = member
    head = token[number]
    kind_of[self] = "other"
    if (head == "for" || head == "while") {
        kind_of[self] = "loop"
        loop_at[number] = self
        number = closing(number + 1) + 1
        body_of[self] = number
        number = body(number, self, member)
        body_last[self] = number - 1
    } else if (head == "do") {
        kind_of[self] = "loop"
        loop_at[number] = self
        body_of[self] = number + 1
        number = body(number + 1, self, member)
        body_last[self] = number - 1
        if (token[number] == "while") number = closing(number + 1) + 1
        if (token[number] == ";") number++
    } else if (head == "{") number = body(number, self, member)
    else if (head == "try") {
        if (token[number + 1] == "(") number = closing(number + 1)
        number = body(number + 1, self, member)
        while (token[number] ~ /^(catch|finally)$/) {
            if (token[number + 1] == "(") number = closing(number + 1)
            number = body(number + 1, self, member)
        }
    } else if (head ~ /^(switch|synchronized)$/ && token[number + 1] == "(") number = body(closing(number + 1) + 1, self, member)
    else if (head ~ /^(case|default)$/) {
        while (number < total && token[number] !~ /^(:|->|;)$/) number = opens(number) ? closing(number) + 1 : number + 1
        number++
    } else if (head ~ /^[A-Za-z_$]/ && token[number + 1] == ":") number = body(number + 2, self, member)
    else if (head ~ /^(class|interface|enum)$/ || head ~ /^(final|abstract|static)$/ && token[number + 1] == "class") {
        while (number < total && token[number] != "{") number++
        number = closing(number) + 1
    } else if (head == "if") {
        number = body(closing(number + 1) + 1, self, member)
        if (token[number] == "else") number = body(number + 1, self, member)
    } else {
        if (runs(number)) kind_of[self] = "run"
        while (number < total && token[number] != ";" && !closes(number)) number = opens(number) ? closing(number) + 1 : number + 1
        if (token[number] == ";" || number == first[self]) number++
    }
    last[self] = number - 1
    return number
}
function body(number, above, member,    block) {
    # (deeper than this no source goes that qbs reads, and some awk has no room for more calls)
    if (nested >= 78) {
        while (number < total && token[number] !~ /^[;{]$/) number = opens(number) ? closing(number) + 1 : number + 1
        return (token[number] == "{" ? closing(number) : number) + 1
    }
    nested++
    block = ++blocks
    if (token[number] != "{") number = statement(number, block, above, member)
    else {
        number++
        while (number < total && token[number] != "}") number = statement(number, block, above, member)
        number++
    }
    nested--
    return number
}
# Whether a statement is a declaration, an assignment or a sort.
function runs(number) {
    if (token[number] ~ /^(return|break|continue|throw|yield|assert)$/ || token[number + 1] == "(") return 0
    if (token[number + 1] == ".") return token[number + 2] == "sort" || token[number] == "Collections"
    return 1
}

# What stands from one place to another, as lines joined by line feeds.
function between(from_line, from, to_line, to,    at, text) {
    if (from_line == to_line) return substr(source[from_line], from, to - from)
    text = substr(source[from_line], from)
    for (at = from_line + 1; at < to_line; at++) text = text "\n" source[at]
    return text "\n" substr(source[to_line], 1, to - 1)
}

# Columns counted in characters. (where it stands is remembered, so that long lines take no longer than short ones)
function character_at(line, column,    text, from) {
    if (!(line in odd_line)) odd_line[line] = source[line] ~ /[\200-\377]/
    if (!odd_line[line]) return column
    from = 1
    if (line == known_line && column >= known_column) from = known_column
    else known_characters = 1
    text = substr(source[line], from, column - from)
    known_line = line
    known_column = column
    gsub(/[\200-\277]/, "", text)
    return known_characters += length(text)
}
# A text in one line of findings.awk.
function packed(text) {
    if (text !~ /[\n\t\r]/) return text
    gsub(/\n/, "\373", text)
    gsub(/\t/, "\374", text)
    gsub(/\r/, "\375", text)
    return text
}
