# Bytes of others made safe to show. All of it works byte by byte, so it runs under LC_ALL=C.
BEGIN {
    for (number = 0; number < 256; number++) code[sprintf("%c", number)] = number
    FIRST_HEX = "0123456789abcdef"
}

function hex(number) { return substr(FIRST_HEX, int(number / 16) + 1, 1) substr(FIRST_HEX, number % 16 + 1, 1) }

# How many bytes the UTF-8 character that begins at this place of a text has: 0 where none begins there.
function width(text, at,    first, second, wanted, next_at) {
    first = code[substr(text, at, 1)]
    if (first < 128) return 1
    if (first < 194 || first > 244) return 0
    wanted = first < 224 ? 2 : first < 240 ? 3 : 4
    second = code[substr(text, at + 1, 1)] + 0
    if (first == 224 && second < 160 || first == 237 && second > 159 || first == 240 && second < 144 || first == 244 && second > 143) return 0
    for (next_at = at + 1; next_at < at + wanted; next_at++)
        if (next_at > length(text) || code[substr(text, next_at, 1)] < 128 || code[substr(text, next_at, 1)] > 191) return 0
    return wanted
}

# The character, or what is written for it where a terminal or a page would not show it as it is: control characters, marks
# that turn the direction of a line, and bytes that are no UTF-8.
function odd(character,    first) {
    first = code[substr(character, 1, 1)]
    if (length(character) == 1) {
        if (first == 9) return "\\t"
        if (first == 10) return "\\n"
        if (first == 13) return "\\r"
        return first < 32 || first > 126 ? "\\x" hex(first) : ""
    }
    if (first == 194 && code[substr(character, 2, 1)] < 160) return "\\x" hex(code[substr(character, 2, 1)])
    if (character ~ /^\342\200[\216\217\250-\256]$/ || character ~ /^\342\201[\246-\251]$/)
        return sprintf("\\u20%s", hex((code[substr(character, 2, 1)] % 4) * 64 + code[substr(character, 3, 1)] % 64))
    return ""
}

# A text by one of the ways plain, terminal (with its tabs), html, json, github (a value) and property (a value in front of the `::`).
# (a long text is made of pieces, so that its time grows with its length alone)
function shown(text, way,    at, size, character, mark, piece, part, out) {
    if (text !~ /[^ -~]/ && (way != "json" || text !~ /["\\]/)) return escaped(text, way)
    for (at = 1; at <= length(text); at += size ? size : 1) {
        size = width(text, at)
        character = substr(text, at, size ? size : 1)
        mark = odd(character)
        if (way == "json" && !size) piece = piece "\357\277\275"
        else if (way == "json" && mark) piece = piece "\\u" (size == 3 ? substr(mark, 3) : "00" hex(code[substr(character, size, 1)]))
        else if (way == "json") piece = piece (character ~ /["\\]/ ? "\\" character : character)
        else if (character == "\t" && (way == "terminal" || way == "html")) piece = piece character
        else if (mark && way == "html") piece = piece "<i>" mark "</i>"
        else if (mark) piece = piece escaped(mark, way)
        else piece = piece (character ~ /[&<>"%:,]/ ? escaped(character, way) : character)
        if (length(piece) > 1000) {
            part = part piece
            piece = ""
            if (length(part) > 50000) {
                out = out part
                part = ""
            }
        }
    }
    return out part piece
}

function escaped(text, way) {
    if (way == "html") {
        gsub(/&/, "\\&amp;", text)
        gsub(/</, "\\&lt;", text)
        gsub(/>/, "\\&gt;", text)
        gsub(/"/, "\\&quot;", text)
    } else if (way == "github" || way == "property") {
        gsub(/%/, "%25", text)
        if (way == "property") {
            gsub(/:/, "%3A", text)
            gsub(/,/, "%2C", text)
        }
    }
    return text
}
