# The two lines with which the diff of the file that FILE names begins, as git writes them: a name with bytes that a line can't
# hold stands in quotes, and behind one with a space there is a tab.
BEGIN {
    name = ENVIRON["FILE"]
    sub(/^(\.\/+)+/, "", name)
    for (number = 0; number < 256; number++) code[sprintf("%c", number)] = number
    if (name ~ /[^ -~]/ || index(name, "\"") || index(name, "\\")) {
        for (at = 1; at <= length(name); at++) {
            character = substr(name, at, 1)
            if (character ~ /["\\]/) quoted = quoted "\\" character
            else if (character ~ /[ -~]/) quoted = quoted character
            else quoted = quoted sprintf("\\%03o", code[character])
        }
    }
    split("--- a +++ b", mark, " ")
    for (side = 1; side < 4; side += 2) {
        front = name ~ /^\// ? "" : mark[side + 1] "/"
        print mark[side] " " (quoted ? "\"" front quoted "\"" : front name (name ~ / / ? "\t" : ""))
    }
}
