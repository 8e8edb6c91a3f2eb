# Where the tokens of a source end and stand: a line each with the byte behind it, its line and its column in characters. Behind java.awk.
{ take_line($0) }
END {
    whole()
    tokens()
    for (n = 1; n <= total; n++) {
        for (; line < token_last[n]; line++) before += line ? length(source[line]) + 1 : 0
        shown = substr(source[token_line[n]], 1, token_column[n] - 1)
        gsub(/[\200-\277]/, "", shown)
        print before + token_end[n] - 1, token_line[n] ":" length(shown) + 1
    }
}
