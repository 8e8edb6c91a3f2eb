# The source with blanks in place of the (int) that apply writes: before a query whose number goes to an int, as javac wants it. With java.awk.
{ take_line($0) }
END {
    whole()
    tokens()
    for (at = 2; at <= total; at++)
        if (token[at] == "int" || token[at] == "long") types[token[at], token[at + 1]] = 1
    for (at = 4; at < total - 6; at++)
        if (token[at] == "(" && token[at + 1] == "int" && token[at + 2] == ")" && token[at + 3] token[at + 4] token[at + 5] token[at + 6] == "db.queryLong(" && token[at - 1] == "=" && is_int(at - 2)) {
            put_blank(at)
            put_blank(at + 1)
            put_blank(at + 2)
        }
    ORS = ""
    for (number = 1; number <= lines; number++) print source[number] (number < lines ? "\n" : "")
}
# Whether what is named here is declared here as an int, or set where all of its name are.
function is_int(at) {
    if (token[at - 1] == "int") return 1
    return token[at - 1] ~ /^([;{})]|else)$/ && (("int", token[at]) in types) && !(("long", token[at]) in types)
}
function put_blank(at,    line) {
    line = token_line[at]
    source[line] = substr(source[line], 1, token_column[at] - 1) sprintf("%" (token_end[at] - token_column[at]) "s", "") substr(source[line], token_end[at])
}
