# The findings of the file that FILE names, in the form that `format` names: text, github, json (an object each), or sarif (a result each). A fault has, as text, three
# more lines: its line, a mark under its place, and what stands there in Java. With `colour` the text has colours.
BEGIN {
    FS = "\t"
    file = ENVIRON["FILE"]
}
{
    says = $7
    if ($3 ~ /^(found|unnested)$/) said = $3 ($11 ? ", and javac wants a long" : "") ": " says going()
    else if ($3 == "error") said = "error: " says " [" $4 "]"
    else if ($3 ~ /^(outside|unseen)$/) said = $3 " " $4 " at " $5 ":" $6 ": " says
    else if ($3 == "narrowed") said = "narrowed: " says
    else if ($3 == "stays") said = "stays " substr($4, 10) ": " says
    else said = $3 == "none" ? says : $3 ": " says
    if ($24 != "") said = said " (at " ($24 == "class" ? "the class" : "the method " $24) ", which --inline prints anew)"
    if (format == "text") {
        print shown(file, "plain") ":" $1 ":" $2 ": " painted($3 == "error" ? "31" : $3 ~ /^(found|unnested|narrowed)$/ ? "32" : "33", shown(said, "plain"))
        if ($21 != "") show_place()
    } else if (format == "github")
        print "::" ($3 == "error" ? "warning" : "notice") " file=" shown(file, "property") ",line=" $1 ",col=" $2 ",title=qbs::" shown(said cure(), "github")
    else if (format == "json") print object()
    else print result()
}
function painted(number, text) { return colour ? "\033[" number "m" text "\033[0m" : text }
# What of the comments in what goes is said, with their lines.
function going(    count, out, part) {
    count = split($13, part, " ")
    if (count) out = " (" count (count == 1 ? " comment goes: line " : " comments go: lines ") joined(part, count) ")"
    count = split($12, part, " ")
    if (count) out = out " (" count (count == 1 ? " comment moves above it: line " : " comments move above it: lines ") joined(part, count) ")"
    return out
}
function numbers(text) {
    gsub(/ /, ",", text)
    return "[" text "]"
}
function joined(part, count,    number, out) {
    for (number = 1; number <= count; number++) out = out (number > 1 ? ", " : "") part[number]
    return out
}
function cure() { return $20 == "" ? "" : " (" $19 "; write " $20 ")" }
function show_place(    part, at, text, front, mark, margin) {
    split($21, part, "\373")
    margin = length($1)
    front = source_text(substr(part[1], 1, part[2] - 1))
    at = source_text(substr(part[1], part[2], part[3]))
    text = front at source_text(substr(part[1], part[2] + part[3]))
    print "  " $1 " | " text
    gsub(/[^\t\200-\277]/, " ", front)
    gsub(/[\200-\277]/, "", front)
    gsub(/[\200-\277]/, "", at)
    mark = "^"
    while (length(mark) < length(at) && length(mark) < 120) mark = mark "~"
    printf "  %" margin "s | %s%s\n", "", front, painted("1;31", mark)
    if ($19 != "") printf "  %" margin "s = %s; write %s\n", "", shown($19, "plain"), shown($20, "plain")
}
function source_text(text) {
    gsub(/\374/, "\t", text)
    return shown(text, "terminal")
}
function quoted(text) { return "\"" shown(text, "json") "\"" }
function unpacked(text) {
    if (text !~ /[\373-\375]/) return text
    gsub(/\373/, "\n", text)
    gsub(/\374/, "\t", text)
    gsub(/\375/, "\r", text)
    return text
}
function place(line, column) { return "{\"line\":" line ",\"column\":" column "}" }
function object(    fix) {
    fix = "null"
    if ($14 != "") fix = "{\"start\":" place($14, $15) ",\"end\":" place($16, $17) ",\"text\":" quoted(unpacked($18)) ",\"int\":" ($11 ? "true" : "false") ",\"commentsGo\":" numbers($13) ",\"commentsMove\":" numbers($12) "}"
    return "{\"file\":" quoted(file) ",\"line\":" $1 ",\"column\":" $2 ",\"end\":" place($8, $9) ",\"kind\":\"" $3 "\",\"rule\":" ($4 == "" ? "null" : quoted($4)) ",\"at\":" place($5, $6) ",\"message\":" quoted(says) ",\"help\":" help_text() ",\"fix\":" fix ($23 == "" ? "" : ",\"pass\":" quoted($23)) ($24 == "" ? "" : ",\"anew\":" quoted($24)) "}"
}
# What RULES says of the rule, or what to write instead of what stands there.
function help_text(    text) {
    if (!helped) read_helps()
    text = $20 == "" ? "" : $19 "; write " $20 ". "
    text = text help[$4 == "" ? $3 : $4]
    return text == "" ? "null" : quoted(text)
}
function read_helps(    line, part) {
    helped = 1
    while ((getline line <ENVIRON["HELPS"]) > 0) {
        split(line, part, "\t")
        help[part[1]] = part[2]
    }
}
function region(from_line, from, to_line, to) { return "{\"startLine\":" from_line ",\"startColumn\":" from ",\"endLine\":" to_line ",\"endColumn\":" to "}" }
function result(    part, where, id) {
    split($22, part, " ")
    where = "{\"uri\":" quoted(uri(file)) "}"
    id = $4 == "" ? $3 : $4
    return "{\"ruleId\":" quoted(id) ",\"level\":\"" ($3 == "error" ? "warning" : "note") "\",\"message\":{\"text\":" quoted(said cure()) "},\"locations\":[{\"physicalLocation\":{\"artifactLocation\":" where ",\"region\":" region($1, part[1], $8, part[2]) "}}]" ($14 == "" ? "" : ",\"fixes\":[{\"description\":{\"text\":\"the query in place of the " ($3 == "narrowed" ? "fetch" : "loop") "\"},\"artifactChanges\":[{\"artifactLocation\":" where ",\"replacements\":[{\"deletedRegion\":" region($14, part[3], $16, part[4]) ",\"insertedContent\":{\"text\":" quoted(unpacked($18)) "}}]}]}]") "}"
}
# A name of a file as a URI: all but letters, digits, `/`, `.`, `_`, `~` and `-` is written as %XX.
function uri(name,    at, character, out) {
    if (name ~ /^\//) out = "file://"
    sub(/^(\.\/+)+/, "", name)
    for (at = 1; at <= length(name); at++) {
        character = substr(name, at, 1)
        out = out (character ~ /[A-Za-z0-9\/._~-]/ ? character : "%" toupper(hex(code[character])))
    }
    return out
}
