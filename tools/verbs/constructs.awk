# What stands in Java at the place of a fault: a name of tools/cures.tsv, or nothing where no name is known. With java.awk, over a source of which class_members() is known.
function construct(kind, rule, at, line, column) {
    if (kind == "schema") return of_schema(rule, toupper(substr(source[line], 1, column - 1)), toupper(substr(source[line], column, 8)))
    if (kind == "map") return ""
    if (kind == "lex") return of_lex(rule, at, substr(source[line], column, 1))
    if (kind == "types") return of_types(rule, at)
    if (rule !~ /Unexpected/ || at > total) return ""
    if (at < class_open) return of_head(at)
    if (at > class_close) return "second"
    for (member = 1; member < members && member_last[member] < at; member++) continue
    if (token[member_first[member]] == "{" || token[member_first[member]] == "static" && token[at] == "{" && at == member_first[member] + 1) return "initializer"
    for (member_name = member_first[member]; member_name < member_last[member] && token[member_name + 1] !~ /^[(=;{]$/; member_name++) continue
    for (member_open = member_name; member_open < member_last[member] && token[member_open] != "{"; member_open++) continue
    if (member_open == member_last[member] || at < member_open) return of_member(at)
    return of_body(at, column)
}
function word(number) { return token[number] ~ /^[A-Za-z_$]/ }
function beside(at, pattern) { return token[at] ~ pattern || token[at - 1] ~ pattern }

function of_schema(rule, front, text) {
    if (text ~ /^["`\[]/) return "quoted"
    if (front ~ /[^A-Z]IF[ \t]+$/ && text ~ /^NOT/) return "if not exists"
    if (rule ~ /BadToken/) return "column"
    return ""
}
function of_lex(rule, at, byte) {
    if (token[at] == "\"\"\"") return "text block"
    if (rule !~ /BadByte/) return ""
    if (byte == "@") return "annotation"
    if (byte == "/") return "division"
    if (byte == "%") return "remainder"
    if (byte == "?" && token[at - 1] == "<") return "wildcard"
    if (byte == "?") return "conditional"
    if (byte == "'") return "character"
    if (byte == "[") return "array"
    if (byte == "\\") return "escape"
    if (byte ~ /[&|^~]/) return "bits"
    if (byte ~ /[\200-\376]/ && token[at] ~ /^[A-Za-z_$\200-\376]/) return "letter"
    return ""
}
function of_types(rule, at,    number) {
    if (rule ~ /TextIdentity/) return "identity"
    if (rule ~ /ReturnPlace/ && token[at] == "return") return "return"
    if (rule ~ /BadQuery/) return of_query(at)
    if (rule ~ /Mismatch/) {
        for (number = at; number <= total && token[number] !~ /^[;{]$/; number++) if (token[number] == "+" && (token[number - 1] == "\"" || token[number + 1] == "\"")) return "concatenation"
        return ""
    }
    if (rule !~ /Unknown/) return ""
    if (token[at] == "null") return "null"
    if (token[at] == "this") return "this"
    # (the place of a type is that of its statement or method)
    for (number = at; number <= total && number < at + 9 && token[number] !~ /^[;{=]$/; number++) {
        if (token[number] ~ /^(double|float|char|short|byte|Double|Float)$/) return "decimal"
        if (token[number] == "var") return "var"
    }
    return ""
}
function of_query(at,    text) {
    while (at < total && token[at] != "\"") at++
    text = toupper(substr(source[token_line[at]], token_column[at] + 1, 4000))
    if (text ~ /^[^"\\]*\\"/ || text ~ /^[^"\\]*[`\[]/) return "quoted"
    sub(/".*/, "", text)
    if (text ~ /(^|[^A-Z_])(JOIN|UNION|HAVING|DISTINCT|BETWEEN|LIKE|NULL)([^A-Z_]|$)/) return "clause"
    return ""
}

# Before the brace of the class.
function of_head(at,    number) {
    for (number = 1; number < class_open && token[number] != "class"; number++) continue
    if (number == class_open)
        for (number = 1; number < class_open; number++) if (token[number] ~ /^(interface|enum|record)$/) return "other kind"
    if (token[at] == "static" && token[at - 1] == "import") return "import static"
    if (token[at] == "<") return "generic"
    if (token[at] ~ /^(extends|implements|permits)$/) return "extends"
    if (token[at] == "final") return "final"
    if (token[at] ~ /^(abstract|sealed|strictfp|static)$/) return "modifier"
    return ""
}
# In a member, before the brace of its body.
function of_member(at,    number, begins) {
    begins = member_first[member]
    for (number = begins; number <= member_name; number++) if (token[number] ~ /^(class|interface|enum)$/ || token[number] == "record" && word(number + 1)) return "inner"
    if (token[member_name + 1] != "(") return "field"
    for (number = begins; token[number] ~ /^(public|private|static)$/; number++) continue
    if (number == member_name) return "constructor"
    if (token[number] == "protected") return member_name == number + 1 ? "constructor" : "protected"
    if (token[number] == "final") return "final"
    if (token[number] ~ /^(abstract|synchronized|native|default|strictfp)$/) return "modifier"
    if (token[number] == "<") return "generic"
    if (at > member_name + 1 && at <= closing(member_name + 1)) return token[at] == "final" ? "final" : "parameter"
    if (token[at] == "throws") return "throws"
    if (token[at] == ";") return "bodiless"
    if (token[number] ~ /^(Long|Integer|Boolean)$/) return "boxed"
    if (token[at] == "<" || token[at - 1] == "<") return "collection"
    return ""
}

# In a body. The statement begins with the token `begins`.
function of_body(at, column,    begins, id) {
    for (begins = at; begins > member_open + 1 && token[begins - 1] !~ /^[;{}]$/; begins--) continue
    id = of_signs(at, column)
    if (id == "") id = of_words(at, begins)
    if (id == "") id = of_calls(at)
    if (id == "") id = of_declaration(at, begins)
    return id
}
function of_signs(at, column) {
    if (token[at] ~ /^[0-9]/ && column > token_column[at]) return token[at] ~ /^[0-9]+[dDfF]$/ ? "decimal" : "number form"
    if (token[at] == "." && token[at - 1] ~ /^[0-9]/ || token[at - 1] == "." && token[at - 2] ~ /^[0-9]/) return "decimal"
    if (token[at - 1] == "(" && token[at - 2] == "sort" || token[at - 1] == "." && token[at - 2] == "Comparator") return "comparator"
    if (beside(at, "^(->|::)$") || token[at + 1] ~ /^(->|::)$/) return compares(at) ? "comparator" : (beside(at, "^::$") || token[at + 1] == "::") ? "method reference" : "lambda"
    if (token[at - 1] == "-" && token[at - 2] ~ /^([-=(,+*<>!]|return|==|&&|\|\||[-+!<>]=)$/) return "minus"
    if (beside(at, "^(--|[+][+])$") || token[at] ~ /^[-*\/%&|^]=$/) return "decrement"
    if (token[at] ~ /^[<>]$/ && token[at - 1] == token[at]) return "bits"
    if (token[at] == "{" && token[at - 1] ~ /^[;{}]$/) return "block"
    return ""
}
function compares(at,    number) {
    for (number = at; number > at - 8 && number > member_open; number--) if (token[number] ~ /^(comparing|thenComparing|sort|Comparator)$/) return 1
    return 0
}
function of_words(at, begins) {
    if (token[at - 2] == "final" && token[at - 3] == "(") return "final local"
    if (beside(at, "^final$")) return "final"
    if (token[at] == "instanceof") return "instanceof"
    if (token[at] ~ /^[.(]$/ && token[at - 1] ~ /^(this|super)$/ || token[at - 1] == "." && token[at - 2] ~ /^(this|super)$/) return "this"
    if (beside(at, "^(class|interface|enum|record)$") && token[at - 1] != ".") return "inner"
    if (beside(at, "^(throw|assert|synchronized)$")) return "throw"
    if (beside(at, "^(do|switch|case|continue|try|catch|finally|default|yield)$")) return "statement"
    if (token[at] == ":" && at == begins + 1 || token[at - 1] == "break") return "statement"
    if (token[at] == "=" && token[at - 3] == "(" && token[at - 4] == "for" || token[at - 1] == "(" && token[at - 2] == "for" && token[at] == ";") return "counting for"
    if (token[at - 1] == "(" && token[at + 1] == ")" && token[at] ~ /^(int|long|boolean|String|Long|Integer|Boolean)$/) return "cast"
    if (token[at - 1] == ")" && token[at - 3] == "(" && token[at - 2] ~ /^([A-Z]|byte|short|char|double|float)/ && (word(at) || token[at] ~ /^([0-9("])/)) return "cast"
    if (token[at - 1] == "new") return "collection"
    if (token[at - 1] == "(" && token[at - 2] == ">") return "copy"
    return ""
}
function of_calls(at,    name, front) {
    name = token[at]
    front = at - 1
    if (ENVIRON["INLINE"] != "" && name == "(" && word(at - 1) && token[at - 2] == "=") return "helper"
    if (name == "(" && word(at - 1)) {
        name = token[at - 1]
        front = at - 2
    } else if (!word(at) || token[at - 1] != ".") return ""
    else if (token[at + 1] != "(") return token[at + 1] ~ /^([-+*\/]?=|\+\+|--)$/ ? "set field" : ""
    if (token[front] != ".") return "call"
    if (name == "isEmpty") return "isEmpty"
    if (name ~ /^(stream|parallelStream|forEach)$/) return "stream"
    if (name ~ /^(addAll|of|copyOf|asList)$/) return "copy"
    if (token[front - 1] == ")") return "call on fetch"
    if (name ~ /^(get|is)[A-Z]/) return "getter"
    return "call"
}
function of_declaration(at, begins) {
    if (token[at - 1] ~ /^(Long|Integer|Boolean)$/ && word(at) || token[at - 1] == "(" && token[at] ~ /^(Long|Integer|Boolean)$/) return "boxed"
    if (token[at] ~ /^[<>]$/ || token[at - 1] == "<") return "collection"
    if (token[at] == ";" && word(at - 1) && at > begins + 1 && (word(at - 2) || token[at - 2] == ">")) return "no value"
    if (token[at] == "," && word(begins) && (word(begins + 1) || token[begins + 1] == "<")) return "several"
    return ""
}
