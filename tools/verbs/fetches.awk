# Of a map, a line for each way to ask the database: the tokens of each fetch, and those of each template up to its query. With java.awk.
{ take_line($0) }
END {
    whole()
    tokens()
    split("query queryLong queryBoolean", kind, " ")
    for (at = 1; at <= total; at++) {
        begins = at
        for (equals = 0; at <= total && token[at] != ";"; at++) {
            if (token[at] == "=" && !equals) equals = at
            if (token[at] == "{" && token[begins] == "table") break
        }
        if (token[begins] == "table") {
            at = closing(at)
            continue
        }
        if (!equals || token[begins] !~ /^(fetch|query|queryLong|queryBoolean)$/) continue
        given[token[begins]] = 1
        line = ""
        for (number = equals + 1; number < at && token[number] !~ /^\$/; number++) line = line (line == "" ? "" : " ") token[number]
        if (line != "") print line
    }
    for (number = 1; number <= 3; number++) if (!(kind[number] in given)) print "db . " kind[number] " ("
}
