# The head of a SARIF log, with a rule for each line of helps.awk; its results go behind it. With bytes.awk; VERSION is the program's, where there is one.
BEGIN { FS = "\t" }
{ rules = rules (NR > 1 ? "," : "") "\n{\"id\":\"" shown($1, "json") "\",\"shortDescription\":{\"text\":\"" shown(short($2), "json") "\"},\"help\":{\"text\":\"" shown($2, "json") "\"}}" }
function short(text) { return match(text, /\. /) ? substr(text, 1, RSTART) : text }
END {
    print "{\"$schema\":\"https://json.schemastore.org/sarif-2.1.0.json\",\"version\":\"2.1.0\",\"runs\":[{"
    print "\"tool\":{\"driver\":{\"name\":\"qbs\"" (ENVIRON["VERSION"] == "" ? "" : ",\"version\":\"" shown(ENVIRON["VERSION"], "json") "\"") ",\"rules\":[" rules "\n]}},"
    print "\"columnKind\":\"unicodeCodePoints\","
    print "\"results\":["
}
