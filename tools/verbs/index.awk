# A row of the page's index: how many loops of the file that FILE names, the NUMBER-th, gave way, are narrowed (where NARROWED says that a file has one), stand, weren't found, and how many faults it has.
BEGIN { FS = "\t" }
{ count[$3]++ }
function cell(class, number) { return "<td" (number ? " class=\"" class "\"" : "") ">" (number ? number : "") "</td>" }
END { print "<tr><td><a href=\"#file-" ENVIRON["NUMBER"] "\">" shown(ENVIRON["FILE"], "html") "</a></td>" cell("found", count["found"] + count["unnested"]) (ENVIRON["NARROWED"] ? cell("narrowed", count["narrowed"]) : "") cell("outside", count["outside"] + count["stays"] + count["unseen"] + count["shared"] + count["unlike"]) cell("none", count["none"] + count["budget"]) cell("error", count["error"]) "</tr>" }
