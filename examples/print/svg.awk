# Turns a drawing of stdraw, or one that wide.awk made, into SVG.
#
#   ./stdraw draw dominance < plan.gml | awk -f examples/print/svg.awk > plan.svg
#
# Vertex N has the id v-N, edge N from U to V the id e-N-U-V, for scripts and style sheets. A minus sign becomes m.
function path(first,    d, j) {
    for (j = first; j < NF; j++)
        if ($j == "moveto") d = d "M" $(j - 2) " " height - $(j - 1)
        else if ($j == "lineto") d = d "L" $(j - 2) " " height - $(j - 1)
        else if ($j == "closepath") d = d "Z"
    return d
}

# The text between the brackets of a label, as XML.
function label(    text) {
    text = $0
    sub(/^[^(]*\(/, "", text)
    sub(/\) (show|onwhite)$/, "", text)
    gsub(/\\\(/, "(", text)
    gsub(/\\\)/, ")", text)
    gsub(/\\\\/, "\\", text)
    gsub(/&/, "\\&amp;", text)
    gsub(/</, "\\&lt;", text)
    return text
}

/^%%BoundingBox/ {
    height = $5
    print "<svg xmlns=\"http://www.w3.org/2000/svg\" viewBox=\"0 0 " $4 " " $5 "\" width=\"" $4 "pt\" height=\"" $5 "pt\""
    print " fill=\"none\" stroke=\"black\" stroke-linecap=\"round\" font-family=\"Helvetica, Arial, sans-serif\" font-size=\"10\">"
}
/^%[vefl] / { kind = $1; id = substr($0, 2); gsub("-", "m", id); gsub(" ", "-", id); next }
/ arc fill/ {
    print "<circle id=\"" id "\" cx=\"" $2 "\" cy=\"" height - $3 "\" r=\"" $4 "\" fill=\"black\" stroke=\"none\"/>"
    next
}
kind == "%l" && / moveto \(/ {
    print "<text x=\"" $1 "\" y=\"" height - $2 "\" fill=\"black\" stroke=\"white\" stroke-width=\"3\" paint-order=\"stroke\">" label() "</text>"
    next
}
/newpath/ { print "<path id=\"" id "\" stroke-width=\"" ($1 == "gsave" ? $2 : 1) "\" d=\"" path(1) "\"/>" }
/^%%EOF/ { print "</svg>" }
