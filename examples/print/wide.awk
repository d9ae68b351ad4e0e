# Makes a drawing of stdraw fit for print: wider steps, thick bars, labels on white, a box that holds the labels.
#
#   ./stdraw draw visibility < plan.gml | awk -v kx=5 -f examples/print/wide.awk > plan.eps
#
#   kx, ky   how many steps wide and high a step of the grid becomes (3 and 1, where none is said)
#   bold     names of edges to draw thick, as -v bold='1 4 5'
#
# A bar that is one point wide becomes a dot. What comes out is EPS, but no longer in the dialect that stdraw proves.
function wider(x) { return 36 + (x - 36) * kx }
function higher(y) { return 36 + (y - 36) * ky }

# The field in front of which a point stands ends in "to"; an arc's point is followed by its radius, 4.
function stretch(    i, j) {
    for (i = 1; i <= NF; i++)
        if ($i == "moveto" || $i == "lineto" || ($(i + 1) == "4" && $(i + 2) == "0")) {
            j = $i ~ /to$/ ? i : i + 1
            $(j - 2) = wider($(j - 2))
            $(j - 1) = higher($(j - 1))
        }
}

BEGIN { if (!kx) kx = 3; if (!ky) ky = 1 }
/^%%BoundingBox/ { width = wider($4 - 36) + 36; height = higher($5 - 36) + 36; next }
/^%%EOF/ { next }
/^%[vefl] / { kind = substr($0, 2, 1); name = $2; body[++lines] = $0; next }
/^newpath/ {
    stretch()
    is_bar = kind == "v" && !/ arc /
    if (is_bar && $2 == $5 && $3 == $6) {
        body[++lines] = "newpath " $2 " " $3 " 3 0 360 arc fill"
        next
    }
    thick = is_bar ? 4 : (kind == "e" && index(" " bold " ", " " name " ")) ? 3 : 1
    body[++lines] = thick > 1 ? "gsave " thick " setlinewidth " $0 " grestore" : $0
    next
}
kind == "l" && / show$/ {
    text = $0
    sub(/^[0-9]+ [0-9]+ moveto /, "", text)
    sub(/ show$/, "", text)
    x = wider($1 - 6) + 6
    y = higher($2 - 6) + 6
    if (x + 6 * length(text) > width) width = x + 6 * length(text)
    body[++lines] = x " " y " moveto " text " onwhite"
    next
}
{ head[++heads] = $0 }
END {
    print head[1]
    print "%%BoundingBox: 0 0 " int(width + 1) " " int(height + 1)
    for (i = 2; i <= heads; i++) print head[i]
    print "/onwhite { dup stringwidth pop gsave 1 setgray currentpoint 2 sub 3 -1 roll 10 rectfill grestore show } bind def"
    for (i = 1; i <= lines; i++) print body[i]
    print "%%EOF"
}
