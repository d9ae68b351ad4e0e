#!/bin/sh
# Files just under the limit of bytes, with two vertices and one edge: nearly all of the time is reading.
#
# Makes three files of nearly 67,108,864 bytes each, with unknown keys in the graph:
#   ordinary   nested lists with reals and strings, as drawing programs write them
#   dense      the shortest pairs that there are, `a 1`, the most pairs for the bytes
#   text       one long string
here=$(CDPATH='' cd "$(dirname "$0")" && pwd) || exit 1
work=$(mktemp -d) || exit 1
trap 'rm -rf "$work"' EXIT
program=${STDRAW:-$here/../crates/stdraw/out/stdraw}
[ -x "$program" ] || { echo "parse: the program isn't built (./stdraw builds it)" >&2; exit 1; }

# make FILLER: the file, with the filler as often as it fits.
make() {
    awk -v filler="$1" 'BEGIN {
        head = "graph [ node [ id 1 ] node [ id 2 ] edge [ source 1 target 2 ]\n"
        times = int((67108864 - length(head) - 8) / (length(filler) + 1))
        printf "%s", head
        for (k = 0; k < times; k++) print filler
        print "]"
    }'
}
make 'graphics [ x 12.5 y -30.0 type "rectangle" fill "#FFCC00" point [ x 1e+06 y 2 ] ]' >"$work/ordinary.gml"
make 'a 1' >"$work/dense.gml"
awk 'BEGIN {
    printf "graph [ node [ id 1 ] node [ id 2 ] edge [ source 1 target 2 ]\ntext \""
    for (k = 0; k < 1048400; k++) print "Lines of a text, that is in quotes, and has ] and # and more in it."  substr("                ", 1, k % 2)
}' | head -c 67108000 >"$work/text.gml"
printf '"\n]\n' >>"$work/text.gml"
for name in ordinary dense text; do
    answer=$("$program" query 1 2 <"$work/$name.gml")
    [ "$answer" = "1 2 yes 0 0 1 1" ] || { echo "parse: $name is answered by $answer" >&2; exit 1; }
    sh "$here/report.sh" "$name" "$work/$name.gml" "$program" query 1 2
done
