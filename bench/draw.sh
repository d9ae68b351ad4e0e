#!/bin/sh
# A table of drawings: generated graphs of 1,000, 10,000 and 100,000 vertices in every form, and a strip at the limits.
#
# The graphs are those of `gen N 1`, with about 1.5 edges a vertex. The strip (strip.sh) has 100,000 vertices and 300,000 edges:
# each vertex has an edge to the next but one, and two to the next.
#
# Prints one row a drawing: seconds of processor time, megabytes at most, bytes written, and the ratio of the time to that of
# copying as many bytes as are read and written.
here=$(CDPATH='' cd "$(dirname "$0")" && pwd) || exit 1
program=${STDRAW:-$here/../crates/stdraw/out/stdraw}
[ -x "$program" ] || { echo "draw: the program isn't built (./stdraw builds it)" >&2; exit 1; }
work=$(mktemp -d) || exit 1
trap 'rm -rf "$work"' EXIT

# row NAME FORM..: draws the graph in the form.
row() {
    name=$1
    shift
    line=$("$program" test <"$work/graph.gml") || exit 1
    "$program" draw "$@" <"$work/graph.gml" >"$work/out" || exit 1
    cat "$work/graph.gml" "$work/out" >"$work/both"
    ours=$(sh "$here/measure.sh" "$work/graph.gml" "$program" draw "$@") || exit 1
    copy=$(sh "$here/measure.sh" "$work/both" cat) || exit 1
    echo "$ours $copy $(wc -c <"$work/out") $line" | awk -v name="$name" -v form="$*" '{
        floor = $3 > 0.0005 ? $3 : 0.0005
        printf "| %s | %s | %d | %d | %.3f | %.1f | %d | %.0f |\n", name, form, $8, $10, $1, $2 / 1024, $5, $1 / floor
    }'
}

# rows NAME: draws the graph in every form.
rows() {
    for form in visibility tessellation constrained "polyline left" "polyline middle" "polyline right" dominance; do
        # A form may be two words.
        # shellcheck disable=SC2086
        row "$1" $form
    done
}

echo "| Graph | Form | Vertices | Edges | Seconds | Megabytes | Bytes | Ratio to a copy |"
echo "|---|---|---|---|---|---|---|---|"
for n in 1000 10000 100000; do
    "$program" gen "$n" 1 >"$work/graph.gml" || exit 1
    rows "gen $n 1"
done
sh "$here/strip.sh" >"$work/graph.gml"
rows strip
