#!/bin/sh
# A graph at the limits, its test, and a query of 1,000 pairs.
#
# The graph is that of strip.sh. Each pair leads from one of the first 200 vertices to one of the last 200; the answers are
# all yes. Chance comes from a fixed seed.
here=$(CDPATH='' cd "$(dirname "$0")" && pwd) || exit 1
work=$(mktemp -d) || exit 1
trap 'rm -rf "$work"' EXIT
sh "$here/strip.sh" >"$work/graph.gml"
words=$(awk 'BEGIN {
    seed = 2
    for (k = 0; k < 1000; k++) {
        seed = (seed * 16807) % 2147483647; from = 1 + seed % 200
        seed = (seed * 16807) % 2147483647; to = 100000 - seed % 200
        printf "%d %d ", from, to
    }
}')
program=${STDRAW:-$here/../crates/stdraw/out/stdraw}
[ -x "$program" ] || { echo "query: the program isn't built (./stdraw builds it)" >&2; exit 1; }
line=$("$program" test <"$work/graph.gml")
[ "$line" = "planar st-graph: 100000 vertices, 300000 edges, 200002 faces, source 1, sink 100000" ] ||
    { echo "query: the test answers $line" >&2; exit 1; }
# The words are to be split.
# shellcheck disable=SC2086
yes=$("$program" query $words <"$work/graph.gml" | grep -c ' yes ')
[ "$yes" = 1000 ] || { echo "query: $yes of 1000 pairs are answered yes" >&2; exit 1; }
sh "$here/report.sh" "test" "$work/graph.gml" "$program" test
sh "$here/report.sh" "query of one pair" "$work/graph.gml" "$program" query 1 100000
# shellcheck disable=SC2086
sh "$here/report.sh" "query of 1,000 pairs" "$work/graph.gml" "$program" query $words
