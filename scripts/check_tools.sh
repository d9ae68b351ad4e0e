#!/bin/sh
# Tries the helpers of examples/tools and examples/print: orders are found for shuffled files and taken by the program, a
# drawing's coordinates give orders, a printed drawing and an SVG have all items of the drawing. Ends with 0 and tries none
# where the program isn't built, or Python or NetworkX isn't there. STDRAW names another program, by its whole path.
top=$(CDPATH='' cd "$(dirname "$0")/.." && pwd) || exit 1
program=${STDRAW:-$top/crates/stdraw/out/stdraw}
[ -x "$program" ] || { echo "check_tools: skipped, the program isn't built (./stdraw builds it)"; exit 0; }
python3 -B -c 'import networkx' 2>/dev/null || { echo "check_tools: skipped, python3 with networkx isn't there"; exit 0; }
work=$(mktemp -d) || exit 1
trap 'rm -rf "$work"' EXIT
failed=0
tried=0

say() {
    echo "check_tools: $1"
    failed=1
}

# Files that the program takes; with their edges shuffled, orders.py finds orders again.
for file in "$top"/examples/gallery/*.gml "$top"/examples/divisors.gml "$top"/examples/parallel.gml "$top"/examples/err_crossing.gml \
    "$top"/examples/err_two_sinks.gml "$top"/examples/err_two_sources.gml "$top"/examples/err_source_order.gml; do
    for seed in 1 2 3; do
        awk -v seed="$seed" 'BEGIN { srand(seed) }
            { gsub(/order \[[^]]*\]/, ""); gsub(/path \[[^]]*\]/, ""); gsub(/edge \[/, "\n&"); print }' "$file" |
            awk -v seed="$seed" 'BEGIN { srand(seed) } /^edge/ { gsub(/ id [0-9]+/, ""); if (!/\][^]]*\]/) { edge[++n] = $0; next } } { rest[++m] = $0 }
                END { for (i = n; i > 1; i--) { j = 1 + int(rand() * i); t = edge[i]; edge[i] = edge[j]; edge[j] = t }
                    for (i = 1; i < m; i++) print rest[i]; for (i = 1; i <= n; i++) print edge[i]; print rest[m] }' >"$work/shuffled.gml"
        tried=$((tried + 1))
        python3 -B "$top/examples/tools/orders.py" <"$work/shuffled.gml" >"$work/ordered.gml" || { say "orders.py fails on ${file##*/}, shuffled by $seed"; continue; }
        "$program" test <"$work/ordered.gml" >"$work/out" 2>&1 || say "${file##*/}, shuffled by $seed: $(cat "$work/out")"
    done
done
python3 -B "$top/examples/tools/orders.py" <"$top/examples/err_cycle.gml" >"$work/out" 2>&1 && say "orders.py takes a cycle"
tried=$((tried + 1))

# All items of a drawing are in the printed drawing and in the SVG.
for form in visibility tessellation "polyline middle" dominance; do
    # A form may be two words.
    # shellcheck disable=SC2086
    "$program" draw $form <"$top/examples/divisors.gml" >"$work/plain.eps"
    awk -v kx=3 -f "$top/examples/print/wide.awk" <"$work/plain.eps" >"$work/wide.eps"
    awk -f "$top/examples/print/svg.awk" <"$work/wide.eps" >"$work/wide.svg"
    tried=$((tried + 1))
    items=$(grep -c '^%[vefl] ' "$work/plain.eps")
    [ "$items" = "$(grep -c '^%[vefl] ' "$work/wide.eps")" ] || say "wide.awk loses an item of draw $form"
    [ "$items" = "$(grep -c -e '<path' -e '<circle' -e '<text' "$work/wide.svg")" ] || say "svg.awk loses an item of draw $form"
done
# The files of eight writers come to pictures by the guide's cures.
python3 -B "$top/examples/tools/try_writers.py" "$program" >"$work/out" 2>&1 || say "$(cat "$work/out")"
tried=$((tried + 1))

echo "check_tools: $tried tries"
exit $failed
