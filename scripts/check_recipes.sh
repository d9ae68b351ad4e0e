#!/bin/sh
# Runs the recipes of the documents: each block of the kind `sh` but `rt ci`, each line of the table of conversions,
# and both recipes in Python. Each has to end with 0, and each file that it writes has to hold something. A recipe whose
# tool isn't there is skipped; all are where the program isn't built. STDRAW names another program, by its whole path.
top=$(CDPATH='' cd "$(dirname "$0")/.." && pwd) || exit 1
program=${STDRAW:-$top/crates/stdraw/out/stdraw}
[ -x "$program" ] || { echo "check_recipes: skipped, the program isn't built (./stdraw builds it)"; exit 0; }
for tool in awk sed grep mktemp; do
    command -v "$tool" >/dev/null 2>&1 || { echo "check_recipes: skipped, $tool isn't there"; exit 0; }
done
work=$(mktemp -d) || exit 1
trap 'rm -rf "$work"' EXIT
failed=0
tried=0
skipped=0

say() {
    echo "check_recipes: $1"
    failed=1
}

# What the recipes find: the program, the examples, and the files that they name.
prepare() {
    rm -rf "$work/here"
    mkdir -p "$work/here/crates/stdraw/out"
    ln -s "$program" "$work/here/stdraw"
    ln -s "$program" "$work/here/crates/stdraw/out/stdraw"
    ln -s "$top/examples" "$work/here/examples"
    cp "$top/examples/plan.visibility.eps" "$work/here/plan.eps"
    cp "$top/examples/writers/networkx/shuffled.gml" "$work/here/any.gml"
    cp "$top/examples/writers/igraph/circuit.gml" "$work/here/in.gml"
    cp "$top/examples/divisors.gml" "$work/here/graph.gml"
    echo 'digraph { a -> b; a -> c; b -> d; c -> d; b -> c }' >"$work/here/any.dot"
    printf '2 18\n4 9\n' >"$work/here/pairs"
}

# try NAME: runs the recipe in the file `recipe`.
try() {
    for tool in gs ps2pdf dot gv2gml python3 rustc xargs; do
        grep -qw "$tool" "$work/recipe" || continue
        command -v "$tool" >/dev/null 2>&1 || { skipped=$((skipped + 1)); return; }
    done
    if grep -q 'orders.py\|networkx' "$work/recipe"; then
        python3 -B -c 'import networkx' 2>/dev/null || { skipped=$((skipped + 1)); return; }
    fi
    prepare
    tried=$((tried + 1))
    (cd "$work/here" && PYTHONDONTWRITEBYTECODE=1 sh -e "$work/recipe") >"$work/said" 2>&1 ||
        say "$1 fails: $(cat "$work/said")"
    grep -oE '(> |-sOutputFile=)[a-z]+\.[a-z]+|[a-z]+\.pdf$' "$work/recipe" | sed 's/^> //; s/^-sOutputFile=//' >"$work/files"
    for file in $(cat "$work/files"); do
        [ -s "$work/here/$file" ] || say "$1 writes no $file"
    done
}

for document in README.md docs/GUIDE.md docs/LIBRARY.md; do
    blocks=$(grep -c '^```sh$' "$top/$document")
    block=1
    while [ "$block" -le "$blocks" ]; do
        awk -v n="$block" '/^```/ { open = $0 == "```sh" && ++count == n; next } open' "$top/$document" >"$work/recipe"
        grep -q '^rt ci$' "$work/recipe" || try "block $block of $document"
        block=$((block + 1))
    done
done

# The table of conversions: what stands in the second column between backticks and is a command.
awk '/^\| To \| Line \|/ { open = 1; next } !/^\|/ { open = 0 } open' "$top/docs/GUIDE.md" |
    sed -n 's/^|[^|]*| `\([a-z].*\)` |$/\1/p' >"$work/lines"
line=1
while [ "$line" -le "$(grep -c . "$work/lines")" ]; do
    sed -n "${line}p" "$work/lines" >"$work/recipe"
    try "line $line of the conversions"
    line=$((line + 1))
done

# The recipes in Python, on a graph each.
python_recipe() {
    name=${1%%(*}
    {
        echo "python3 - <<'END'"
        awk -v name="$name" '
            /^```/ { if (open && code ~ "def " name "\\(") printf "%s", code; open = $0 == "```python"; code = ""; next }
            open { code = code $0 "\n" }' "$top/docs/GUIDE.md"
        printf '%s\nEND\n%s\n' "$1" "$2"
    } >"$work/recipe"
    try "the recipe $name"
}
python_recipe 'write_stdraw(nx.DiGraph([(1, 3), (1, 2), (2, 4), (3, 4), (2, 3)]), "made.gml")' './stdraw test < made.gml'
python_recipe 'write_plane(nx.cubical_graph(), 0, 2, "made.gml")' './stdraw orient 1 3 < made.gml | ./stdraw test'
echo "check_recipes: $tried recipes tried, $skipped skipped"
exit $failed
