#!/bin/sh
# Runs the commands of the documents, and compares what they print.
#
# A fenced block of the kind `console` has commands, each behind `$ `, with lines behind `> ` that go on with it, and below
# each what it prints on both streams. The commands of a block run in one shell, in a folder where ./stdraw is the built
# program and examples/ is at hand. Every link to a file of the repository is looked up too. Ends with 0 where all agree;
# without the built program the commands are skipped. STDRAW names another program to be asked, by its whole path.
top=$(CDPATH='' cd "$(dirname "$0")/.." && pwd) || exit 1
program=${STDRAW:-$top/crates/stdraw/out/stdraw}
failed=0
tried=0

say() {
    echo "check_docs: $1"
    failed=1
}

for tool in awk sed grep cmp mktemp; do
    command -v "$tool" >/dev/null 2>&1 || { echo "check_docs: skipped, $tool isn't there"; exit 0; }
done
work=$(mktemp -d) || { echo "check_docs: skipped, no folder for its files"; exit 0; }
trap 'rm -rf "$work"' EXIT

# Writes the wanted text of block N of a document to wanted, and the commands to commands.
take_block() {
    rm -f "$work/wanted" "$work/commands"
    awk -v n="$2" -v wanted="$work/wanted" -v commands="$work/commands" '
        /^```/ { if (open) { open = 0 } else if ($0 == "```console") { count++; open = count == n } else { open = 0 } ; next }
        open {
            print > wanted
            if (substr($0, 1, 2) == "$ ") { flush(); line = substr($0, 3); shown = $0; next }
            if (line != "" && substr($0, 1, 2) == "> ") { line = line "\n" substr($0, 3); shown = shown "\n" $0; next }
            flush()
        }
        END { flush() }
        function flush() {
            if (line != "") print "status=$?; cat <<'\''END_OF_LINE'\''\n" shown "\nEND_OF_LINE\n(exit $status)\n" line > commands
            line = ""
        }' "$1"
}

# Runs each block of a document.
run_blocks() {
    document=$1
    blocks=$(grep -c '^```console$' "$document")
    block=1
    while [ "$block" -le "$blocks" ]; do
        take_block "$document" "$block"
        (cd "$work/here" && sh "$work/commands") >"$work/got" 2>&1 </dev/null
        if ! cmp -s "$work/wanted" "$work/got"; then
            say "block $block of ${document#"$top"/} prints something else:"
            cat "$work/got"
        fi
        tried=$((tried + 1))
        block=$((block + 1))
    done
}

# Looks up each link to a file.
look_up_links() {
    document=$1
    for target in $(grep -o '](\([^)#]*\)' "$document" | sed 's/^](//' | grep -v '^[a-z]*:'); do
        [ -e "$(dirname "$document")/$target" ] || say "${document#"$top"/} links to $target, which isn't there"
    done
}

if [ -x "$program" ]; then
    mkdir "$work/here"
    ln -s "$program" "$work/here/stdraw"
    ln -s "$top/examples" "$work/here/examples"
fi
for document in "$top"/*.md "$top"/docs/*.md "$top"/examples/*.md; do
    [ -e "$document" ] || continue
    look_up_links "$document"
    [ -x "$program" ] && run_blocks "$document"
done
if [ -x "$program" ]; then
    echo "check_docs: $tried blocks tried"
else
    echo "check_docs: commands skipped, the program isn't built (./stdraw builds it)"
fi
exit $failed
