#!/bin/sh
# Compares what the built program answers on each file of examples/ with what lies beside it.
#   NAME.gml     the file, below a kilobyte
#   NAME.words   the words, `query 1 1` where it isn't there
#   NAME.out     the whole output: then the status is 0 and no line is written
#   NAME.line    the diagnostic line: then the output is empty, and the status is the line's
#   NAME.FORM.eps   what `draw FORM` writes, with a space for each `_` of FORM; `check` has to find it clean
#   NAME.eps     a drawing that `check` refuses with NAME.line
# Ends with 0 where all agree, and where the program isn't built. STDRAW names another program to be asked, by its whole
# path.
top=$(CDPATH='' cd "$(dirname "$0")/.." && pwd) || exit 1
program=${STDRAW:-$top/crates/stdraw/out/stdraw}
if [ ! -x "$program" ]; then
    echo "check_examples: skipped, the program isn't built (./stdraw builds it)"
    exit 0
fi
for tool in cmp grep wc mktemp; do
    command -v "$tool" >/dev/null 2>&1 || { echo "check_examples: skipped, $tool isn't there"; exit 0; }
done
work=$(mktemp -d) || { echo "check_examples: skipped, no folder for its files"; exit 0; }
trap 'rm -rf "$work"' EXIT
failed=0
tried=0

# The status that goes with a diagnostic line.
status_of() {
    case $1 in
        "not st: "*) echo 1 ;;
        "words: "*) echo 2 ;;
        "gml: "*) echo 3 ;;
        "limit: "*) echo 4 ;;
        "path: "*) echo 8 ;;
        "unknown vertex: "*) echo 9 ;;
        "record "*) echo 12 ;;
        "no orientation: "*) echo 13 ;;
        "not clean: "*) echo 10 ;;
        "eps: "*) echo 11 ;;
        *) echo none ;;
    esac
}

say() {
    echo "check_examples: $1"
    failed=1
}

for file in "$top"/examples/*.gml "$top"/examples/from/*.gml; do
    [ -e "$file" ] || continue
    base=${file%.gml}
    name=${base#"$top"/examples/}
    words="query 1 1"
    [ -e "$base.words" ] && words=$(cat "$base.words")
    : >"$work/wanted.out"
    : >"$work/wanted.line"
    if [ -e "$base.out" ]; then
        cp "$base.out" "$work/wanted.out"
        status=0
    elif [ -e "$base.line" ]; then
        cp "$base.line" "$work/wanted.line"
        status=$(status_of "$(cat "$base.line")")
    else
        say "$name has neither .out nor .line beside it"
        continue
    fi
    # The words are to be split.
    # shellcheck disable=SC2086
    "$program" $words <"$file" >"$work/out" 2>"$work/line"
    got=$?
    tried=$((tried + 1))
    [ "$got" = "$status" ] || say "$name ends with $got, and should with $status"
    cmp -s "$work/out" "$work/wanted.out" || say "$name has another output"
    cmp -s "$work/line" "$work/wanted.line" || say "$name has another diagnostic line"
    [ "$(wc -c <"$file")" -lt 1024 ] || say "$name is not below a kilobyte"
    grep -q "^| \`$name.gml\` " "$top/examples/README.md" || say "$name.gml has no line in examples/README.md"
done
for wanted in "$top"/examples/*.eps; do
    [ -e "$wanted" ] || continue
    name=$(basename "$wanted" .eps)
    "$program" check <"$wanted" >"$work/out" 2>"$work/line"
    got=$?
    tried=$((tried + 1))
    if [ -e "$top/examples/$name.line" ]; then
        [ "$got" = "$(status_of "$(cat "$top/examples/$name.line")")" ] || say "check of $name ends with $got"
        cmp -s "$work/line" "$top/examples/$name.line" || say "check of $name has another diagnostic line"
        grep -q "^| \`$name.eps\` " "$top/examples/README.md" || say "$name.eps has no line in examples/README.md"
        continue
    fi
    [ "$got" = 0 ] || say "check of $name ends with $got"
    form=$(echo "${name#*.}" | tr _ ' ')
    # A form may be two words.
    # shellcheck disable=SC2086
    "$program" draw $form <"$top/examples/${name%%.*}.gml" >"$work/out" 2>"$work/line"
    got=$?
    tried=$((tried + 1))
    [ "$got" = 0 ] || say "draw $form of ${name%%.*} ends with $got"
    cmp -s "$work/out" "$wanted" || say "draw $form of ${name%%.*} writes something else"
done
echo "check_examples: $tried files tried"
exit $failed
