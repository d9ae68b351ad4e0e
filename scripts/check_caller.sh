#!/bin/sh
# Builds the caller in plain Rust, and compares what it prints. Ends with 0 and tries nothing where the program isn't
# built or rustc isn't there. STDRAW names another program, by its whole path.
top=$(CDPATH='' cd "$(dirname "$0")/.." && pwd) || exit 1
program=${STDRAW:-$top/crates/stdraw/out/stdraw}
[ -x "$program" ] || { echo "check_caller: skipped, the program isn't built (./stdraw builds it)"; exit 0; }
rustc --version >/dev/null 2>&1 || { echo "check_caller: skipped, rustc isn't there"; exit 0; }
work=$(mktemp -d) || exit 1
trap 'rm -rf "$work"' EXIT
failed=0
rustc --edition 2021 -O -o "$work/ask" "$top/examples/caller/ask.rs" || exit 1

# compare FILE WANTED
compare() {
    "$work/ask" "$program" "$top/examples/$1" >"$work/got" 2>&1
    printf '%b' "$2" | cmp -s - "$work/got" && return
    echo "check_caller: $1 gives:"
    cat "$work/got"
    failed=1
}
compare divisors.gml 'planar st-graph: 9 vertices, 12 edges, 5 faces, source 1, sink 36\n36 of 81 pairs reach\n'
compare err_crossing.gml 'status 1: not st: faces: 5 vertices, 6 edges, 1 faces\n'
compare err_stray.gml 'status 3: gml: stray token at 10\n'
echo "check_caller: 3 files tried"
exit $failed
