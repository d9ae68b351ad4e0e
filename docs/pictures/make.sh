#!/bin/sh
# Makes the pictures beside it anew: NAME.FORM.png from examples/NAME.gml, by the built program and Ghostscript.
# Ends with 0 and makes none where either isn't there. STDRAW names another program, by its whole path.
top=$(CDPATH='' cd "$(dirname "$0")/../.." && pwd) || exit 1
program=${STDRAW:-$top/crates/stdraw/out/stdraw}
if [ ! -x "$program" ]; then
    echo "make: skipped, the program isn't built (./stdraw builds it)"
    exit 0
fi
if ! command -v gs >/dev/null 2>&1; then
    echo "make: skipped, gs (Ghostscript) isn't there"
    exit 0
fi
work=$(mktemp -d) || exit 1
trap 'rm -rf "$work"' EXIT

# shot NAME: the drawing in picture.eps as NAME.png.
shot() {
    gs -q -dSAFER -dBATCH -dNOPAUSE -dEPSCrop -r120 -sDEVICE=pnggray -dTextAlphaBits=4 -dGraphicsAlphaBits=4 \
        -sOutputFile="$top/docs/pictures/$1.png" "$work/picture.eps" || exit 1
}

for pair in divisors.visibility plan.visibility durations.visibility circuit.visibility review.visibility divisors.tessellation plan.tessellation \
    circuit.tessellation critical_path.constrained divisors.polyline_left divisors.polyline_middle divisors.polyline_right \
    plan.polyline_middle divisors.dominance; do
    name=${pair%%.*}
    form=${pair#*.}
    # A form may be two words.
    # shellcheck disable=SC2046
    "$program" draw $(echo "$form" | tr _ ' ') <"$top/examples/$name.gml" >"$work/picture.eps" || exit 1
    shot "$pair"
done

"$program" orient 1 3 <"$top/examples/cube.gml" | "$program" draw polyline middle >"$work/picture.eps" || exit 1
shot cube.polyline_middle

# The gallery: name, form, how wide, how high, bold edges.
gallery() {
    # A form may be two words.
    # shellcheck disable=SC2086
    "$program" draw $2 <"$work/graph.gml" | awk -v kx="$3" -v ky="$4" -v bold="${5:-}" -f "$top/examples/print/wide.awk" >"$work/picture.eps"
    shot "gallery.$1"
}

while IFS=, read -r name form kx ky bold; do
    cp "$top/examples/gallery/$name.gml" "$work/graph.gml"
    gallery "$name" "$form" "$kx" "$ky" "$bold"
done <<'END'
divisors_432,dominance,1.5,1.5
partitions_8,polyline middle,2.5,1.5
house_plan,constrained,5,1.2,0 2 4 6 8 11 12 13
circuit_bridge,visibility,2.5,1.5
order_flow,polyline middle,3.5,1.5
animals,polyline left,4,1.5
young_2x5,dominance,1.5,1.5
build,visibility,4,1.2
journeys,tessellation,3.5,1.5
END
"$program" gen 40 3 >"$work/graph.gml"
gallery generated_40 visibility 1 1
"$program" draw constrained <"$top/examples/gallery/house_plan.gml" >"$work/picture.eps"
shot house_plan.narrow
