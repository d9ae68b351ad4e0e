#!/usr/bin/env python3
"""try_writers.py [PROGRAM]: takes files of eight writers from the file to a picture, by the guide's cures alone.

examples/writers/ has six files of each of NetworkX, igraph, graph-tool, Graphviz, JGraphT, Tulip, OGDF and yEd, as
these programs wrote them (those of yEd are written by hand in its form). Each is tested; where it is refused, the
cure that the guide has for the line is taken, and it is tested again. What is accepted is drawn in two forms, and
each drawing is checked. One line a file says which cures it took. The end is 1 where a file comes to no picture, and
0 where nothing can be tried because the program isn't built. Needs sed, and for orders.py NetworkX.
"""
import glob
import os
import re
import subprocess
import sys

HERE = os.path.dirname(os.path.abspath(__file__))
TOP = os.path.dirname(os.path.dirname(HERE))
INFINITY = r"/^[[:space:]]*[A-Za-z][A-Za-z0-9_]*[[:space:]]+[-+]?(INF|Inf|inf|Infinity|NAN|NaN|nan)[[:space:]]*$/d"
QUOTE = r's/\\"/\&quot;/g'
FORMS = (["visibility"], ["polyline", "middle"])
PLACED = {"yed": [], "graphviz": [], "tulip": ["up"], "ogdf": []}
MOST_CURES = 5


def python(tool):
    return [sys.executable, "-B", os.path.join(HERE, tool)]


def cure(line, text, writer, taken):
    """The command that the guide has for a refusal, with the name of the cure."""
    if re.match(r"gml: (bad number|key without value) at", line):
        return "infinities", ["sed", "-E", INFINITY]
    if line.startswith("gml: bad byte at") and b'\\"' in text:
        return "quotes", ["sed", QUOTE]
    if re.match(r"not st: ([0-9]+ (sources|sinks)|faces|outer face misses)", line):
        # The places of a drawing tell its orders; where they don't, as where it has crossings, orders are looked for.
        if writer in PLACED and "places" not in taken and "sources" not in line and "sinks" not in line:
            return "places", python("places.py") + PLACED[writer]
        return "orders", python("orders.py")
    return None, None


def run(words, text):
    done = subprocess.run(words, input=text, capture_output=True)
    return done.returncode, done.stdout, done.stderr.decode(errors="replace").strip()


def try_file(program, writer, text):
    """The cures that were taken, and what went wrong, or nothing."""
    taken = []
    first = text
    while True:
        status, _, line = run([program, "test"], text)
        if status == 0:
            break
        name, words = cure(line, text, writer, taken)
        if name is None or name in taken or len(taken) == MOST_CURES:
            return taken, f"no cure for: {line}"
        # Orders are looked for in the file as it was before its places were taken.
        status, cured, said = run(words, first if name == "orders" else text)
        taken.append(name)
        if status == 0:
            text = cured
            first = cured if name in ("infinities", "quotes") else first
        elif name != "places":
            return taken, said
    for form in FORMS:
        status, drawing, line = run([program, "draw", *form], text)
        if status:
            return taken, f"draw {' '.join(form)}: {line}"
        status, _, line = run([program, "check"], drawing)
        if status:
            return taken, f"check of draw {' '.join(form)}: {line}"
    return taken, None


def main():
    built = os.environ.get("STDRAW", os.path.join(TOP, "crates/stdraw/out/stdraw"))
    program = os.path.abspath(sys.argv[1] if len(sys.argv) > 1 else built)
    if not os.access(program, os.X_OK):
        print("try_writers: skipped, the program isn't built (./stdraw builds it)")
        return
    files = sorted(glob.glob(os.path.join(TOP, "examples", "writers", "*", "*.gml")))
    wrong = 0
    for path in files:
        writer, name = path.split(os.sep)[-2:]
        with open(path, "rb") as file:
            taken, fault = try_file(program, writer, file.read())
        wrong += fault is not None
        print(f"{writer}/{name}: {fault or 'drawn'}" + (", by " + ", then ".join(taken) if taken else ""))
    print(f"try_writers: {len(files)} files, {wrong} without a picture")
    sys.exit(1 if wrong else 0)


if __name__ == "__main__":
    main()
