#!/usr/bin/env python3
"""checks.py [PROGRAM]: what `check` costs on large clean drawings, as a multiple of reading them.

The drawings: what `draw` writes in each form for `gen 20000 1`, two vertices with 300,000 edges, a star of 100,000 paths of two
edges, and a staircase of 20,000 edges that all span the whole height. Each is checked as it is, and with another last line,
so that it is read to its end and refused there: that is the cost of reading. Prints both counts of instructions (valgrind's
callgrind) and their ratio; the end is 1 where a ratio is above 6. It takes some minutes.
"""
import os
import re
import subprocess
import sys
import tempfile

HERE = os.path.dirname(os.path.abspath(__file__))
FORMS = ("visibility", "tessellation", "constrained", "polyline left", "polyline middle", "polyline right", "dominance")
MOST = 6


def at(x):
    return 24 * x + 36


def head(form, x, y):
    return (f"%!PS-Adobe-3.0 EPSF-3.0\n%%BoundingBox: 0 0 {24 * x + 72} {24 * y + 72}\n%%Title: {form}\n%%EndComments\n"
            "/Helvetica findfont 10 scalefont setfont\n1 setlinewidth 1 setlinecap\n")


def bar(name, y, a, b):
    return f"%v {name}\nnewpath {at(a)} {at(y)} moveto {at(b)} {at(y)} lineto stroke\n"


def line(name, tail, head_, *points):
    (x, y), *rest = points
    steps = "".join(f" {at(a)} {at(b)} lineto" for a, b in rest)
    return f"%e {name} {tail} {head_}\nnewpath {at(x)} {at(y)} moveto{steps} stroke\n"


def parallel(count):
    """Two bars, and upright lines between them."""
    text = [head("visibility", count - 1, 1), bar(1, 0, 0, count - 1), bar(2, 1, 0, count - 1)]
    text += [line(e, 1, 2, (e, 0), (e, 1)) for e in range(count)]
    return "".join(text)


def star(count):
    """A bar below, a bar above, and a vertex half way on each of the ways between them."""
    text = [head("visibility", count - 1, 2), bar(1, 0, 0, count - 1), bar(2, 2, 0, count - 1)]
    text += [bar(k + 3, 1, k, k) for k in range(count)]
    text += [line(2 * k, 1, k + 3, (k, 0), (k, 1)) for k in range(count)]
    text += [line(2 * k + 1, k + 3, 2, (k, 1), (k, 2)) for k in range(count)]
    return "".join(text)


def staircase(count):
    """Edges that span the whole height, and between two of them a vertex, each one step higher than the one before."""
    text = [head("visibility", 2 * count, count + 1), bar(1, 0, 0, 2 * count), bar(2, count + 1, 0, 2 * count)]
    text += [bar(k + 3, k + 1, 2 * k + 1, 2 * k + 1) for k in range(count)]
    text += [line(k, 1, 2, (2 * k, 0), (2 * k, count + 1)) for k in range(count + 1)]
    text += [line(count + 1 + k, 1, k + 3, (2 * k + 1, 0), (2 * k + 1, k + 1)) for k in range(count)]
    text += [line(2 * count + 1 + k, k + 3, 2, (2 * k + 1, k + 1), (2 * k + 1, count + 1)) for k in range(count)]
    return "".join(text)


def millions(program, path, work):
    """Millions of instructions of a check, and its status."""
    with open(path, "rb") as file:
        done = subprocess.run(["valgrind", "--tool=callgrind", "--callgrind-out-file=" + os.path.join(work, "out"), program, "check"],
                              stdin=file, capture_output=True, text=True)
    return int(re.search(r"Collected : (\d+)", done.stderr).group(1)) / 1e6, done.returncode


def main():
    program = os.path.abspath(sys.argv[1] if len(sys.argv) > 1 else os.path.join(HERE, "../crates/stdraw/out/stdraw"))
    if not os.access(program, os.X_OK):
        sys.exit("checks: the program isn't built (./stdraw builds it)")
    above = 0
    with tempfile.TemporaryDirectory() as work:
        graph = subprocess.run([program, "gen", "20000", "1"], capture_output=True, check=True).stdout
        drawings = [(form, subprocess.run([program, "draw", *form.split()], input=graph, capture_output=True, check=True).stdout) for form in FORMS]
        drawings += [(what, text.encode()) for what, text in (("300,000 parallel edges", parallel(300000)), ("a star of 100,000 paths", star(100000)),
                                                              ("a staircase of 20,000", staircase(20000)))]
        print(f"{'drawing':26} {'megabytes':>9} {'read, M':>9} {'check, M':>9} {'ratio':>6}")
        for what, text in drawings:
            path = os.path.join(work, "drawing.eps")
            with open(path, "wb") as file:
                file.write(text.replace(b"%%EOF\n", b"") + b"%%EOF\n")
            whole, status = millions(program, path, work)
            with open(path, "wb") as file:
                file.write(text.replace(b"%%EOF\n", b"") + b"%%END\n")
            read, refused = millions(program, path, work)
            if (status, refused) != (0, 11):
                sys.exit(f"checks: {what} ends with {status}, and with another last line with {refused}")
            above += whole / read > MOST
            print(f"{what:26} {len(text) / 1e6:>9.1f} {read:>9.1f} {whole:>9.1f} {whole / read:>6.2f}")
    sys.exit(1 if above else 0)


if __name__ == "__main__":
    main()
