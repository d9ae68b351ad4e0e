#!/usr/bin/env python3
"""growth.py [--write] [PROGRAM]: does the cost of a run grow as the graph does?

For `test`, each form of `draw`, a query of 1,000 pairs, `join` and `orient`, on the graphs that `gen N 1` writes for
1,000 and 100,000 vertices: instructions (valgrind's callgrind) and memory (the greatest resident size), both beyond
those of `test` on a graph of two vertices, by vertex. The table is growth.txt: what was counted, the ratio of the
cost of a vertex in the larger graph to that in the smaller one, and the bound of the ratio. Then, on two files just
under the limit of bytes, the memory as a multiple of the file: nested lists as drawing programs write them, and the
shortest pairs that there are.

Each ratio is compared with its bound in growth.txt, and one that is broken is named; the end is then 1. With --write
the file is made anew; bounds are kept where they are there. It takes a quarter of an hour.
"""
import os
import re
import shutil
import subprocess
import sys
import tempfile

HERE = os.path.dirname(os.path.abspath(__file__))
TABLE = os.path.join(HERE, "growth.txt")
SMALL, LARGE, MOST_BYTES = 1000, 100000, 67108864
PAIRS = [word for k in range(1, 1001) for word in ("1", str(k))]
RUNS = {"test": ["test"], "visibility": ["draw", "visibility"], "tessellation": ["draw", "tessellation"],
        "constrained": ["draw", "constrained"], "polyline_left": ["draw", "polyline", "left"],
        "polyline_middle": ["draw", "polyline", "middle"], "polyline_right": ["draw", "polyline", "right"],
        "dominance": ["draw", "dominance"], "query_1000": ["query"] + PAIRS, "join": ["join", "3", "4"],
        "orient": ["orient", "1", "2"]}
FILES = {"nested_lists": ('graphics [ x 12.5 y -30.0 type "rectangle" fill "#FFCC00" point [ x 1e+06 y 2 ] ]', 8),
         "shortest_pairs": ("a 1", 16)}
BOUND = 1.5
HEAD = ("# Made by growth.py --write. Runs: millions of instructions beyond start-up at 1,000 and 100,000 vertices,\n"
        "# their ratio by vertex, its bound; the same of megabytes. Files just under the limit: megabytes, multiple\n"
        "# of the file, its bound.")


def millions(program, words, path, work):
    """Millions of instructions of a run."""
    with open(path, "rb") as file:
        counter = ["valgrind", "--tool=callgrind", "--callgrind-out-file=" + os.path.join(work, "out")]
        done = subprocess.run(counter + [program, *words], stdin=file, capture_output=True, text=True)
    if done.returncode:
        sys.exit(f"growth: {' '.join(words[:3])} ends with {done.returncode}")
    return int(re.search(r"Collected : (\d+)", done.stderr).group(1)) / 1e6


def megabytes(program, words, path):
    """The greatest resident size of a run, the least of three. A program of a small size of its own asks the system, since
    a child begins with the size of its parent."""
    timer = shutil.which("time")
    if not timer:
        sys.exit("growth: the program `time` isn't installed, so memory isn't measured")
    sizes = []
    for _ in range(3):
        with open(path, "rb") as file:
            done = subprocess.run([timer, "-f", "%M", program, *words], stdin=file, stdout=subprocess.DEVNULL,
                                  stderr=subprocess.PIPE, text=True)
        if done.returncode:
            sys.exit(f"growth: {' '.join(words[:3])} ends with {done.returncode}")
        sizes.append(int(done.stderr.split()[-1]) / 1024)
    return min(sizes)


def known_bounds():
    """The bounds in the table, by the first word of their line."""
    found = {}
    if os.path.exists(TABLE):
        with open(TABLE) as file:
            for line in file:
                name, *numbers = line.split()
                if name != "#":
                    bounds = numbers[3::4] if len(numbers) == 8 else numbers[2:]
                    found[name] = [float(bound) for bound in bounds]
    return found


def filled(filler):
    """A file just under the limit of bytes, with two vertices and one edge."""
    head, tail = "graph [ node [ id 1 ] node [ id 2 ] edge [ source 1 target 2 ]\n", "]\n"
    return head + (filler + "\n") * ((MOST_BYTES - len(head) - len(tail)) // (len(filler) + 1)) + tail


def main():
    is_writing = "--write" in sys.argv
    rest = [word for word in sys.argv[1:] if word != "--write"]
    program = os.path.abspath(rest[0] if rest else os.path.join(HERE, "../crates/stdraw/out/stdraw"))
    if not shutil.which("valgrind"):
        sys.exit("growth: valgrind isn't installed, so nothing is counted")
    if not os.access(program, os.X_OK):
        sys.exit("growth: the program isn't built (./stdraw builds it)")
    known, broken, lines = known_bounds(), 0, [HEAD]

    def cost(k, words, path):
        """Instructions or memory of a run beyond start-up."""
        return (millions(program, words, path, work) if k == 0 else megabytes(program, words, path)) - start[k]

    def tell(line):
        """Prints a line of the table, and writes the table as far as it is."""
        print(line, flush=True)
        lines.append(line)
        if is_writing:
            with open(TABLE, "w") as file:
                print("\n".join(lines), file=file)

    def judge(name, what, ratio, bound):
        if ratio > bound:
            print(f"growth: {name}: {what} grow by {ratio:.2f}, and the bound is {bound}")
            return 1
        return 0

    with tempfile.TemporaryDirectory() as work:
        graphs = {}
        for count in (2, SMALL, LARGE):
            graphs[count] = os.path.join(work, f"{count}.gml")
            with open(graphs[count], "wb") as file:
                subprocess.run([program, "gen", str(count), "1"], stdout=file, check=True)
        start = millions(program, ["test"], graphs[2], work), megabytes(program, ["test"], graphs[2])
        print(f"start-up: {start[0]:.2f} million instructions, {start[1]:.2f} megabytes")
        for name, words in RUNS.items():
            cells = []
            for k, what in enumerate(("instructions", "megabytes")):
                low, high = cost(k, words, graphs[SMALL]), cost(k, words, graphs[LARGE])
                ratio, bound = (high / LARGE) / (low / SMALL), known.get(name, [BOUND, BOUND])[k]
                broken += judge(name, what, ratio, bound)
                cells += [f"{low:.2f}", f"{high:.1f}", f"{ratio:.2f}", str(bound)]
            tell(" ".join([name] + cells))
        for name, (filler, most) in FILES.items():
            path = os.path.join(work, "file.gml")
            with open(path, "w") as file:
                file.write(filled(filler))
            size, bound = megabytes(program, ["query", "1", "2"], path), known.get(name, [most])[0]
            ratio = size * (1 << 20) / os.path.getsize(path)
            broken += judge(name, "megabytes", ratio, bound)
            tell(f"{name} {size:.1f} {ratio:.2f} {bound}")
    sys.exit(1 if broken else 0)


if __name__ == "__main__":
    main()
