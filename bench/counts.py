#!/usr/bin/env python3
"""counts.py [--write] [PROGRAM]: what runs of the built program cost, in counts that are the same on every machine.

For `test`, each form of `draw`, a query of 1,000 pairs and a join, on the graphs that `gen N 1` writes for 1,000, 5,000 and
20,000 vertices, and for `check` of what `draw` writes of them: millions of instructions and blocks of memory (valgrind's callgrind), megabytes at the most (GNU time), and writes (strace).
Each is compared with its bound in counts.txt, and a bound that is broken is named; the end is then 1. With --write the file is
made anew, with each bound a twentieth above what was counted: do that with a change that is meant to cost more or less.
"""
import os
import re
import shutil
import subprocess
import sys
import tempfile

HERE = os.path.dirname(os.path.abspath(__file__))
BOUNDS = os.path.join(HERE, "counts.txt")
PAIRS = [word for k in range(1, 1001) for word in ("1", str(k))]
RUNS = {"test": ["test"], "visibility": ["draw", "visibility"], "tessellation": ["draw", "tessellation"],
        "constrained": ["draw", "constrained"], "polyline_left": ["draw", "polyline", "left"],
        "polyline_middle": ["draw", "polyline", "middle"], "polyline_right": ["draw", "polyline", "right"],
        "dominance": ["draw", "dominance"], "query_1000": ["query"] + PAIRS, "join": ["join", "3", "4"]}
CHECKED = ("visibility", "tessellation", "polyline_middle", "dominance")
SIZES = (1000, 5000, 20000)
HEAD = "# run, vertices, then counted and bound of: millions of instructions, blocks, megabytes, writes. Made by counts.py --write."


def blocks_in(path):
    """The number of calls of malloc, calloc and realloc in a callgrind file."""
    names, blocks, callee = {}, 0, ""
    with open(path) as file:
        for line in file:
            named = re.match(r"c?fn=\((\d+)\)(?: (.*))?", line)
            if named:
                if named.group(2):
                    names[named.group(1)] = named.group(2).strip()
                if line.startswith("cfn"):
                    callee = names.get(named.group(1), "")
            elif line.startswith("calls=") and callee in ("malloc", "realloc", "calloc"):
                blocks += int(line[6:].split()[0])
    return blocks


def counted(program, words, graph, work):
    """Millions of instructions, blocks, megabytes, writes of a run."""
    out = os.path.join(work, "callgrind")
    with open(graph, "rb") as file:
        said = subprocess.run(["valgrind", "--tool=callgrind", "--callgrind-out-file=" + out, program, *words], stdin=file,
                              stdout=subprocess.DEVNULL, stderr=subprocess.PIPE, text=True).stderr
    millions = int(re.search(r"Collected : (\d+)", said).group(1)) / 1e6
    with open(graph, "rb") as file:
        said = subprocess.run(["strace", "-f", "-c", "-e", "trace=write", program, *words], stdin=file,
                              stdout=subprocess.DEVNULL, stderr=subprocess.PIPE, text=True).stderr
    writes = next((int(line.split()[3]) for line in said.splitlines() if line.endswith(" write")), 0)
    with open(graph, "rb") as file:
        said = subprocess.run(["/usr/bin/time", "-f", "%M", program, *words], stdin=file, stdout=subprocess.DEVNULL, stderr=subprocess.PIPE, text=True).stderr
    kilobytes = int(said.split()[-1])
    return round(millions, 1), blocks_in(out), round(kilobytes / 1024, 1), writes


def bounds():
    """The bounds of each run and size."""
    found = {}
    if os.path.exists(BOUNDS):
        with open(BOUNDS) as file:
            for line in file:
                if not line.startswith("#"):
                    run, size, *numbers = line.split()
                    found[run, int(size)] = [float(number) for number in numbers[1::2]]
    return found


def main():
    writes_file = "--write" in sys.argv
    rest = [word for word in sys.argv[1:] if word != "--write"]
    program = os.path.abspath(rest[0] if rest else os.path.join(HERE, "../crates/stdraw/out/stdraw"))
    for tool in ("valgrind", "strace", "/usr/bin/time"):
        if not shutil.which(tool):
            sys.exit(f"counts: {tool} isn't installed, so nothing is counted")
    if not os.access(program, os.X_OK):
        sys.exit("counts: the program isn't built (./stdraw builds it)")
    known, broken, lines = bounds(), 0, [HEAD]
    print(f"{'run':22} {'vertices':>8} {'M instructions':>15} {'blocks':>8} {'MB':>6} {'writes':>7}")
    with tempfile.TemporaryDirectory() as work:
        for size in SIZES:
            graph = os.path.join(work, "graph.gml")
            with open(graph, "wb") as file:
                subprocess.run([program, "gen", str(size), "1"], stdout=file, check=True)
            runs = [(run, words, graph) for run, words in RUNS.items()]
            for form in CHECKED:
                drawing = os.path.join(work, form + ".eps")
                with open(drawing, "wb") as file, open(graph, "rb") as source:
                    subprocess.run([program, *RUNS[form]], stdin=source, stdout=file, check=True)
                runs.append(("check_" + form, ["check"], drawing))
            for run, words, file in runs:
                got = counted(program, words, file, work)
                print(f"{run:22} {size:>8} {got[0]:>15} {got[1]:>8} {got[2]:>6} {got[3]:>7}")
                for what, number, bound in zip(("instructions", "blocks", "megabytes", "writes"), got, known.get((run, size), [])):
                    if number > bound and not writes_file:
                        print(f"counts: {run} at {size} vertices: {number} {what}, and the bound is {bound}")
                        broken += 1
                lines.append(f"{run} {size} " + " ".join(f"{number} {round(number * 1.05 + 0.05, 1)}" for number in got))
    if writes_file:
        with open(BOUNDS, "w") as file:
            print("\n".join(lines), file=file)
    sys.exit(1 if broken else 0)


if __name__ == "__main__":
    main()
