#!/usr/bin/env python3
"""fuzz.py SEED COUNT [PROGRAM] [JOBS]: makes COUNT files from a seed, and runs every command on each.

A file is an example, a graph or a drawing, or a generated graph that was damaged: cut off, doubled, bytes turned, keys
exchanged, numbers put to their limits, an edge too many, an order turned round. A run is wrong where it ends by a signal,
takes longer than the bound, has a status that no table names, a line that no table has, a line that isn't the status's,
an output beside a status that isn't 0, or none beside 0, but for a session, which may have no question. It prints how
often each status came, and each wrong run with its file's number, so that the same seed makes that file again. Ends
with 1 where a run was wrong.
"""
import collections
import glob
import multiprocessing
import os
import random
import re
import subprocess
import sys
import tempfile

TOP = os.path.dirname(os.path.dirname(os.path.abspath(__file__)))
SECONDS = 5
COMMANDS = [["test"], ["query", "1", "2", "0", "1"], ["draw", "visibility"], ["draw", "tessellation"], ["draw", "constrained"],
            ["draw", "polyline", "left"], ["draw", "polyline", "middle"], ["draw", "polyline", "right"], ["draw", "dominance"],
            ["join", "1", "2"], ["meet", "2", "0"], ["orient", "1", "2"], ["session"], ["check"]]
NUMBER = r"-?[0-9]+"
# The lines of each status.
LINES = {
    1: ["not st: too few vertices: [01]", f"not st: cycle:( {NUMBER})+", f"not st: [0-9]+ (sources|sinks), the first {NUMBER} and {NUMBER}",
        f"not st: order at vertex {NUMBER}", "not st: faces: [0-9]+ vertices, [0-9]+ edges, [0-9]+ faces",
        "not st: outer face misses the (source|sink|source and the sink)"],
    3: ["gml: (bad byte|open string|bad number|big number|key without value|stray token|list too deep|unclosed list) at [0-9]+",
        "gml: no graph", "gml: (bad record|second graph|wrong kind of value|node without id|unknown edge|bad outer|bad minlen) at [0-9]+",
        f"gml: (node|edge) id {NUMBER} twice", "gml: edge [0-9]+ lacks an end", f"gml: edge [0-9]+ ends at unknown node {NUMBER}"],
    4: ["limit: more than [0-9]+ bytes", "limit: [0-9]+ (vertices|edges|records), at most [0-9]+"],
    8: [f"path: [0-9]+ names unknown edge {NUMBER}", "path: [0-9]+ is no directed path", f"path: [0-9]+ shares edge {NUMBER}",
        f"path: [0-9]+ crosses path [0-9]+ at vertex {NUMBER}"],
    9: [f"unknown vertex: {NUMBER}"],
    10: ["not clean: item [0-9]+", "not clean: items [0-9]+ and [0-9]+", "not clean: area"],
    11: ["eps: bad line [0-9]+"],
    12: [f"record [0-9]+: (vertex|edge) name {NUMBER} is used", f"record [0-9]+: unknown (vertex|edge) {NUMBER}",
         "record [0-9]+: tail and head are one vertex", f"record [0-9]+: edge {NUMBER} is not at vertex {NUMBER}",
         "record [0-9]+: corner in the outer face", f"record [0-9]+: vertex {NUMBER} reaches vertex {NUMBER}",
         "record [0-9]+: corners in two faces", f"record [0-9]+: leaves a (source|sink) at vertex {NUMBER}"],
    13: ["no orientation: one vertex for both poles", f"no orientation: (edge {NUMBER} is a loop|vertex {NUMBER} is apart|vertex {NUMBER} cuts off vertex {NUMBER})"],
}
LINE_OF = {status: re.compile(("(" + "|".join(lines) + ")\n").encode()) for status, lines in LINES.items()}
WORDS = [b"graph", b"node", b"edge", b"id", b"source", b"target", b"label", b"order", b"outer", b"path", b"e", b"side", b"minlen", b"edit", b"ask", b"split", b"insert", b"remove", b"from", b"to", b"[", b"]", b'"', b"-",
         b"1.5", b"500", b"501", b"9223372036854775807", b"9223372036854775808", b"-9223372036854775808", b"0", b"1", b"2", b"\xef\xbb\xbf", b"\x00", b"\xff", b"#", b"\n"]


def seeds(program):
    """The texts that are damaged."""
    texts = []
    names = [name for kind in ("gml", "eps") for name in sorted(glob.glob(os.path.join(TOP, "examples", "**", "*." + kind), recursive=True))]
    for name in names:
        with open(name, "rb") as file:
            texts.append(file.read())
    for vertices in (2, 3, 5, 8, 13, 30):
        for seed in (1, 2):
            texts.append(subprocess.run([program, "gen", str(vertices), str(seed)], capture_output=True, check=True).stdout)
    return texts


def damage(rng, text, texts):
    """The text with one thing wrong."""
    at = rng.randrange(len(text) + 1)
    kind = rng.choice((0, 1, 2, 3, 4, 4, 4, 5, 5, 5, 5, 6, 6, 6, 6, 7, 7, 7, 7, 8, 9))
    if kind == 0:
        return text[:at]
    if kind == 1:
        return text + rng.choice(texts)
    if kind == 2 and text:
        at = min(at, len(text) - 1)
        return text[:at] + bytes([text[at] ^ (1 << rng.randrange(8))]) + text[at + 1:]
    if kind == 3:
        old, new = rng.choice(WORDS), rng.choice(WORDS)
        return text.replace(old, new, rng.randrange(1, 4))
    if kind == 4:
        numbers = list(re.finditer(rb"[0-9]+", text))
        if numbers:
            one = rng.choice(numbers)
            return text[:one.start()] + rng.choice((b"0", b"1", b"2", b"3", b"4", b"5", b"7", rng.choice(WORDS))) + text[one.end():]
    if kind == 5:
        close = text.rfind(b"]")
        ends = b" edge [ source %d target %d ] " % (rng.randrange(9), rng.randrange(9))
        return text[:close] + ends + text[close:] if close > 0 else text
    if kind == 6:
        lists = list(re.finditer(rb"(order|path)\s*\[([^\]]*)\]", text))
        if lists:
            one = rng.choice(lists)
            entries = re.findall(rb"e\s+-?[0-9]+", one.group(2))
            rng.shuffle(entries)
            return text[:one.start(2)] + b" " + b" ".join(entries) + b" " + text[one.end(2):]
    if kind == 7:
        edges = list(re.finditer(rb"edge\s*\[[^\[\]]*\]", text))
        if len(edges) > 1:
            one, other = sorted(rng.sample(edges, 2), key=lambda each: each.start())
            return text[:one.start()] + other.group() + text[one.end():other.start()] + one.group() + text[other.end():]
    if kind == 8:
        return text[:at] + rng.choice(WORDS) + text[at:]
    lower, upper = sorted((at, rng.randrange(len(text) + 1)))
    return text[:lower] + text[upper:]


def made(number, seed, texts):
    """The file with this number."""
    rng = random.Random(f"{seed} {number}")
    text = rng.choice(texts)
    for _ in range(rng.choice((0, 1, 1, 1, 1, 2, 2, 3))):
        text = damage(rng, text, texts)
    return text


def fault(words, status, output, line):
    """What is wrong with the end of a run, or nothing. A session without a question has no output."""
    if status < 0:
        return f"signal {-status}"
    if status == 0:
        return None if (output or words == ["session"]) and not line else "done without an output, or with a line"
    if status not in LINE_OF:
        return f"status {status}"
    if output:
        return f"an output of {len(output)} bytes beside status {status}"
    return None if LINE_OF[status].fullmatch(line) else f"status {status} with the line {line[:100]!r}"


def try_files(given):
    """Runs every command on the files with these numbers."""
    program, seed, numbers, texts = given
    counts, wrong = collections.Counter(), []
    with tempfile.TemporaryFile() as file:
        for number in numbers:
            text = made(number, seed, texts)
            file.seek(0)
            file.truncate()
            file.write(text)
            file.flush()
            for words in COMMANDS:
                file.seek(0)
                try:
                    done = subprocess.run([program, *words], stdin=file, capture_output=True, timeout=SECONDS)
                    what = fault(words, done.returncode, done.stdout, done.stderr)
                    counts[done.returncode] += 1
                except subprocess.TimeoutExpired:
                    what = f"longer than {SECONDS} seconds"
                if what:
                    wrong.append(f"file {number}, {' '.join(words)}: {what}")
    return counts, wrong


def main():
    if len(sys.argv) < 3:
        sys.exit(__doc__)
    seed, count = sys.argv[1], int(sys.argv[2])
    program = os.path.abspath(sys.argv[3] if len(sys.argv) > 3 else os.path.join(TOP, "crates/stdraw/out/stdraw"))
    jobs = int(sys.argv[4]) if len(sys.argv) > 4 else os.cpu_count()
    if not os.access(program, os.X_OK):
        sys.exit("fuzz: the program isn't built (./stdraw builds it)")
    texts = seeds(program)
    parts = [(program, seed, range(first, min(first + 200, count)), texts) for first in range(0, count, 200)]
    counts, wrong = collections.Counter(), []
    with multiprocessing.Pool(jobs) as pool:
        for more, other in pool.imap_unordered(try_files, parts):
            counts += more
            wrong += other
    print(f"seed {seed}: {count} files, {sum(counts.values())} runs")
    for status in sorted(counts):
        print(f"status {status}: {counts[status]} runs")
    for each in wrong[:50]:
        print(f"WRONG: {each}")
    print(f"{len(wrong)} wrong runs")
    sys.exit(1 if wrong else 0)


if __name__ == "__main__":
    main()
