#!/usr/bin/env python3
"""orientations.py [PROGRAM] [MOST]: plane graphs without directions are oriented, and what comes out is tested.

The graphs: what `gen N SEED` writes, of up to MOST vertices (100,000 where it isn't given), and a row of diamonds,
which falls apart at each vertex between two of them. Their directions are forgotten: each edge is turned round or not
by chance, the edges stand in the file by chance, and the orders and the outer face are written out. Each is oriented
between several pairs of poles on its outer face. What comes out has to have the same edges, each turned or not, and
the same orders; `test` has to name its poles; one drawing of it has to be clean. For the largest of both kinds the
processor time of `orient` is compared with that of `test` on the file that it wrote: at most twice, of three runs the
quickest. Ends with 1 where something is wrong. Chance comes from fixed seeds. It takes some minutes.
"""
import os
import random
import re
import subprocess
import sys
import tempfile

HERE = os.path.dirname(os.path.abspath(__file__))
SIZES = ((2, 3), (3, 5), (10, 20), (100, 20), (1000, 5), (10000, 2), (100000, 1))
PAIRS = 4
RATIO = 2


class Plane:
    """A plane graph: the ends of its edges from bottom to top, the edges at each vertex clockwise, its outer cycle."""

    def __init__(self, count, ends):
        self.count, self.ends = count, ends
        self.out, into = [[] for _ in range(count + 1)], [[] for _ in range(count + 1)]
        for e, (tail, head) in enumerate(ends):
            self.out[tail].append(e)
            into[head].append(e)
        self.orders = [out + ins[::-1] for out, ins in zip(self.out, into)]

    def outside(self, low, high):
        """The vertices on the outer face, up on the right and down on the left, and the pairs of poles to be tried."""
        sides = []
        for take in (-1, 0):
            walk, at = [low], low
            while at != high:
                at = self.ends[self.out[at][take]][1]
                walk.append(at)
            sides.append(walk)
        return sides[0] + sides[1][-2:0:-1]

    def text(self, rng):
        """Its file without directions, with the edges by chance."""
        places = list(range(len(self.ends)))
        rng.shuffle(places)
        turned = [rng.random() < 0.5 for _ in self.ends]
        leftmost = self.out[1][0]
        lines = [f"graph [ outer [ edge {leftmost} side {int(turned[leftmost])} ]"]
        for v in range(1, self.count + 1):
            lines.append(f"node [ id {v} order [" + "".join(f" e {e}" for e in self.orders[v]) + " ] ]")
        for e in places:
            tail, head = self.ends[e][::-1] if turned[e] else self.ends[e]
            lines.append(f"edge [ id {e} source {tail} target {head} ]")
        return ("\n".join(lines) + "\n]\n").encode()


def generated(program, count, seed):
    text = subprocess.run([program, "gen", str(count), str(seed)], capture_output=True, check=True).stdout
    return Plane(count, [(int(a), int(b)) for a, b in re.findall(rb"source (\d+)\ntarget (\d+)", text)])


def diamonds(count):
    """A row of diamonds, one on the other, of at most so many vertices, from the first vertex up to the last."""
    number = (count - 1) // 3
    ends = []
    for k in range(number):
        low = 3 * k + 1
        ends += [(low, low + 1), (low, low + 2), (low + 1, low + 3), (low + 2, low + 3)]
    return Plane(3 * number + 1, ends)


def run(words, data, file=None):
    """The status, output, line and seconds of processor of a run."""
    with tempfile.TemporaryFile() as source, tempfile.TemporaryFile() as out, tempfile.TemporaryFile() as line:
        source.write(data)
        source.seek(0)
        child = subprocess.Popen(words, stdin=source, stdout=out, stderr=line)
        _, status, used = os.wait4(child.pid, 0)
        child.returncode = os.waitstatus_to_exitcode(status)
        out.seek(0)
        line.seek(0)
        return child.returncode, out.read(), line.read().decode(errors="replace").strip(), used.ru_utime + used.ru_stime


def fault(program, plane, text, s, t):
    """What is wrong with the orientation of a file, or nothing, and the file that was written."""
    status, written, line, _ = run([program, "orient", str(s), str(t)], text)
    if status:
        return f"orient ends with {status}: {line}", b""
    found = re.findall(rb"edge \[\nid (\d+)\nsource (\d+)\ntarget (\d+)\n\]", written)
    edges = {int(e): (int(a), int(b)) for e, a, b in found}
    for e, (tail, head) in enumerate(plane.ends):
        if edges.get(e) not in ((tail, head), (head, tail)):
            return f"edge {e} of {tail} and {head} became {edges.get(e)}", written
    orders = {int(v): [int(e) for e in re.findall(rb"e (\d+)", order)]
              for v, order in re.findall(rb"node \[\nid (\d+)\norder \[\n((?:e \d+\n)*)\]\n\]", written)}
    for v in range(1, plane.count + 1):
        if orders.get(v) != plane.orders[v]:
            return f"the order at {v} became {orders.get(v)}", written
    faces = 2 - plane.count + len(plane.ends)
    wanted = f"planar st-graph: {plane.count} vertices, {len(plane.ends)} edges, {faces} faces, source {s}, sink {t}\n"
    status, output, line, _ = run([program, "test"], written)
    if output != wanted.encode():
        return f"test says {output.decode()}{line}", written
    status, drawing, line, _ = run([program, "draw", "polyline", "middle"], written)
    if status:
        return f"draw ends with {status}: {line}", written
    status, output, line, _ = run([program, "check"], drawing)
    return (None if status == 0 else f"check says {line}"), written


def quickest(words, data):
    return min(run(words, data)[3] for _ in range(3))


def main():
    words = sys.argv[1:]
    most = int(words.pop()) if words and words[-1].isdigit() else 100000
    program = os.path.abspath(words[0] if words else os.path.join(HERE, "../crates/stdraw/out/stdraw"))
    if not os.access(program, os.X_OK):
        sys.exit("orientations: the program isn't built (./stdraw builds it)")
    wrong = tried = 0
    for count, seeds in SIZES:
        if count > most:
            continue
        rows = [(f"gen {count} {seed}", generated(program, count, seed), 2) for seed in range(1, seeds + 1)]
        if count > 3:
            row = diamonds(count)
            rows.append((f"a row of diamonds of {row.count} vertices", row, row.count))
        for name, plane, high in rows:
            rng = random.Random(name)
            around = plane.outside(1, high)
            pairs = [(1, high), (high, 1)]
            # A row of diamonds has no orientation between other poles: each of its middle vertices cuts it.
            if high == 2 and count > 2:
                pairs += [tuple(rng.sample(around, 2)) for _ in range(PAIRS - 2)]
            text = plane.text(rng)
            for s, t in pairs:
                tried += 1
                said, written = fault(program, plane, text, s, t)
                if said:
                    wrong += 1
                    print(f"WRONG: {name}, {s} to {t}: {said}")
            if count == min(most, SIZES[-1][0]) or count == 10000:
                ours, theirs = quickest([program, "orient", str(s), str(t)], text), quickest([program, "test"], written)
                is_slow = count == min(most, SIZES[-1][0]) and ours > RATIO * theirs
                wrong += is_slow
                mark = "WRONG: " if is_slow else ""
                print(f"{mark}{name}: orient {ours:.3f} s, test of what it wrote {theirs:.3f} s, "
                      f"ratio {ours / theirs:.2f}")
    print(f"orientations: {tried} orientations tried, {wrong} wrong")
    sys.exit(1 if wrong else 0)


if __name__ == "__main__":
    main()
