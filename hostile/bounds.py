#!/usr/bin/env python3
"""bounds.py [VERTICES [SEED]]: every join and every meet of a generated graph, compared with the definition.

Asks the built program for `join U V` and `meet U V` of all pairs U <= V of the graph that `gen VERTICES SEED` writes (300 and 1
where they aren't given), and compares all three lines with what the definitions say: the join is the one vertex that both
reach and that reaches each vertex which both reach, the meet is the same downwards, and each walk takes the first edge, in the
order of the file, whose head reaches the end. STDRAW names another program. It takes some minutes; the end is 0 where all
agree.
"""
import os
import re
import subprocess
import sys
from concurrent.futures import ThreadPoolExecutor

HERE = os.path.dirname(os.path.abspath(__file__))
PROGRAM = os.environ.get("STDRAW", os.path.join(HERE, "../crates/stdraw/out/stdraw"))


def bits(mask):
    """The numbers whose bits are set."""
    while mask:
        low = mask & -mask
        yield low.bit_length() - 1
        mask ^= low


class Order:
    """Which vertex reaches which, in a graph of edges in the order of a file."""

    def __init__(self, count, ends):
        self.count, self.ends, self.out = count, ends, [[] for _ in range(count)]
        for e, (u, _) in enumerate(ends):
            self.out[u].append(e)
        self.above = [0] * count
        for v in self.downward():
            self.above[v] = 1 << v
            for e in self.out[v]:
                self.above[v] |= self.above[ends[e][1]]
        self.below = [sum(1 << u for u in range(count) if self.above[u] >> v & 1) for v in range(count)]

    def downward(self):
        """The vertices, each behind all that it reaches."""
        left, heads, ready, order = [len(es) for es in self.out], [[] for _ in range(self.count)], [], []
        for u, v in self.ends:
            heads[v].append(u)
        ready = [v for v in range(self.count) if not left[v]]
        while ready:
            v = ready.pop()
            order.append(v)
            for u in heads[v]:
                left[u] -= 1
                if not left[u]:
                    ready.append(u)
        return order

    def bound(self, both, reach):
        """The one vertex of a set that reaches, or is reached from, all of it."""
        (found,) = [w for w in bits(both) if both & ~reach[w] == 0]
        return found

    def walk(self, u, w):
        """The edges of the leftmost walk."""
        edges = []
        while u != w:
            e = next(e for e in self.out[u] if self.above[self.ends[e][1]] >> w & 1)
            edges.append(e)
            u = self.ends[e][1]
        return edges

    def lines(self, word, u, v):
        """What the program has to print; vertex k is named k + 1."""
        if word == "join":
            w = self.bound(self.above[u] & self.above[v], self.above)
            walks = [(u, w), (v, w)]
        else:
            w = self.bound(self.below[u] & self.below[v], self.below)
            walks = [(w, u), (w, v)]
        told = [f"{word} {u + 1} {v + 1} {w + 1}"]
        for a, b in walks:
            told.append(f"walk {a + 1} {b + 1}:" + "".join(f" {e}" for e in self.walk(a, b)))
        return "\n".join(told) + "\n"


def main():
    count = int(sys.argv[1]) if len(sys.argv) > 1 else 300
    seed = sys.argv[2] if len(sys.argv) > 2 else "1"
    if not os.access(PROGRAM, os.X_OK):
        sys.exit("bounds: the program isn't built (./stdraw builds it)")
    graph = subprocess.run([PROGRAM, "gen", str(count), seed], capture_output=True, check=True).stdout
    ends = [(int(a) - 1, int(b) - 1) for a, b in re.findall(rb"source (\d+)\ntarget (\d+)", graph)]
    order = Order(count, ends)

    def ask(row):
        word, u, v = row
        ran = subprocess.run([PROGRAM, word, str(u + 1), str(v + 1)], input=graph, capture_output=True)
        wanted = order.lines(word, u, v)
        if ran.returncode or ran.stdout.decode() != wanted:
            return f"bounds: {word} {u + 1} {v + 1} of gen {count} {seed} answers {ran.stdout!r}, and should answer {wanted!r}"
        return None

    rows = [(word, u, v) for word in ("join", "meet") for u in range(count) for v in range(u, count)]
    with ThreadPoolExecutor(os.cpu_count()) as pool:
        wrong = [said for said in pool.map(ask, rows) if said]
    print("\n".join(wrong[:20] + [f"bounds: {len(rows)} bounds of gen {count} {seed} compared, {len(wrong)} wrong"]))
    sys.exit(1 if wrong else 0)


if __name__ == "__main__":
    main()
