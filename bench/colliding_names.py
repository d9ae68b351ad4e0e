#!/usr/bin/env python3
"""Writes a GML file whose node ids collide in an index with std's default hash, and one with as many other ids.

    colliding_names.py colliding N > colliding.gml
    colliding_names.py ordinary N > ordinary.gml

An index of N names has the least power of two of groups that holds them at nine names a group; a name begins at the
group that the low bits of its hash name, and goes on from there to the next group with room. The ids of the first file
all begin in the first sixteenth of the groups, so that an index without a salt walks over about half of them for each
name: its time grows with the square of N. The hash is SipHash with one round for each word, three at the end and keys
of 0, as `DefaultHasher` has it, of the eight bytes of the id; the index takes its upper half xor its lower one.

Each file has one path from the first node to the last, by an edge from each node to the next, so that it is a planar
st-graph and each name is looked up. 100,000 ids take about half a minute.
"""
import random
import sys

WORD = (1 << 64) - 1


def rotated(x, n):
    return ((x << n) | (x >> (64 - n))) & WORD


def mixed(v0, v1, v2, v3):
    v0 = (v0 + v1) & WORD
    v2 = (v2 + v3) & WORD
    v1 = rotated(v1, 13) ^ v0
    v3 = rotated(v3, 16) ^ v2
    v0 = rotated(v0, 32)
    v2 = (v2 + v1) & WORD
    v0 = (v0 + v3) & WORD
    v1 = rotated(v1, 17) ^ v2
    v3 = rotated(v3, 21) ^ v0
    v2 = rotated(v2, 32)
    return v0, v1, v2, v3


def hashed(word):
    """The 32 bits by which an index without a salt places an id of 64 bits."""
    v = (0x736F6D6570736575, 0x646F72616E646F6D, 0x6C7967656E657261, 0x7465646279746573)
    for m in (word, 8 << 56):
        v = mixed(v[0], v[1], v[2], v[3] ^ m)
        v = (v[0] ^ m, v[1], v[2], v[3])
    v = (v[0], v[1], v[2] ^ 0xFF, v[3])
    for _ in range(3):
        v = mixed(*v)
    whole = v[0] ^ v[1] ^ v[2] ^ v[3]
    return (whole ^ (whole >> 32)) & 0xFFFFFFFF


def colliding(n):
    groups = 1
    while 9 * groups < n:
        groups *= 2
    mask = (groups - 1) & ~(groups // 16 - 1)
    ids = []
    candidate = 1
    while len(ids) < n:
        if hashed(candidate) & mask == 0:
            ids.append(candidate)
        candidate += 1
    return ids


def ordinary(n):
    return random.Random(1).sample(range(1, 16 * n + 1), n)


def main():
    kinds = {"colliding": colliding, "ordinary": ordinary}
    if len(sys.argv) != 3 or sys.argv[1] not in kinds:
        sys.exit("usage: colliding_names.py colliding|ordinary N")
    ids = kinds[sys.argv[1]](int(sys.argv[2]))
    lines = ["graph ["]
    lines += [f"node [ id {i} ]" for i in ids]
    lines += [f"edge [ source {s} target {t} ]" for s, t in zip(ids, ids[1:])]
    print("\n".join(lines + ["]"]))


main()
