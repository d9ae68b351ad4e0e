#!/usr/bin/env python3
"""sessions.py [PROGRAM] [COUNT]: random edits and questions, each compared with the graph read anew.

Several generated graphs are changed by COUNT records (10,000 where it isn't given), a thousand a session at most. The
state is kept here by its definition: vertices, edges, clockwise lists and an outer end. Each record is tried behind all
that were accepted before it. What has to come is found by reading anew: the file of the state after an edit is written
with all its orders and its outer face, and `test` says whether it is a planar st-graph; a question is asked of that
file by a session with no edit. A refused edit has to have the line of its first fault. Ends with 1 where something is
wrong. Chance comes from fixed seeds. It takes some minutes.
"""
import os
import random
import subprocess
import sys

HERE = os.path.dirname(os.path.abspath(__file__))
SIZES = (2, 3, 6, 12, 25, 60, 150, 400)
MOST = 1000


def run(program, words, text):
    """Status, output and line."""
    done = subprocess.run([program, *words], input=text.encode(), capture_output=True, timeout=60, check=False)
    return done.returncode, done.stdout.decode(), done.stderr.decode()


class State:
    """A state of a session. An end is the name of its edge, and 0 at the tail or 1 at the head."""

    def __init__(self, lists, ends, outer):
        self.lists, self.ends, self.outer = lists, ends, outer

    def copy(self):
        """The same apart."""
        return State({v: list(l) for v, l in self.lists.items()}, dict(self.ends), self.outer)

    def next(self, end):
        """The clockwise next."""
        around = self.lists[self.ends[end[0]][end[1]]]
        return around[(around.index(end) + 1) % len(around)]

    def along(self, end):
        """The next end of the face."""
        return self.next((end[0], 1 - end[1]))

    def face(self, end):
        """All ends of the face."""
        found, at = [end], self.along(end)
        while at != end:
            found.append(at)
            at = self.along(at)
        return found

    def reaches(self, u, v):
        """Whether a walk leads from u to v."""
        seen, left = {u}, [u]
        while left:
            at = left.pop()
            for e, side in self.lists[at]:
                w = self.ends[e][1]
                if side == 0 and w not in seen:
                    seen.add(w)
                    left.append(w)
        return v in seen

    def text(self):
        """Its file."""
        lines = [f"graph [ outer [ edge {self.outer[0]} side {self.outer[1]} ]"]
        for v, around in self.lists.items():
            lines.append(f"node [ id {v} order [" + "".join(f" e {e}" for e, _ in around) + " ] ]")
        for e, (tail, head) in self.ends.items():
            lines.append(f"edge [ id {e} source {tail} target {head} ]")
        return "\n".join(lines) + "\n]\n"

    def split(self, e, a, b):
        """Edge e is split."""
        tail, head = self.ends[e]
        self.lists[head][self.lists[head].index((e, 1))] = (b, 1)
        self.lists[a] = [(b, 0), (e, 1)]
        self.ends[e], self.ends[b] = (tail, a), (a, head)

    def insert(self, b, u, p, v, q):
        """A new edge stands clockwise next behind two ends."""
        self.lists[u].insert(self.lists[u].index(p) + 1, (b, 0))
        self.lists[v].insert(self.lists[v].index(q) + 1, (b, 1))
        self.ends[b] = (u, v)

    def remove(self, e):
        """An edge is taken out."""
        if self.outer[0] == e:
            self.outer = self.along(self.outer)
        tail, head = self.ends.pop(e)
        self.lists[tail].remove((e, 0))
        self.lists[head].remove((e, 1))


def state_of(program, count, seed):
    """The state of a generated graph."""
    made = run(program, ["gen", str(count), str(seed)], "")[1].split()
    ends, out, into = {}, {}, {}
    for i, word in enumerate(made):
        if word == "id":
            out[int(made[i + 1])], into[int(made[i + 1])] = [], []
    for i, word in enumerate(made):
        if word == "source":
            e, tail, head = len(ends), int(made[i + 1]), int(made[i + 3])
            ends[e] = (tail, head)
            out[tail].append((e, 0))
            into[head].append((e, 1))
    return State({v: out[v] + into[v][::-1] for v in out}, ends, out[1][0])


class Trial:
    """One session: its state, and all records that were accepted."""

    def __init__(self, program, count, seed):
        self.program, self.rng = program, random.Random(1000 * count + seed)
        self.state = state_of(program, count, seed)
        self.first, self.records, self.lines, self.fresh = self.state.text(), [], "", 10 * count + 1000

    def name(self, names):
        """One of the names; seldom another one."""
        return self.rng.choice(sorted(names)) if self.rng.random() < 0.97 else self.rng.randint(-5, 5)

    def new(self, names):
        """A new name; seldom a used one."""
        self.fresh += 1
        return self.fresh if self.rng.random() < 0.97 else self.name(names)

    def anew(self, state):
        """Whether the file of the state is one of a planar st-graph."""
        return run(self.program, ["test"], state.text())[0] == 0

    def split(self):
        """A split: its text, its fault or nothing, the state afterwards."""
        s, e, a, b = self.state.copy(), self.name(self.state.ends), self.new(self.state.lists), self.new(self.state.ends)
        text = f"edit [ split [ e {e} vertex {a} edge {b} ] ]"
        for wrong, line in ((e not in s.ends, f"unknown edge {e}"), (a in s.lists, f"vertex name {a} is used"),
                            (b in s.ends, f"edge name {b} is used")):
            if wrong:
                return text, line, None
        s.split(e, a, b)
        return text, None if self.anew(s) else "a split that doesn't hold", s

    def corners(self):
        """Two ends: often of one face, often of any vertices."""
        s, rng = self.state, self.rng
        d = (rng.choice(sorted(s.ends)), rng.randint(0, 1))
        c = rng.choice(s.face(d)) if rng.random() < 0.8 else (rng.choice(sorted(s.ends)), rng.randint(0, 1))
        back = []
        for end in (d, c):
            around = s.lists[s.ends[end[0]][end[1]]]
            back.append(around[around.index(end) - 1])
        return back

    def insert(self):
        """An insert."""
        s = self.state.copy()
        p, q = self.corners()
        u, v = s.ends[p[0]][p[1]], s.ends[q[0]][q[1]]
        if self.rng.random() < 0.05:
            u, v = self.name(s.lists), self.name(s.lists)
        a, c, b = (p[0], q[0], self.new(s.ends)) if self.rng.random() < 0.95 else (self.name(s.ends), self.name(s.ends), self.new(s.ends))
        text = f"edit [ insert [ edge {b} tail {u} tailafter {a} head {v} headafter {c} ] ]"
        for wrong, line in ((lambda: b in s.ends, f"edge name {b} is used"),
                            (lambda: u not in s.lists, f"unknown vertex {u}"), (lambda: v not in s.lists, f"unknown vertex {v}"),
                            (lambda: a not in s.ends, f"unknown edge {a}"), (lambda: c not in s.ends, f"unknown edge {c}"),
                            (lambda: u == v, "tail and head are one vertex"),
                            (lambda: u not in s.ends[a], f"edge {a} is not at vertex {u}"),
                            (lambda: v not in s.ends[c], f"edge {c} is not at vertex {v}")):
            if wrong():
                return text, line, None
        p, q = (a, s.ends[a].index(u)), (c, s.ends[c].index(v))
        corners = s.next(p), s.next(q)
        outside = s.face(s.outer)
        if corners[0] in outside or corners[1] in outside:
            return text, "corner in the outer face", None
        after = s.copy()
        after.insert(b, u, p, v, q)
        if self.anew(after):
            return text, None, after
        if s.reaches(v, u):
            return text, f"vertex {v} reaches vertex {u}", None
        return text, "corners in two faces", None

    def remove(self):
        """A removal."""
        s, e = self.state.copy(), self.name(self.state.ends)
        text = f"edit [ remove [ e {e} ] ]"
        if e not in s.ends:
            return text, f"unknown edge {e}", None
        tail, head = s.ends[e]
        if all(d == (e, 1) or d[1] == 0 for d in s.lists[head]):
            line = f"leaves a source at vertex {head}"
        elif all(d == (e, 0) or d[1] == 1 for d in s.lists[tail]):
            line = f"leaves a sink at vertex {tail}"
        else:
            line = None
        s.remove(e)
        accepted = s.outer[0] in s.ends and self.anew(s)
        if accepted != (line is None):
            line = "a removal that reading anew judges in another way"
        return text, line, s

    def ask(self):
        """A question, and the line that it has."""
        s, u, v = self.state, self.name(self.state.lists), self.name(self.state.lists)
        text = f"ask [ from {u} to {v} ]"
        status, out, line = run(self.program, ["session"], s.text() + text + "\n")
        if status:
            unknown = u if u not in s.lists else v
            return text, None if line == f"unknown vertex: {unknown}\n" else "a question that isn't refused so: " + line, out
        words = out.split()
        right = (words[2] == "yes") == s.reaches(u, v)
        return text, None if right else "a question that reaches otherwise: " + out, out

    def step(self):
        """One record; answers what is wrong, or nothing."""
        if self.rng.random() < 0.3:
            text, wrong, line = self.ask()
            if wrong:
                return wrong
            accepted, out, told = line != "", self.lines + line, ""
            if not accepted:
                unknown = run(self.program, ["session"], self.state.text() + text + "\n")[2]
                out, told = "", unknown
            after = self.state
        else:
            kinds = [self.split, self.insert, self.insert, self.remove]
            if len(self.state.ends) > 3 * len(self.state.lists) or len(self.state.lists) > 500:
                kinds.append(self.remove)
            text, fault, after = self.rng.choice(kinds)()
            accepted = fault is None
            out, told = (self.lines, "") if accepted else ("", f"record {len(self.records)}: {fault}\n")
        status, found, line = run(self.program, ["session"], self.first + "\n".join(self.records + [text]) + "\n")
        if (found, line) != (out, told) or (status == 0) != accepted:
            return f"{text}\n  wanted {out[-60:]!r} {told!r}\n  found  {found[-60:]!r} {line!r}, status {status}"
        if accepted:
            self.state, self.lines = after, out
            self.records.append(text)
        return None


def main():
    """Tries all."""
    program = sys.argv[1] if len(sys.argv) > 1 else os.path.join(os.path.dirname(HERE), "crates", "stdraw", "out", "stdraw")
    count = int(sys.argv[2]) if len(sys.argv) > 2 else 10000
    if not os.path.exists(program):
        sys.exit("sessions: the program isn't built (./stdraw builds it)")
    tried = wrong = accepted = sessions = 0
    while tried < count:
        size = SIZES[sessions % len(SIZES)]
        trial = Trial(program, size, sessions)
        sessions += 1
        for _ in range(min(MOST, count // len(SIZES) + 1)):
            if len(trial.records) == MOST or tried == count:
                break
            fault = trial.step()
            tried += 1
            if fault:
                wrong += 1
                print(f"sessions: a graph of {size} vertices, record {len(trial.records)}: {fault}")
                break
        accepted += len(trial.records)
    print(f"sessions: {tried} records on {sessions} graphs, {accepted} of them accepted, {wrong} wrong")
    sys.exit(wrong > 0)


if __name__ == "__main__":
    main()
