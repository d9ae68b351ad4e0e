#!/usr/bin/env python3
"""refusals.py [PROGRAM]: refuses the built program each allocation in turn, and gives it broken streams.

For each row (words and a file) the allocation with number 1 is refused, then that with number 2, and so on, until a run
passes without a refusal. Each run has to end with status 7 and an empty output, or as the row ends undisturbed. Then the
program runs on a closed and a full output, on a folder as its input, on an input that ends in the middle, and within a limit
of memory that grows in steps. It prints how many runs ended how, and ends with 1 where one ended otherwise.

An allocator in C (refuse.c) is preloaded, so it's the built program that runs, at its full speed. Needs gcc.
"""
import collections
import os
import resource
import subprocess
import sys
import tempfile

HERE = os.path.dirname(os.path.abspath(__file__))
TOP = os.path.dirname(HERE)
EXAMPLES = os.path.join(TOP, "examples")
ROWS = [
    ("test", "bridge"), ("query 2 3 1 4", "diamond"), ("draw visibility", "plan"), ("draw visibility", "durations"), ("test", "err_minlen"), ("draw tessellation", "divisors"),
    ("draw constrained", "critical_path"), ("draw polyline left", "parallel"), ("draw polyline middle", "divisors"),
    ("draw polyline right", "flow_chart"), ("draw dominance", "divisors"), ("test", "err_cycle"), ("test", "err_two_sources"),
    ("test", "err_order"), ("test", "err_faces"), ("test", "err_outer"), ("draw constrained", "err_path_crossing"),
    ("draw constrained", "err_path_unknown"), ("query 1 9", "err_unknown_vertex"), ("query 1 1", "err_unclosed"),
    ("test", "from/yed"), ("join 4 6", "divisors"), ("meet 12 18", "divisors"), ("orient 2 3", "diamond"), ("orient 1 2", "chain"), ("session", "plan_changed"), ("session", "err_edit_source"), ("session", "err_record"), ("check", "divisors.dominance.eps"),
    ("check", "circuit.tessellation.eps"), ("check", "err_crossing_lines.eps"), ("check", "err_no_drawing.eps"), ("gen 50 1", None), ("bench 50 1 dominance", None), ("draw circle", None),
]


def run(program, words, file, env=None, **more):
    """The status, output and line of a run; a negative status is a signal."""
    with open(file or os.devnull, "rb") as source:
        done = subprocess.run([program, *words.split()], stdin=source, capture_output=True, env=env, timeout=60, **more)
    return done.returncode, done.stdout, done.stderr


def allocations(program, library, work):
    """Refuses each allocation of each row in turn, and answers the ways in which runs ended, and what went wrong."""
    ways, wrong = collections.Counter(), []
    for words, name in ROWS:
        file = os.path.join(EXAMPLES, name if name.endswith(".eps") else name + ".gml") if name else None
        count = os.path.join(work, "count")
        env = dict(os.environ, LD_PRELOAD=library, REFUSE_AT="0", REFUSE_COUNT=count)
        whole = run(program, words, file, env)
        with open(count) as said:
            most = int(said.read())
        for number in range(1, most + 1):
            env["REFUSE_AT"] = str(number)
            status, output, line = run(program, words, file, env)
            if (status, output, line) == whole:
                ways["as undisturbed"] += 1
            elif (status, output) == (7, b"") and line in (b"", b"no memory\n"):
                ways["status 7, empty output"] += 1
            else:
                wrong.append(f"{words} on {name}, allocation {number}: status {status}, {len(output)} bytes, {line[:80]!r}")
        print(f"{words} on {name}: {most} allocations refused in turn")
    return ways, wrong


def streams(program):
    """Broken streams: each row has the statuses that are right."""
    wrong = []

    def row(what, done, right):
        print(f"{what}: status {done[0]}, {done[2].decode(errors='replace').strip()!r}")
        if done[0] not in right:
            wrong.append(f"{what}: status {done[0]}")

    plan = os.path.join(EXAMPLES, "plan.gml")
    for what, shell, right in [
        ("a closed output", '"$0" draw visibility <"$1" >&-', [6]),
        ("a full device", '"$0" draw visibility <"$1" >/dev/full', [6]),
        ("a folder as input", '"$0" test <"$(dirname "$1")"', [5]),
        ("a closed input", '"$0" test <&-', [5]),
        ("an input that ends in the middle", 'head -c 300 "$1" | "$0" test', [3]),
        ("an output whose reader ends at once", '{ "$0" gen 20000 1; echo $? >&2; } | true', [0]),
    ]:
        done = subprocess.run(["sh", "-c", shell, program, plan], capture_output=True, timeout=60)
        row(what, (done.returncode, done.stdout, done.stderr), right)
    return wrong


def limits(program, work):
    """Runs within a limit of memory that grows in steps, until one is done."""
    ways, wrong = collections.Counter(), []
    big = os.path.join(work, "big.gml")
    with open(big, "wb") as out:
        subprocess.run([program, "gen", "20000", "1"], stdout=out, check=True)
    for words in ("test", "draw visibility", "draw dominance", "query 1 2"):
        for megabytes in range(2, 80, 2):
            limit = megabytes << 20
            status, output, line = run(program, words, big,
                                       preexec_fn=lambda: resource.setrlimit(resource.RLIMIT_AS, (limit, limit)))
            if status == 0:
                ways["done"] += 1
                print(f"{words}: done within {megabytes} MB of addresses")
                break
            if status == 7 and not output:
                ways["status 7, empty output"] += 1
            elif status in (126, 127, -9, -11) and megabytes < 8:
                ways["not even loaded"] += 1
            else:
                wrong.append(f"{words} within {megabytes} MB: status {status}, {len(output)} bytes, {line[:80]!r}")
    return ways, wrong


def main():
    program = os.path.abspath(sys.argv[1] if len(sys.argv) > 1 else os.path.join(TOP, "crates/stdraw/out/stdraw"))
    if not os.access(program, os.X_OK):
        sys.exit("refusals: the program isn't built (./stdraw builds it)")
    with tempfile.TemporaryDirectory() as work:
        library = os.path.join(work, "refuse.so")
        subprocess.run(["gcc", "-O2", "-shared", "-fPIC", "-o", library, os.path.join(HERE, "refuse.c"), "-ldl"], check=True)
        ways, wrong = allocations(program, library, work)
        wrong += streams(program)
        more, other = limits(program, work)
    for way, count in (ways + more).items():
        print(f"{way}: {count} runs")
    for each in wrong + other:
        print(f"WRONG: {each}")
    sys.exit(1 if wrong + other else 0)


if __name__ == "__main__":
    main()
