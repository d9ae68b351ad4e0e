#!/usr/bin/env python3
"""Prints the processor minutes of the gate by crate and part.

    scripts/gate_minutes.py                 runs `rt ci` at the top of the repository
    scripts/gate_minutes.py rt ci NAME..    runs this command in its place
    scripts/gate_minutes.py --watch PID     looks at a run that goes on already, from now to its end

The log of `rt ci` tells no times, so the times of its processes are read from /proc once a second. A process counts for
the crate that its command line names, and for one of three parts: `proof`, a crate without its tests; `tests`, the same
with them, and the tests' own runs; `edits`, what tries the must-fail edits. What no crate is named for stands under `other`.
What a run takes from what was kept before costs nothing: for the whole cost run it where nothing is kept.
"""
import os
import subprocess
import sys
import time

PARTS = ("proof", "tests", "edits")
TICKS = os.sysconf("SC_CLK_TCK")


def read(path):
    try:
        with open(path, "rb") as file:
            return file.read().decode(errors="replace")
    except OSError:
        return ""


def stat_of(pid):
    """The parent, the start and the seconds of a process, or None where it is gone."""
    behind = read(f"/proc/{pid}/stat").rpartition(")")[2].split()
    if len(behind) < 20:
        return None
    return int(behind[1]), behind[19], (int(behind[11]) + int(behind[12])) / TICKS


def part_of(pid):
    """The crate and the part that a process names itself, or None."""
    words = read(f"/proc/{pid}/cmdline").split("\0")
    program = os.path.basename(words[0])
    if program.endswith("_tests"):
        return program[: -len("_tests")], "tests"
    if "--crate-name" not in words:
        return None
    crate = words[words.index("--crate-name") + 1]
    try:
        place = os.readlink(f"/proc/{pid}/cwd")
    except OSError:
        place = ""
    if "/rt-edit" in place or any("/rt-edit" in word for word in words):
        return crate, "edits"
    return crate, "tests" if "--test" in words else "proof"


def sample(root, seconds, named):
    """Notes the seconds of each process at or below the root. A process without a name has that of its parent."""
    stats = {int(it): stat_of(it) for it in os.listdir("/proc") if it.isdigit()}
    stats = {pid: it for pid, it in stats.items() if it}
    below, grown = {root}, True
    while grown:
        more = {pid for pid, it in stats.items() if it[0] in below} - below
        below, grown = below | more, bool(more)
    for pid in sorted(below & stats.keys()):
        parent, start, spent = stats[pid]
        key = pid, start
        above = stats.get(parent)
        found = part_of(pid) or named.get(key) or (named.get((parent, above[1])) if above else None)
        named[key] = found or ("other", "proof")
        seconds[key] = spent


def table(seconds, named):
    minutes = {}
    for key, spent in seconds.items():
        crate, part = named[key]
        row = minutes.setdefault(crate, dict.fromkeys(PARTS, 0.0))
        row[part] += spent / 60
    print(f"{'crate':16}" + "".join(f"{it:>8}" for it in PARTS) + f"{'all':>8}")
    total = dict.fromkeys(PARTS, 0.0)
    for crate, row in sorted(minutes.items(), key=lambda it: -sum(it[1].values())):
        print(f"{crate:16}" + "".join(f"{row[it]:8.1f}" for it in PARTS) + f"{sum(row.values()):8.1f}")
        total = {it: total[it] + row[it] for it in PARTS}
    print(f"{'minutes':16}" + "".join(f"{total[it]:8.1f}" for it in PARTS) + f"{sum(total.values()):8.1f}")


def main():
    words = sys.argv[1:] or ["rt", "ci"]
    run = None
    if words[0] == "--watch":
        root = int(words[1])
    else:
        run = subprocess.Popen(words)
        root = run.pid
    seconds, named = {}, {}
    try:
        while (run.poll() is None) if run else os.path.exists(f"/proc/{root}"):
            sample(root, seconds, named)
            time.sleep(1)
    except KeyboardInterrupt:
        pass
    table(seconds, named)
    return run.wait() if run else 0


if __name__ == "__main__":
    sys.exit(main())
