#!/usr/bin/env python3
"""Names the words that have public definitions in the specs of several crates: python3 scripts/check_names.py TOP

A definition stands at the beginning of a line of a file below specs/: a record, a data type, an abbreviation, or a value with
its type. Ends with 1 where a word has two, or where there is none to look at.
"""
import os
import re
import sys
from glob import glob

DEFINED = re.compile(
    r"(?:pub (?:record|data) |(?:abbrev|unfoldable) pub |pub (?!use |mod |module |record |data ))(?P<name>[^\s(){}:]+)"
)


def homes(top):
    """The places of each word's definitions, by crate."""
    found = {}
    for path in sorted(glob(os.path.join(top, "crates/*/specs/**/*.antt"), recursive=True)):
        place = os.path.relpath(path, os.path.join(top, "crates"))
        with open(path, encoding="utf-8") as lines:
            for number, line in enumerate(lines, 1):
                match = DEFINED.match(line)
                if match:
                    crates = found.setdefault(match["name"], {})
                    crates.setdefault(place.split(os.sep)[0], "%s:%d" % (place, number))
    return found


def main():
    found = homes(sys.argv[1] if len(sys.argv) > 1 else ".")
    if not found:
        print("check_names: no definition is there")
        return 1
    failed = 0
    for name, crates in sorted(found.items()):
        if len(crates) > 1:
            print("check_names: %s is defined in %s" % (name, " and in ".join(crates.values())))
            failed = 1
    return failed


if __name__ == "__main__":
    sys.exit(main())
