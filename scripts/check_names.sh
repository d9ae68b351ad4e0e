#!/bin/sh
# Looks whether a name has public definitions in the specs of several crates: one word for one thing. Prints the places of
# each that has, and ends with 0 where none has.
top=$(CDPATH='' cd "$(dirname "$0")/.." && pwd) || exit 1
command -v python3 >/dev/null 2>&1 || { echo "check_names: skipped, python3 isn't there"; exit 0; }
exec python3 -B "$top/scripts/check_names.py" "$top"
