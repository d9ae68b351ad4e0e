#!/bin/sh
# measure.sh FILE COMMAND..: runs the command on the file, three times, and prints one line: the least processor time in
# seconds, and the greatest memory in kilobytes. The output of the command goes to nowhere.
file=$1
shift
if command -v python3 >/dev/null 2>&1; then
    exec python3 - "$file" "$@" <<'END'
import os, sys
best, peak = None, 0
for _ in range(3):
    child = os.fork()
    if child == 0:
        os.dup2(os.open(sys.argv[1], os.O_RDONLY), 0)
        os.dup2(os.open(os.devnull, os.O_WRONLY), 1)
        os.execvp(sys.argv[2], sys.argv[2:])
    _, status, used = os.wait4(child, 0)
    if status != 0:
        sys.exit("measure: %s ended with %d" % (sys.argv[2], os.WEXITSTATUS(status)))
    spent = used.ru_utime + used.ru_stime
    best = spent if best is None else min(best, spent)
    peak = max(peak, used.ru_maxrss)
print("%.6f %d" % (best, peak))
END
fi
if [ -x /usr/bin/time ]; then
    for _ in 1 2 3; do
        /usr/bin/time -f '%U %S %M' "$@" <"$file" 2>&1 >/dev/null
    done | awk '{ t = $1 + $2; if (NR == 1 || t < best) best = t; if ($3 > peak) peak = $3 } END { printf "%.6f %d\n", best, peak }'
    exit 0
fi
echo "measure: neither python3 nor /usr/bin/time is there" >&2
exit 1
