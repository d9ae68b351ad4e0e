#!/bin/sh
# report.sh NAME FILE COMMAND..: measures the command and `cat` on the file, and prints times, memory and their ratios.
here=$(CDPATH='' cd "$(dirname "$0")" && pwd) || exit 1
name=$1
file=$2
shift 2
ours=$(sh "$here/measure.sh" "$file" "$@") || exit 1
cat=$(sh "$here/measure.sh" "$file" cat) || exit 1
bytes=$(wc -c <"$file")
echo "$ours $cat $bytes" | awk -v name="$name" '{
    floor = $3 > 0.0005 ? $3 : 0.0005
    printf "%s: %d bytes, %.3f s of processor time, %.1f MB at most\n", name, $5, $1, $2 / 1024
    printf "%s: cat of the same bytes %.4f s; ratio of times %.0f; memory %.1f times the file\n", name, $3, $1 / floor, $2 * 1024 / $5
}'
