#!/bin/bash
# Counts the instructions that symfilt takes for files, and prints the functions that take most of them.
#
#   bench/profile.sh SYMFILT FILE..
#
# It needs valgrind (Debian's package of that name).
set -eu

if [ $# -lt 2 ]; then
    echo "usage: $0 SYMFILT FILE.." >&2
    exit 2
fi
symfilt=$1
shift

work=$(mktemp -d)
trap 'rm -rf "$work"' EXIT

for file in "$@"; do
    valgrind --tool=callgrind --callgrind-out-file="$work/profile" "$symfilt" <"$file" >/dev/null 2>"$work/log" ||
        { cat "$work/log" >&2; exit 1; }
    lines=$(wc -l <"$file")
    total=$(sed -n 's/^==[0-9]*== Collected : //p' "$work/log")
    printf '%s: %s instructions, %s a line\n' "$file" "$total" "$((total / (lines > 0 ? lines : 1)))"
    callgrind_annotate --threshold=99 "$work/profile" 2>/dev/null |
        awk '/%\)/ && !/PROGRAM TOTALS/ && shown < 15 { print "  " $0; shown++ }'
done
