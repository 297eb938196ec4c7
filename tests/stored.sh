#!/bin/bash
# Runs each program of the gate as the gate runs it, and also compares what it says on standard error, which the gate doesn't compare:
#
#   tests/stored.sh [FOLDER]
#
# A program is crates/NAME/out/NAME, or FOLDER/NAME. Its words, input and files are `args`, `stdin` and `data` of its crate; it has to write
# what is in `stdout` and `stderr`, or nothing if there is no such file. It has to end with the status in `status`, or with 0 if there is no
# such file. The script's own status is 1 if a run differs, 2 if no program is built.
set -u
built=${1:+$(realpath "$1")}
cd "$(dirname "$0")/.." || exit 2
work=$(mktemp -d)
trap 'rm -rf "$work"' EXIT
ran=0 failed=0

stored() { # stored FILE : a stored file, empty where there is none
    if [ -f "$1" ]; then cat "$1"; fi
}

for crate in "$PWD"/crates/*; do
    name=$(basename "$crate")
    [ -f "$crate/src/main.rt" ] || continue
    program=${built:-$crate/out}/$name
    [ -x "$program" ] || { echo "$name isn't built: its stored run isn't tested"; continue; }
    rm -rf "$work/data"
    if [ -d "$crate/data" ]; then cp -r "$crate/data" "$work/data"; else mkdir "$work/data"; fi
    words=()
    [ ! -f "$crate/args" ] || mapfile -t words <"$crate/args"
    (cd "$work/data" && stored "$crate/stdin" | "$program" ${words[@]+"${words[@]}"} >"$work/stdout" 2>"$work/stderr")
    echo $? >"$work/status"
    ran=$((ran + 1))
    for what in stdout stderr; do
        stored "$crate/$what" | cmp -s - "$work/$what" && continue
        failed=$((failed + 1))
        echo "$name: $what isn't what is stored (< is stored):"
        stored "$crate/$what" | diff - "$work/$what" | head -n 10
    done
    wanted=$(stored "$crate/status")
    [ "$(cat "$work/status")" = "${wanted:-0}" ] || { failed=$((failed + 1)); echo "$name: status $(cat "$work/status"), and ${wanted:-0} is stored"; }
done
[ $ran -gt 0 ] || { echo "$0: no program is built" >&2; exit 2; }
echo "$ran stored runs, $failed differences"
[ $failed -eq 0 ]
