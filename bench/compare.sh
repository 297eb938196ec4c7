#!/bin/bash
# Runs symfilt beside the other filters that are installed, and prints a table with ratios to symfilt's figures.
#
#   bench/compare.sh [-w] [-n TIMES] [-c CORE] SYMFILT FILE..   processor time (user and system), the least of several runs in turn
#   bench/compare.sh -i [-w] [-s LINES] SYMFILT FILE..          instructions a line, counted by valgrind
#
# SYMFILT is the built program, each FILE a text with symbols. bench/inputs.sh makes such files from installed libraries:
#
#   bench/inputs.sh inputs && bench/compare.sh -i crates/symfilt/out/symfilt inputs/*.txt
#
# With -w the other ways of showing symbols are run, too: the wide grammar, names without parameters, brief texts, and -p of the other
# filters. Numbers of instructions don't depend on what else the machine does. The table has the instructions for LINES lines (5,000), taken
# from the file at even intervals, less the instructions of a run over no input. Debian's binutils has c++filt, llvm has llvm-cxxfilt, and
# rustfilt and valgrind are packages too.
set -euo pipefail

usage() {
    echo "usage: $0 [-w] [-n TIMES] [-c CORE] SYMFILT FILE.. | $0 -i [-w] [-s LINES] SYMFILT FILE.." >&2
    exit 2
}
times=5
core=0
counts=no
ways=no
sample=5000
while getopts n:c:is:w option; do
    case $option in
        n) times=$OPTARG ;;
        c) core=$OPTARG ;;
        i) counts=yes ;;
        s) sample=$OPTARG ;;
        w) ways=yes ;;
        *) usage ;;
    esac
done
shift $((OPTIND - 1))
[ $# -ge 2 ] || usage
symfilt=$1
shift
echo 'at _Z1fv' | "$symfilt" | grep -qx 'at f()' || { echo "$0: $symfilt is no filter of symbols" >&2; exit 1; }

# each entry is a line of the table: a program, and the options with which it is run
filters=(symfilt)
[ $ways = no ] || filters+=('symfilt --wide' 'symfilt --no-params' 'symfilt --brief')
for name in c++filt llvm-cxxfilt rustfilt; do
    command -v "$name" >/dev/null || continue
    filters+=("$name")
    if [ $ways = yes ] && [ "$name" != rustfilt ] && "$name" -p </dev/null >/dev/null 2>&1; then filters+=("$name -p"); fi
done

# words_of FILTER: puts the command of the filter into `words`
words_of() {
    read -ra words <<<"$1"
    [ "${words[0]}" != symfilt ] || words[0]=$symfilt
}
work=$(mktemp -d)
trap 'rm -rf "$work"' EXIT

# run_once FILTER FILE: prints the seconds of processor time, and the memory that the filter needed
run_once() {
    local TIMEFORMAT='%3U %3S' words
    words_of "$1"
    { time /usr/bin/time -f %M -o "$work/memory" taskset -c "$core" "${words[@]}" <"$2" >/dev/null 2>&1; } 2>"$work/time"
    awk -v memory="$(cat "$work/memory")" '{ print $1 + $2, memory }' "$work/time"
}

# instructions_of FILTER FILE
instructions_of() {
    local words
    words_of "$1"
    valgrind --tool=callgrind --callgrind-out-file=/dev/null "${words[@]}" <"$2" 2>&1 >/dev/null | sed -n 's/^==[0-9]*== Collected : //p'
}

table() { # table FILTER OWN VALUE FORMAT MORE: a line, with the ratio to symfilt's value
    awk -v name="$1" -v own="$2" -v value="$3" -v form="$4" -v more="$5" 'BEGIN {
        printf "  %-26s " form " %8s%s\n", name, value, (own > 0 ? sprintf("%.2f", value / own) : "-"), (more ? "  " more : "")
    }'
}

if [ $counts = yes ]; then
    command -v valgrind >/dev/null || { echo "$0: -i needs valgrind" >&2; exit 1; }
    declare -A start=()
    for filter in "${filters[@]}"; do start[$filter]=$(instructions_of "$filter" /dev/null); done
    for file in "$@"; do
        awk -v all="$(wc -l <"$file")" -v wanted="$sample" 'BEGIN { each = all > wanted ? all / wanted : 1; next_one = 1 } NR >= next_one { print; next_one += each }' \
            "$file" >"$work/sample"
        lines=$(wc -l <"$work/sample")
        printf '%s: instructions a line, over %s lines of %s bytes\n' "$file" "$lines" "$(($(wc -c <"$work/sample") / lines))"
        own=
        for filter in "${filters[@]}"; do
            count=$((($(instructions_of "$filter" "$work/sample") - ${start[$filter]}) / lines))
            own=${own:-$count}
            table "$filter" "$own" "$count" '%10d' ''
        done
    done
    exit
fi

for file in "$@"; do
    bytes=$(stat -c %s "$file")
    printf '%s, %s bytes: seconds of the processor, best of %s\n' "$file" "$bytes" "$times"
    declare -A best=() memory=()
    for ((round = 0; round < times; round++)); do
        for filter in "${filters[@]}"; do
            read -r seconds resident < <(run_once "$filter" "$file")
            best[$filter]=$(awk -v a="${best[$filter]:-999999}" -v b="$seconds" 'BEGIN { print (b < a) ? b : a }')
            memory[$filter]=$resident
        done
    done
    for filter in "${filters[@]}"; do
        table "$filter" "${best[symfilt]}" "${best[$filter]}" '%10.3f' \
            "$(awk -v s="${best[$filter]}" -v b="$bytes" 'BEGIN { if (s > 0) printf "%.1f MB/s, ", b / s / 1e6 }')${memory[$filter]} KB resident"
    done
done
