#!/bin/bash
# Refuses each allocation of symfilt in turn, over a command line and over a text that is filtered. Whichever allocation is refused, the
# status has to be 3, the last line on standard error has to be `symfilt: out of memory`, and standard output has to be a beginning of the
# output with ample memory.
#
# With CHECK_ROWS, the built program of crates/check_rows, each allocation of the library's calls is refused too, over some rows: the call
# has to answer Memory and leave its lists as they were, a call that steps has to answer Memory again, and each later row has to hold.
#
#   tests/refuse_allocations.sh SYMFILT [CHECK_ROWS]
set -u

if [ $# -ne 1 ] && [ $# -ne 2 ]; then
    echo "usage: $0 SYMFILT [CHECK_ROWS]" >&2
    exit 2
fi
symfilt=$1
check_rows=${2-}
here=$(dirname "$0")
work=$(mktemp -d)
trap 'rm -rf "$work"' EXIT

. "$here/usual_run.sh"
"${CC:-cc}" -O1 -fPIC -shared -o "$work/refuse_malloc.so" "$here/refuse_malloc.c" -ldl || exit 1
printf 'x _RNvC3foo3bar _Z1fv. (_RNvC3fo) _RNvNtC3foo3bar3baz end\n' >"$work/text"

failed=0

# refuse_each NAME STATUS WORD..: runs the program on the words until no allocation is left to refuse; STATUS is the status with ample memory
refuse_each() {
    local name=$1 usual=$2 number=1 status
    usual_run "$@"
    shift 2
    while :; do
        rm -f "$work/mark"
        REFUSE=$number REFUSE_MARK="$work/mark" LD_PRELOAD="$work/refuse_malloc.so" \
            "$symfilt" "$@" <"$work/text" >"$work/out" 2>"$work/err"
        status=$?
        if [ ! -e "$work/mark" ]; then
            break
        fi
        number=$((number + 1))
        # a list that can't grow in place may grow elsewhere
        if [ "$status" -eq "$usual" ] && cmp -s "$work/out" "$work/whole" && cmp -s "$work/err" "$work/complaints"; then
            continue
        fi
        if [ "$status" -ne 3 ] || [ "$(tail -n 1 "$work/err")" != 'symfilt: out of memory' ] ||
            ! cmp -s "$work/out" <(head -c "$(stat -c %s "$work/out")" "$work/whole"); then
            echo "$name: allocation $((number - 1)) refused: status $status" >&2
            cat "$work/err" >&2
            failed=1
        fi
    done
    echo "$name: $((number - 1)) allocations refused in turn"
    if [ "$number" -eq 1 ]; then
        echo "$name: no allocation was seen; a program that is linked statically can't be tried so" >&2
        failed=1
    fi
}

# refuse_each_in_calls: gives rows to the library's calls until no allocation is left to refuse
refuse_each_in_calls() {
    local number=1 status answered=0
    grep -aE $'^(text\tfull\t[0-9]+|refused|press)\t_(RNvC3foo3bar|RINvC3foo3barFG_RL0_hEuE|RNvB_3foo|RNvC3fo|ZN3foo3barEN3foo3bazE|Z1fNSt1AE)\t' \
        "$here/../crates/check_rows/stdin" >"$work/rows"
    if ! "$check_rows" <"$work/rows" >"$work/whole" || [ "$(cat "$work/whole")" != 'each row holds' ]; then
        echo "calls: $check_rows doesn't answer that each row holds" >&2
        exit 2
    fi
    while :; do
        rm -f "$work/mark"
        REFUSE=$number REFUSE_MARK="$work/mark" LD_PRELOAD="$work/refuse_malloc.so" \
            "$check_rows" <"$work/rows" >"$work/out" 2>"$work/err"
        status=$?
        if [ ! -e "$work/mark" ]; then
            break
        fi
        number=$((number + 1))
        # a list that can't grow in place may grow elsewhere; the lists of the rows themselves end the program
        if [ "$status" -eq 0 ] && cmp -s "$work/out" "$work/whole"; then
            continue
        fi
        if [ "$status" -eq 3 ] && [ ! -s "$work/out" ]; then
            continue
        fi
        if [ "$status" -ne 3 ] || [ "$(sed -E '/^row [0-9]+: out of memory$/d' "$work/out")" != 'each row holds' ]; then
            echo "calls: allocation $((number - 1)) refused: status $status" >&2
            cat "$work/out" "$work/err" >&2
            failed=1
        fi
        answered=$((answered + 1))
    done
    echo "calls: $((number - 1)) allocations refused in turn, $answered of them answered with Memory"
    if [ "$answered" -lt 10 ]; then
        echo "calls: too few were answered" >&2
        failed=1
    fi
}

refuse_each 'command line' 1 _RNvC3foo3bar _RNvC3fo _Z1fv foo
refuse_each 'counts' 0 --stats _RNvC3foo3bar
refuse_each 'pressed' 0 --press --stats _RINvC3foo3barNtC3foo1AE _Z1fN1A1BEN1A1BIiEE
refuse_each 'filter' 0
if [ -n "$check_rows" ]; then
    refuse_each_in_calls
fi
exit "$failed"
