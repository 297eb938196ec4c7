#!/bin/bash
# Makes each read and each write of symfilt fail in turn, over command lines longer than a page and over texts that are filtered. The call
# fails outright, takes no byte, or moves only one byte. A run with a call that fails has to end with status 3; its last line on standard
# error has to be `symfilt: read failed` or `symfilt: write failed`, and its standard output a beginning of the usual output. A call that
# moves one byte must change nothing.
#
#   tests/fail_calls.sh SYMFILT
set -u

if [ $# -ne 1 ]; then
    echo "usage: $0 SYMFILT" >&2
    exit 2
fi
symfilt=$1
here=$(dirname "$0")
work=$(mktemp -d)
trap 'rm -rf "$work"' EXIT
failed=0

. "$here/usual_run.sh"
"${CC:-cc}" -O1 -fPIC -shared -o "$work/fail_calls.so" "$here/fail_calls.c" -ldl || exit 2
long=_RC3000$(printf '%03000d' 0 | tr 0 i)
for _ in 1 2 3; do
    printf 'x _RNvC3foo3bar _Z1fv. (_RNvC3fo) %s _RNvNtC3foo3bar3baz end\n' "$long"
    head -c 70000 /dev/zero | tr '\0' ' '
done >"$work/text"

# begins FILE WHOLE: whether a file is a beginning of another
begins() {
    cmp -s "$1" <(head -c "$(stat -c %s "$1")" "$2")
}

# ends_well NAME WHICH HOW STATUS USUAL: whether a run with a call that fails ended as it has to
ends_well() {
    local which=$2 how=$3 status=$4 usual=$5
    if [ "$how" = short ]; then
        [ "$status" -eq "$usual" ] && cmp -s "$work/out" "$work/whole" && cmp -s "$work/err" "$work/complaints"
        return
    fi
    [ "$status" -eq 3 ] && begins "$work/out" "$work/whole" || return 1
    # the words of the fault follow the complaints so far, which a failed write may have cut off
    [ "$(tail -n 1 "$work/err" | tail -c $((${#which} + 17)))" = "symfilt: $which failed" ]
}

# fail_each NAME STATUS WORD..: runs the program on the words until no call is left to fail; STATUS is the status of a run in which no call fails
fail_each() {
    local name=$1 usual=$2 which how number status tried=0
    usual_run "$@"
    shift 2
    for which in read write; do
        for how in error none short; do
            [ "$which$how" = readnone ] && continue
            number=0
            while :; do
                number=$((number + 1))
                rm -f "$work/mark"
                FAIL=$number FAIL_WHICH=$which FAIL_HOW=$how FAIL_MARK="$work/mark" LD_PRELOAD="$work/fail_calls.so" \
                    "$symfilt" "$@" <"$work/text" >"$work/out" 2>"$work/err"
                status=$?
                [ -e "$work/mark" ] || break
                tried=$((tried + 1))
                if ! ends_well "$name" "$which" "$how" "$status" "$usual"; then
                    echo "$name: $which $number ($how): status $status" >&2
                    tail -n 2 "$work/err" >&2
                    failed=1
                fi
            done
        done
    done
    echo "$name: $tried calls failed or were cut short in turn"
    if [ "$tried" -eq 0 ]; then
        echo "$name: no call was seen; a program that is linked statically can't be tried so" >&2
        failed=1
    fi
}

fail_each 'command line' 1 "$long" _RNvC3foo3bar "$long" _RNvC3fo "$long" foo "$long" "$long"
fail_each 'filter' 0
exit "$failed"
