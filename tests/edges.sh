#!/bin/bash
# Tests the edges of the two programs' processes, about which no contract says anything: statuses 2 and 3 with their words on standard error,
# and the words of argument files: tests/edges.sh SYMFILT [DEMANGLE]. The status is 1 where one of these is wrong.
set -u
[ $# -eq 1 ] || [ $# -eq 2 ] || { echo "usage: $0 SYMFILT [DEMANGLE]" >&2; exit 2; }
work=$(mktemp -d)
trap 'rm -rf "$work"' EXIT
ln -s "$(realpath "$1")" "$work/symfilt"
[ $# -eq 1 ] || ln -s "$(realpath "$2")" "$work/demangle"
PATH=$work:$PATH
cd "$work" || exit 2
mkdir folder
tried=0 failed=0

edge() { # edge STATUS OUT ERR COMMAND : what a command line ends with and prints; ERR is how standard error begins, or nothing
    local out status err
    out=$(bash -c "$4" 2>err </dev/null)
    status=$?
    err=$(cat err)
    tried=$((tried + 1))
    [ "$status" -eq "$1" ] && [ "$out" = "$2" ] && [[ $err == "$3"* ]] &&
        { [ -n "$3" ] || [ -z "$err" ]; } && return
    failed=$((failed + 1))
    printf '%s\n    status %s, wanted %s\n    standard output %q, wanted %q\n    standard error %q, wanted %q\n' \
        "$4" "$status" "$1" "$out" "$2" "$err" "$3"
}

for program in symfilt demangle; do
    [ -x $program ] || continue
    complaint='error: '
    [ $program = symfilt ] || complaint='demangle: '
    edge 2 '' "$complaint" "$program --no-such-option"
    edge 2 '' "$complaint" "$program --limit x _Z1fv"
    edge 2 '' "$complaint" "$program --limit 4294967296"
    edge 3 '' "$program: read failed" "$program <folder"
    edge 3 '' "$program: read failed" "$program <&-"
    edge 3 '' "$program: write failed" "echo _Z1fv | $program >/dev/full"
    edge 3 '' "$program: write failed" "$program _Z1fv >/dev/full"
    edge 3 '' "$program: write failed" "$program _Z1fv >&-"
    edge 3 '' '' "$program --no-such-option 2>/dev/full"
done
edge 1 $'f()\n_Z1fY' 'symfilt: _Z1fY: malformed at 4' 'symfilt _Z1fv _Z1fY'
edge 3 $'f()\n_Z1fY' '' 'symfilt _Z1fv _Z1fY 2>/dev/full'
if [ -x demangle ]; then
    edge 0 $'f()\n_Z1fY' '' 'demangle _Z1fv _Z1fY'
    edge 1 $'f()\n_Z1fY' '' 'demangle --strict _Z1fv _Z1fY'
    edge 3 $'f()\n_Z1fY' '' 'demangle --why _Z1fv _Z1fY 2>/dev/full'
    # an input whose lines are counted from 1 on, also across reads and after an escape
    edge 0 $'f()\n\n_Z1fY _ZN1aE' $'demangle: line 3: _Z1fY: malformed at 4\ndemangle: line 3: _ZN1aE: malformed at 5\ndemangle: 2 of 3 symbols stay' "printf '%s\n' _Z1fv '' '_Z1fY _ZN1aE' | demangle --why"
    edge 0 '' $'demangle: line 20001: _Z1fY: malformed at 4\ndemangle: line 20002: _Z1fY: malformed at 4\ndemangle: 2 of 2 symbols stay' "{ yes '' | head -n 20000; printf '%s\n' _Z1fY '\n_Z1fY'; } | demangle --why >/dev/null"
    edge 3 '' '' 'echo _Z1fY | demangle --why 2>/dev/full'
    # the last word of an argument file: at the end, before a newline, before blanks, in quotes, after a backslash, empty
    for last in '_Z1gv' $'_Z1gv\n' $'_Z1gv \t\n\n' "'_Z1gv'" '"_Z1gv"' '\_Z1gv' "_Z1g''v"; do
        printf '%s' "_Z1fv $last" >words
        edge 0 $'f()\ng()' '' 'demangle @words'
        edge 0 $'f()\ng()\nh()' '' 'demangle @words _Z1hv'
    done
    printf '%s' "_Z1fv --no-params" >words
    edge 0 f '' 'demangle @words'
    printf '%s' "_Z1fv @words" >words
    edge 0 $'f()\n@words' '' 'demangle @words'
    edge 0 $'@nowhere\nf()' '' 'demangle @nowhere _Z1fv'
fi
echo "$tried edges, $failed otherwise"
[ $failed -eq 0 ]
