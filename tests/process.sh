#!/bin/bash
# Tests what only a process of demangle shows: tests/process.sh DEMANGLE.
#
# It tests the program's statuses where a stream fails, with the reason; an output whose reader has gone; arguments of any bytes; files of
# arguments, also devices; what is said where a file is given in the place of a name; and colours on a terminal. The status is 1 where one
# of these comes out wrong.
set -u
[ $# -eq 1 ] || { echo "usage: $0 DEMANGLE" >&2; exit 2; }
demangle=$(realpath "$(command -v "$1")") || { echo "$0: there is no $1" >&2; exit 2; }
work=$(mktemp -d)
trap 'rm -rf "$work"' EXIT
cd "$work" || exit 2
failed=0

# ends NAME STATUS OUT ERR WORD..: how the program ends on these words, over standard input; OUT and ERR as printf spells them
ends() {
    local name=$1 status=$2
    printf "$3" >wanted.out && printf "$4" >wanted.err
    shift 4
    # the program gets only the memory and the time that the longest file of arguments needs
    (ulimit -v 4000000; exec timeout 60 "$demangle" "$@") >out 2>err
    local got=$?
    [ $got -eq "$status" ] && cmp -s out wanted.out && cmp -s err wanted.err && return
    echo "FAILED $name: status $got, $(head -c 200 out) | $(head -c 200 err)"
    failed=1
}

# gone NAME WORD..: whether nothing is said where the output's reader has gone, and the status is that of a program that SIGPIPE has ended
gone() {
    local name=$1 got && shift
    : <pipe &
    exec 9>pipe
    wait $!
    "$demangle" "$@" <names >&9 2>said
    got="$? $(cat said)"
    exec 9>&-
    [ "$got" = '141 ' ] || { echo "FAILED $name: $got"; failed=1; }
}

# The output's reader has gone.
mkfifo pipe
printf '_Z1fv\n%.0s' {1..20000} >names
gone 'no reader of a text'
gone 'no reader of a name' _Z1fv
gone 'no reader of help' --help
got=$({ "$demangle" <names 2>said; echo $? >status; } | head -1; cat status said)
[ "$got" = $'f()\n141' ] || { echo "FAILED head: $got"; failed=1; }

# The reason of a fault is said.
for words in '' _Z1fv --help; do
    "$demangle" $words <names >/dev/full 2>err
    [ "$? $(cat err)" = '3 demangle: write failed: No space left on device' ] || { echo "FAILED /dev/full '$words': $(cat err)"; failed=1; }
done
ends 'a folder as the input' 3 '' 'demangle: read failed: Is a directory\n' <.
ends 'no input' 3 '' 'demangle: read failed: Bad file descriptor\n' <&-

# Arguments may have any bytes, in files of arguments, too.
ends 'bytes' 0 'f()\nf\377()\ng()\n' '' _Z1fv $'_Z2f\xffv' _Z1gv
printf "_Z1fv '_Z2f\\377v' -p\n_Z1gi" >arguments
ends 'bytes of a file' 0 'f\nf\377\ng\nh\n' '' @arguments _Z1hi
ends 'a file named by bytes' 0 '@\377\n' '' $'@\xff'
long=$(printf '%0130000d' 0)
ends 'a long argument' 0 "$long\nf()\n" '' "$long" _Z1fv

# The length of files of arguments is bounded.
ends 'a device without an end' 2 '' 'demangle: @/dev/zero: more than 4194304 bytes\n' _Z1fv @/dev/zero
{ printf '_Z1fv '; head -c 4194298 /dev/zero | tr '\0' ' '; } >longest
ends 'the longest file' 0 'f()\n' '' @longest
printf ' ' >>longest
ends 'a longer file' 2 '' 'demangle: @longest: more than 4194304 bytes\n' @longest
ends 'no file' 0 '@none\n@.\n' '' @none @.

# A file is given in the place of a name.
printf '_Z1fv\n' >crash.log
ends 'a file' 0 'crash.log\n' 'demangle: crash.log is not a name; for a file: demangle < crash.log\n' crash.log
ends 'a file, strictly' 1 'x\n./names\n' 'demangle: ./names is not a name; for a file: demangle < ./names\n' --strict x ./names
ends 'a file beside a name' 0 'crash.log\nf()\n' '' crash.log _Z1fv
ends 'no file' 0 '.\nnames\nnone.log\n' '' . names none.log

# Texts are coloured where standard output is a terminal, if that is requested.
on_terminal() { python3 -c 'import pty, sys; pty.spawn(sys.argv[1:])' "$demangle" "$@" </dev/null | tr -d '\r'; }
colors() { # colors NAME WANTED WORD..: what the program writes to a terminal
    local name=$1 wanted got && wanted=$(printf "$2")
    shift 2
    got=$(on_terminal "$@")
    [ "$got" = "$wanted" ] || { echo "FAILED $name: $(printf %q "$got")"; failed=1; }
}
if command -v python3 >/dev/null; then
    colors 'on a terminal' '\033[1mf\033[0m\033[2m()\033[0m' --color=auto _Z1fv
    colors 'on a terminal, without a word' '\033[1mf\033[0m\033[2m()\033[0m' _Z1fv --color
    colors 'never' 'f()' --color=never _Z1fv
    colors 'without the option' 'f()' _Z1fv
fi
ends 'no terminal' 0 'f()\n' '' --color=auto _Z1fv
[ $failed -ne 0 ] || echo 'process.sh: ok'
exit $failed
