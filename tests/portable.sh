#!/bin/bash
# Tests that the C files of dist/ give the answers of the programs they were made from, on each machine that can be tried here:
#
#   tests/portable.sh [-d DIST] [-m MACHINE].. [-q] [-s] [FILE..]
#
#   -d DIST      the folder of the C files, if not dist/
#   -m MACHINE   gcc, clang, aarch64, riscv64, windows, wasi: only those
#   -q           checks only every tenth row on machines other than gcc's and clang's own, for CI
#   -s           also with AddressSanitizer and UndefinedBehaviorSanitizer; these builds take minutes
#   FILE         symbols, one a line; without one 2,000 of each language of the installed libraries (bench/inputs.sh)
#
# On each machine the files have to compile without a warning, and every row has to hold (`make check`). With each sum of flags, symbols
# have to have the answers of the proved archive, and their filtered text has to be that of the proved programs, where these are built. The
# script names what is missing, and says if DIST was made from an older tree. The status is 1 where an answer differs, or a file isn't what
# MANIFEST says.
set -u
usage() {
    echo "usage: $0 [-d DIST] [-m MACHINE].. [-q] [-s] [FILE..]" >&2
    exit 2
}
dist= wanted=' ' sanitizers=no is_quick=no
while getopts d:m:qs option; do
    case $option in
        d) dist=$(realpath "$OPTARG") ;;
        m) wanted+="$OPTARG " ;;
        q) is_quick=yes ;;
        s) sanitizers=yes ;;
        *) usage ;;
    esac
done
shift $((OPTIND - 1))
work=$(mktemp -d)
trap '[ ! -d "$work/wine" ] || wineserver -k 2>/dev/null; rm -rf "$work"' EXIT
for file; do cat "$file" || exit 2; done >"$work/given"
cd "$(dirname "$0")/.." || exit 2
dist=${dist:-$PWD/dist}
[ -f "$dist/symdemangle.c" ] || { echo "$0: no $dist/symdemangle.c: tools/portable/make.sh makes it" >&2; exit 2; }

status=0
fails() {
    echo "FAILED: $*"
    status=1
}
missing() {
    echo "left out: $*"
}
[ "$(sed -n 's/^sources: //p' "$dist/MANIFEST")" = "$(tools/portable/sources.sh)" ] ||
    echo "notice: $dist is of an older tree; tools/portable/make.sh makes it anew"
(cd "$dist" && grep -E '^[0-9a-f]{64}  ' MANIFEST | sha256sum --quiet -c -) || fails "a file of $dist isn't what MANIFEST says"

if [ $# -eq 0 ]; then
    bench/inputs.sh "$work/inputs" >/dev/null 2>&1 || missing "symbols of installed libraries: bench/inputs.sh finds none"
    for language in cpp rust; do
        some=$work/inputs/$language.txt
        [ ! -s "$some" ] || awk -v all="$(wc -l <"$some")" 'NR * 2000 % all < 2000' "$some" >>"$work/given"
    done
fi
cut -f 2- crates/check_rows/stdin | tr '\t' '\n' | grep -aE '^_(Z|R)[A-Za-z0-9_.$]+$' | awk 'length < 20000' | sort -u >"$work/rows"
cat "$work/rows" "$work/given" >"$work/names"
head -n 300 "$work/names" >"$work/few"
awk 'NR % 10 == 0' "$work/names" >>"$work/few"

# What the proved archive and programs answer; without them, what the first machine answers.
wanted_answers= wanted_texts= by='the first of these'
archive=crates/symdemangle/out/libsymdemangle.a
if [ -f $archive ] && command -v rt >/dev/null && tools/pack.sh "$work/packed" >/dev/null; then
    gcc -O1 -I "$dist" tests/portable/names.c "$work/packed/libsymdemangle.a" -o "$work/proved" && wanted_answers=$work/proved
    by='the proved library'
else
    missing "the proved library: \`rt lib\` in crates/symdemangle builds it"
fi
for program in demangle symfilt; do
    [ -x crates/$program/out/$program ] || missing "the proved $program: \`rt run\` in crates/$program builds it"
done

answers() { # answers MACHINE NAMES : writes the answers of its library to a file
    (cd "$work/$1" && $run ./names$exe 16 <"$work/$2" >"$work/$1.$2")
}
filters() { # filters MACHINE NAMES : compares the programs' filtered texts with those of the proved programs, or of the first machine
    local program options text
    while read -r program options; do
        text="$work/$program${options// /}.$2"
        [ -f "$text" ] || [ ! -x crates/$program/out/$program ] || crates/$program/out/$program $options <"$work/$2" >"$text"
        (cd "$work/$1" && $run ./$program$exe $options <"$work/$2") >"$work/text" || fails "$1: $program $options ended with status $?"
        [ -f "$text" ] || cp "$work/text" "$text"
        cmp -s "$work/text" "$text" || fails "$1: $program $options filters otherwise: $(cmp "$work/text" "$text" 2>&1)"
    done <<'WAYS'
demangle
demangle --brief
demangle --no-params
symfilt
symfilt --wide
symfilt --wide --legacy --brief
symfilt --no-params
WAYS
}
compare() { # compare MACHINE NAMES : compares the answers of a machine with those of the proved library, or of the first machine
    if [ -n "$wanted_answers" ] && [ ! -f "$work/answers.$2" ]; then
        "$wanted_answers" 16 <"$work/$2" >"$work/answers.$2"
    fi
    answers "$1" "$2" || fails "$1: names ended with status $?"
    [ -f "$work/answers.$2" ] || cp "$work/$1.$2" "$work/answers.$2"
    cmp -s "$work/$1.$2" "$work/answers.$2" || fails "$1: the library answers otherwise than $by: $(cmp "$work/$1.$2" "$work/answers.$2" 2>&1)"
    filters "$1" "$2"
}
try() { # try MACHINE CC CFLAGS NAMES : builds all of it, checks the rows, and compares symbols
    local machine=$1 cc=$2 flags=$3 names=$4 begun=$SECONDS before=$status
    mkdir "$work/$machine"
    cp "$dist"/*.[ch] "$dist/Makefile" "$dist/rows" "$work/$machine/"
    [ $is_quick$names = yesfew ] && awk 'NR % 10 == 1' "$dist/rows" >"$work/$machine/rows"
    if ! make -s -j 3 -C "$work/$machine" CC="$cc" CFLAGS="-std=c99 -Wall -Wextra -Werror $flags" EXE="$exe" LDFLAGS="$link" \
        LIBS="$libs" RUN="$run" all check >"$work/log" 2>&1; then
        tail -n 20 "$work/log"
        fails "$machine: make check"
        return
    fi
    $cc -O1 $link -I "$dist" tests/portable/names.c "$work/$machine/libsymdemangle.a" -o "$work/$machine/names$exe" || fails "$machine: names"
    compare "$machine" "$names"
    [ $status != "$before" ] || echo "ok: $machine: $(grep -ac . "$work/$names") symbols as by $by, $((SECONDS - begun)) s; $(grep -a 'rows checked' "$work/log" | tr '\n' ';')"
}
chosen() {
    [ "$wanted" = ' ' ] || [[ $wanted == *" $1 "* ]]
}
has() { # has MACHINE WORD.. : whether its tools are installed
    local machine=$1 word
    shift
    chosen "$machine" || return 1
    for word; do
        command -v "$word" >/dev/null || { missing "$machine: $word isn't installed"; return 1; }
    done
}

exe= link= libs= run=
has gcc gcc && try gcc gcc -O2 names
has clang clang && try clang clang -O2 names
if [ $sanitizers = yes ]; then
    link='-fsanitize=address,undefined' try sanitized gcc '-O0 -fsanitize=address,undefined -fno-sanitize-recover=all' few
fi
link=-static
has aarch64 aarch64-linux-gnu-gcc qemu-aarch64 && run=qemu-aarch64 try aarch64 aarch64-linux-gnu-gcc -O1 few
has riscv64 riscv64-linux-gnu-gcc qemu-riscv64 && run=qemu-riscv64 try riscv64 riscv64-linux-gnu-gcc -O1 few
export WINEDEBUG=-all WINEPREFIX=$work/wine
has windows x86_64-w64-mingw32-gcc wine && exe=.exe libs=-lshell32 run=wine try windows x86_64-w64-mingw32-gcc -O2 few
exe=.wasm link= run="node --no-warnings $PWD/tests/portable/wasi.mjs"
try_wasi() { # as `try`, but compiled by clang for wasm64, with the checkers over the C library of tests/portable/wasi
    local begun=$SECONDS before=$status checker flags='-O1 -Wall -Wextra -Werror'
    mkdir "$work/wasi"
    cp "$dist"/*.[ch] "$dist/Makefile" "$dist/rows" "$work/wasi/"
    [ $is_quick = no ] || awk 'NR % 10 == 1' "$dist/rows" >"$work/wasi/rows"
    # (the objects are named, so that make keeps them)
    if ! make -s -j 2 -C "$work/wasi" demangle.wasm symfilt.wasm demangle.wasm.o symfilt.wasm.o CFLAGS="$flags" >"$work/log" 2>&1 ||
        ! tests/portable/wasi/checked.sh "$work/wasi" $flags >>"$work/log" 2>&1; then
        tail -n 20 "$work/log"
        fails "wasi: make"
        return
    fi
    for checker in check_library check_demangle check_symfilt; do
        (cd "$work/wasi" && $run ./$checker.wasm rows) >>"$work/log" 2>&1 || { tail -n 20 "$work/log"; fails "wasi: $checker"; }
    done
    compare wasi few
    filters wasi names
    [ $status != "$before" ] || echo "ok: wasi: $(grep -ac . "$work/few") symbols as by $by, $(grep -ac . "$work/names") filtered, $((SECONDS - begun)) s; $(grep -a 'rows checked' "$work/log" | tr '\n' ';')"
}
has wasi clang wasm-ld wasm-opt node && try_wasi
exit $status
