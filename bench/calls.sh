#!/bin/sh
# Measures a call of the static library for each symbol of a file, C++ or Rust, one symbol per line. Where libiberty and LLVM are installed
# (Debian's libiberty-dev, llvm-14-dev), their calls are measured, too.
#
#   bench/calls.sh [-i] [-l LIBRARY] FILE
#
# The script prints nanoseconds of processor time; with -i it prints the instructions that valgrind counts, without those that read the
# file. LIBRARY is measured in place of the proved library, for instance dist/libsymdemangle.a, which a C compiler made.
set -eu
usage() {
    echo "usage: $0 [-i] [-l LIBRARY] FILE" >&2
    exit 2
}
counts=no library=
while getopts il: option; do
    case $option in
        i) counts=yes ;;
        l) library=$(realpath "$OPTARG") ;;
        *) usage ;;
    esac
done
shift $((OPTIND - 1))
[ $# -eq 1 ] || usage
file=$(realpath "$1")
cd "$(dirname "$0")/.."
work=$(mktemp -d)
trap 'rm -rf "$work"' EXIT

if [ -z "$library" ]; then
    [ -f crates/symdemangle/out/libsymdemangle.a ] || (cd crates/symdemangle && rt lib)
    tools/pack.sh "$work"
    library=$work/libsymdemangle.a
fi
flags="-std=c++17 -O2 -I callers/c"
libraries=$library
if [ -f /usr/include/libiberty/demangle.h ]; then
    flags="$flags -DWITH_LIBIBERTY"
    libraries="$libraries -liberty"
fi
llvm=$(ls -d /usr/lib/llvm-*/include/llvm/Demangle 2>/dev/null | tail -n 1 | sed 's|/include/.*||')
if [ -n "$llvm" ]; then
    flags="$flags -DWITH_LLVM -I$llvm/include"
    libraries="$libraries -L$llvm/lib -lLLVMDemangle"
fi
# shellcheck disable=SC2086
c++ $flags bench/calls.cc -o "$work/calls" $libraries
if [ $counts = no ]; then
    "$work/calls" "$file"
    exit
fi

# the instructions of one run
count() {
    valgrind --tool=callgrind --callgrind-out-file=/dev/null "$work/calls" "$file" "$1" 2>&1 >/dev/null |
        sed -n 's/^==[0-9]*== Collected : //p'
}
lines=$(wc -l <"$file")
none=$(count none)
for name in $("$work/calls" "$file" names); do
    printf '%-28s %7s instructions a symbol\n' "$name" "$((($(count "$name") - none) / lines))"
done
