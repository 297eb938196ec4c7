#!/bin/bash
# Makes the C files of dist/ from what is proved:
#
#   tools/portable/make.sh OUT [TREE]
#
# TREE is another clone with the same crates, for when the crates are proved there (`rt ci`) and not in this one; nothing is written in
# TREE. The library and each program are proved once more over the checked libraries, and the LLVM module of what was proved is optimised by
# the kit's clang, and written as C by to_c.py. OUT gets symdemangle.c, demangle.c, symfilt.c, the files of tools/portable/dist, headers,
# man pages, licences, the rows, and MANIFEST: verdicts, the kit, the sum of the sources, and that of each file. The same tree gives the
# same bytes. The three C files are made side by side, which takes some minutes and 4 GB.
#
# MODULES=FOLDER takes the modules FOLDER/CRATE.ll instead, which nobody proved, for a trial; MANIFEST then says so.
set -euo pipefail
[ $# -ge 1 ] && [ $# -le 2 ] || { echo "usage: $0 OUT [TREE]" >&2; exit 2; }
here=$(cd "$(dirname "$0")" && pwd)
mkdir -p "$1"
out=$(cd "$1" && pwd)
modules=${MODULES:+$(realpath "$MODULES")}
tree=$(realpath "${2:-$here/../..}")
cd "$here/../.."
sums() { (cd "$1" && git ls-files -z -- crates crates.txt | xargs -0 sha256sum); }
[ "$tree" -ef . ] || [ "$(sums "$tree")" = "$(sums .)" ] || { echo "$0: $tree has other crates than $PWD" >&2; exit 1; }
clang=("$(dirname "$(rt doc)")/toolchain/bin/clang" --no-default-config -Wno-everything --target=x86_64-unknown-linux-gnu)
work=$(mktemp -d)
trap 'rm -rf "$work"' EXIT
version=$(sed -n 's/^#define SYMDEMANGLE_VERSION_[A-Z]* \([0-9]*\)$/\1/p' callers/c/symdemangle.h | paste -sd .)

# Functions are inlined as by -O3 (a threshold of 250): with less the C takes more instructions, and with more the C compiler takes longer.
# INLINE is another threshold, to measure with. Loops aren't unrolled, and everything is optimised twice: the second time finds much that
# inlining left, so that the C has a fifth fewer lines. Vectors aren't combined, since to_c.py knows the quarters of 64 bytes and no other
# parts. Attributes that say something only of x86-64 are left out.
optimise=(-O2 -fno-unroll-loops -fno-vectorize -fno-slp-vectorize -mllvm -disable-vector-combine -mllvm "-inline-threshold=${INLINE:-250}")
OF_X86=' ?"(probe-stack|stack-probe-size|target-cpu|target-features|tune-cpu|frame-pointer)"(="[^"]*")?'

translated() { # translated CRATE : its proved module as $work/CRATE.c, and the verdict as $work/CRATE.verdict
    local crate=$1 module=$work/$1.bc verdict='not proved: a module for a trial'
    if [ -n "$modules" ]; then
        module=$modules/$crate.ll
    else
        "$here/proved_module.py" "$tree/crates/$crate" "$module" >&2
        verdict=$(cat "$module.proved")
    fi
    echo "$crate: $verdict" >"$work/$crate.verdict"
    "${clang[@]}" -Xclang -disable-llvm-passes -x ir "$module" -S -emit-llvm -o "$work/$crate.all.ll"
    sed -E -i "/^attributes/s/$OF_X86//g" "$work/$crate.all.ll"
    "$here/apart.py" "$work/$crate.all.ll" "$work/$crate.apart.ll"
    "${clang[@]}" "${optimise[@]}" -x ir "$work/$crate.apart.ll" -c -emit-llvm -o "$work/$crate.once.bc"
    "${clang[@]}" "${optimise[@]}" -x ir "$work/$crate.once.bc" -S -emit-llvm -o "$work/$crate.ll"
    printf '/* %s of symdemangle %s, written by tools/portable/make.sh from the proved program; MANIFEST says of which. The path of the\n   Rattle function is above each. MIT OR Apache-2.0 */\n' \
        "$crate" "$version" >"$work/$crate.head"
    "$here/to_c.py" "$work/$crate.head" "$work/$crate.ll" "$work/$crate.c" >&2
}

crates=(symdemangle demangle symfilt)
made=()
for crate in "${crates[@]}"; do
    translated "$crate" &
    made+=($!)
done
for one in "${made[@]}"; do wait "$one"; done
"$here/join.py" "$work/symdemangle.c" callers/archive "$out/symdemangle.c"
mv "$work/demangle.c" "$work/symfilt.c" "$out/"
cp "$here"/dist/* "$here/dist/.gitignore" callers/c/symdemangle.h callers/c/symdemangle.hpp web/module/int128.c docs/demangle.1 \
    docs/symfilt.1 LICENSE-MIT LICENSE-APACHE "$out/"
sed "s|@VERSION@|$version|" callers/archive/symdemangle.pc.in >"$out/symdemangle.pc.in"
cp crates/check_rows/stdin "$out/rows"
{
    echo "symdemangle $version as C"
    for crate in "${crates[@]}"; do cat "$work/$crate.verdict"; done
    echo "kit: $(rt version)"
    echo "sources: $("$here/sources.sh" .)"
    (cd "$out" && LC_ALL=C sha256sum *.c *.h *.hpp rows Makefile CMakeLists.txt)
} >"$work/MANIFEST"
mv "$work/MANIFEST" "$out/MANIFEST"
echo "$out: $(cd "$out" && wc -c symdemangle.c demangle.c symfilt.c | tail -n 1 | awk '{ print $1 }') bytes of C"
