#!/bin/bash
# Makes the page, ready for any static web server:
#
#   web/module/make.sh OUT [LIBRARY]
#
# The folder OUT gets the files of web/ and the library as a WebAssembly module, symdemangle.wasm, which imports nothing. The
# module is the LLVM module from which `rt lib` makes crates/symdemangle's archive for x86-64, once that is proved, compiled for
# wasm64, and with its memory's addresses cut to 32 bits, which every browser has. LIBRARY is such an LLVM module from elsewhere;
# then the page says that it is a trial. It needs rt and Debian's binaryen (wasm-opt).
set -euo pipefail
[ $# -ge 1 ] && [ $# -le 2 ] || { echo "usage: $0 OUT [LIBRARY]" >&2; exit 2; }
command -v wasm-opt >/dev/null || { echo "$0: wasm-opt isn't installed (Debian's binaryen)" >&2; exit 1; }
mkdir -p "$1"
out=$(cd "$1" && pwd)
library=${2:+$(realpath "$2")}
here=$(cd "$(dirname "$0")" && pwd)
cd "$here/../.."
tools=$(dirname "$(rt doc)")/toolchain/bin
work=$(mktemp -d)
trap 'rm -rf "$work"' EXIT

proved=null
if [ -z "$library" ]; then
    library=$work/library.bc
    (cd crates/symdemangle && rt lib)
    tools/portable/proved_module.py crates/symdemangle "$library"
    proved="\"$(cat "$library.proved")\""
fi

# The kit's clang and the flags that the kit compiles wasm64 with.
clang=("$tools/clang" --no-default-config -Wno-everything)
wasm=(--target=wasm64-unknown-unknown -mcpu=lime1 -ffunction-sections -fdata-sections)
"${clang[@]}" --target=x86_64-unknown-linux-gnu -x ir "$library" -S -emit-llvm -Xclang -disable-llvm-passes -o "$work/x86.ll"
"$here/retarget.py" "$work/x86.ll" "$work/wasm.ll"
"${clang[@]}" "${wasm[@]}" -O3 -mllvm -expand-div-rem-bits=64 -mllvm -expand-fp-convert-bits=64 -mllvm -trap-unreachable \
    -Xclang -fmerge-functions -c -x ir "$work/wasm.ll" -o "$work/library.o"

# What the C files name of the C library, which isn't there.
mkdir "$work/include"
echo 'typedef __SIZE_TYPE__ size_t;' >"$work/include/stddef.h"
cat >"$work/include/stdint.h" <<'END'
typedef __UINT8_TYPE__ uint8_t;
typedef __UINT32_TYPE__ uint32_t;
typedef __UINT64_TYPE__ uint64_t;
typedef __UINTPTR_TYPE__ uintptr_t;
END
echo '#define memcpy __builtin_memcpy' >"$work/include/string.h"
for file in callers/archive/functions.c callers/archive/arena.c web/module/int128.c; do
    "${clang[@]}" "${wasm[@]}" -O2 -ffreestanding -nostdinc -I "$work/include" -I callers/c -c "$file" \
        -o "$work/$(basename "$file" .c).o"
done

calls=(__heap_base symdemangle_arena_set)
for call in text parts filter count press message role kind version; do calls+=("symdemangle_$call"); done
"$tools/ld.lld" -flavor wasm -mwasm64 --no-entry --stack-first -z stack-size=1048576 --fatal-warnings --gc-sections \
    --strip-all "${calls[@]/#/--export=}" -o "$work/symdemangle64.wasm" "$work"/{library,functions,arena,int128}.o
wasm-opt --enable-memory64 --enable-bulk-memory --enable-sign-ext --enable-mutable-globals \
    --enable-nontrapping-float-to-int --memory64-lowering "$work/symdemangle64.wasm" -o "$out/symdemangle.wasm"

cp web/*.html web/*.css web/*.js web/*.svg web/*.webmanifest "$out/"
printf '{"proved": %s}\n' "$proved" >"$out/module.json"
echo "$out: $(stat -c %s "$out/symdemangle.wasm") bytes of symdemangle.wasm"
