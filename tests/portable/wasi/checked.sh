#!/bin/bash
# Compiles the checkers of the rows, and names.c, for a host of WASI. COPY is a copy of dist/ in which `make demangle.wasm symfilt.wasm` was run:
#
#   tests/portable/wasi/checked.sh COPY CFLAGS..
#
# The script makes check_library.wasm, check_demangle.wasm, check_symfilt.wasm and names.wasm in COPY, as dist/Makefile makes the programs.
set -euo pipefail
here=$(cd "$(dirname "$0")" && pwd)
cd "$1"
shift
compile() { # compile FROM.c TO.o
    clang --target=wasm64-unknown-unknown -ffreestanding -mbulk-memory "$@" -std=c99 -Dmain=checked_main -I "$here" -I . -c "$from" -o "$to"
}
linked() { # linked NAME OBJECT.. : a module whose addresses are cut to 32 bits
    local name=$1
    shift
    clang --target=wasm64-unknown-unknown -nostdlib -Wl,--stack-first,--strip-all,-z,stack-size=1048576 "$@" host.wasm.o int128.wasm.o -o "$name.wasm"
    wasm-opt --enable-memory64 --enable-bulk-memory --enable-sign-ext --enable-mutable-globals --enable-nontrapping-float-to-int \
        --memory64-lowering "$name.wasm" -o "$name.wasm"
}
while read -r from to; do compile "$@"; done <<FILES
$here/host.c host.wasm.o
$here/../names.c names.wasm.o
symdemangle.c symdemangle.wasm.o
check_library.c check_library.wasm.o
check_program.c check_program.wasm.o
FILES
linked check_library check_library.wasm.o symdemangle.wasm.o
linked check_demangle check_program.wasm.o demangle.wasm.o
linked check_symfilt check_program.wasm.o symfilt.wasm.o
linked names names.wasm.o symdemangle.wasm.o
