#!/bin/bash
# Makes the files that the other scripts here measure, from installed libraries:
#
#   bench/inputs.sh OUT [LIBRARY..]
#
#   OUT/cpp.txt         their C++ symbols (_Z..), one a line, each once
#   OUT/rust.txt        their Rust symbols (_R..)
#   OUT/templates.txt   of cpp.txt those that name a template's parameter (T_, T0_, ..): instances of function templates
#   OUT/long.txt        of cpp.txt those of 200 to 399 bytes
#   OUT/nm.txt          the lines that nm prints of the libraries, symbols of C and versions among them
#   OUT/perf.txt        the same symbols in lines as perf script prints them, stacks of 24 frames
#   OUT/plain.txt       60 MB of text without symbols
#   OUT/libraries       which libraries these were
#
# The symbols are those in the libraries' dynamic tables, and in the usual tables of archives. Without LIBRARY the script takes the
# libraries of this list that are installed: the C++ runtime, Rust's compiler and library, and Debian's libLLVM, libclang-cpp, Boost, ICU,
# protobuf, gRPC, Qt, RocksDB, Poco. With other versions of these the files differ, and so do the numbers that are measured with the files.
set -euo pipefail
[ $# -ge 1 ] || { echo "usage: $0 OUT [LIBRARY..]" >&2; exit 2; }
export LC_ALL=C
out=$1
shift
mkdir -p "$out"
if [ $# -eq 0 ]; then
    shopt -s nullglob
    set -- /usr/lib/x86_64-linux-gnu/lib{stdc++,LLVM,clang-cpp,boost,icu,protobuf,grpc,Qt,rocksdb,Poco,re2,fmt}*.so* \
        /usr/lib/llvm-*/lib/lib{LLVM,clang-cpp}*.so* /usr/lib/gcc/x86_64-linux-gnu/*/libstdc++.a
    if command -v rustc >/dev/null; then
        set -- "$@" "$(rustc --print sysroot)"/lib/librustc_driver*.so "$(rustc --print sysroot)"/lib/rustlib/x86_64-unknown-linux-gnu/lib/libstd*.so
    fi
fi
[ $# -gt 0 ] || { echo 'none of the usual libraries is installed' >&2; exit 1; }
for library in "$@"; do realpath "$library"; done | sort -u >"$out/libraries"

# the lines of nm; after the lines of each library comes a line with its path
listed() {
    while read -r library; do
        case $library in
            *.a) nm "$library" 2>/dev/null ;;
            *) nm -D "$library" 2>/dev/null ;;
        esac
        echo "$library:"
    done <"$out/libraries"
}
listed >"$out/nm.txt"

awk '{ sub(/@.*/, "", $NF); print $NF }' "$out/nm.txt" | sort -u >"$out/all"
grep -a '^_Z' "$out/all" >"$out/cpp.txt" || true
grep -a '^_R' "$out/all" >"$out/rust.txt" || true
rm "$out/all"
grep -aE 'T[0-9]*_' "$out/cpp.txt" >"$out/templates.txt" || true
awk 'length($0) >= 200 && length($0) < 400' "$out/cpp.txt" >"$out/long.txt"

# the head of a sample, then its frames, each with an address, a symbol with a distance, and a library; the lines of nm are read backwards,
# so that a library's path comes before its symbols
tac "$out/nm.txt" | awk '
    /:$/ { path = substr($0, 1, length($0) - 1); next }
    NF == 3 {
        sub(/@.*/, "", $3)
        if (frames++ % 24 == 0)
            printf("%sworker 12345 [%03d] %d.%06d: %10d cycles:u:\n", (frames > 1 ? "\n" : ""), frames % 4,
                1000 + frames / 1000, frames % 1000000, 1000000 + frames % 997)
        printf "\t%16s %s+0x%x (%s)\n", substr($1, 5), $3, frames % 4096, path
    }' >"$out/perf.txt"

awk 'BEGIN {
    for (i = 0; i < 520000; i++)
        printf "%08d INFO  worker-%d: request %d took %d ms, \"GET /index.html?page=%d\" (200, 5312 bytes), user agent curl/7\n", i, i % 16, i * 7919 % 1000003, i % 251, i % 97
}' >"$out/plain.txt"
wc -lc "$out"/*.txt | sed '$d'
