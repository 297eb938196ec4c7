#!/bin/sh
# Makes the libraries that are installed from the proved archive crates/symdemangle/out/libsymdemangle.a (`rt lib` there):
#
#   tools/pack.sh OUT [PREFIX [LIBDIR]]
#
# It writes to OUT libsymdemangle.a, libsymdemangle_arena.a, the shared library with its links, and the files of pkg-config and
# CMake for libraries that will be in PREFIX/LIBDIR (/usr/local and lib). It needs a C compiler and binutils.
set -eu
[ $# -ge 1 ] && [ $# -le 3 ] || { echo "usage: $0 OUT [PREFIX [LIBDIR]]" >&2; exit 2; }
mkdir -p "$1"
out=$(cd "$1" && pwd)
prefix=${2:-/usr/local}
libdir=${3:-lib}
cd "$(dirname "$0")/.."
proved=crates/symdemangle/out/libsymdemangle.a
[ -f "$proved" ] || { echo "$0: no $proved: \`rt lib\` in crates/symdemangle proves and builds it" >&2; exit 1; }
parts=$(mktemp -d)
trap 'rm -rf "$parts"' EXIT

number() { # number NAME : one of the header's version
    sed -n "s/^#define SYMDEMANGLE_VERSION_$1 \([0-9]*\)$/\1/p" callers/c/symdemangle.h
}
major=$(number MAJOR) minor=$(number MINOR) patch=$(number PATCH)
version=$major.$minor.$patch
# While the version's first number is 0, the second one says what a program can run with.
abi=$major
[ "$major" != 0 ] || abi=$major.$minor

compile() { # compile NAME STANDARD : an object of a C file of callers/archive
    ${CC:-cc} -std="$2" -O2 -fPIC -Wall -Wextra -Wpedantic -Werror -fdebug-prefix-map="$PWD"=. -Icallers/c \
        -c "callers/archive/$1.c" -o "$parts/$1.o"
}
compile functions c99
compile strings c99
compile heap c99
compile arena c11

# Makes one object, which binds the calls between its parts, and keeps only the header's names: the proved calls, which end in _of, become
# local.
one_object() { # one_object NAME PART..
    name=$1
    shift
    ld -r -o "$parts/$name.o" --whole-archive "$proved" "$parts/functions.o" "$@" --no-whole-archive
    objcopy --wildcard --keep-global-symbol='symdemangle_*' --keep-global-symbol='!symdemangle_*_of' "$parts/$name.o"
    rm -f "$out/lib$name.a"
    ar rcsD "$out/lib$name.a" "$parts/$name.o"
}
one_object symdemangle "$parts/strings.o" "$parts/heap.o"
one_object symdemangle_arena "$parts/arena.o"

shared=libsymdemangle.so.$version
${CC:-cc} -shared -o "$out/$shared" -Wl,-soname,libsymdemangle.so."$abi" \
    -Wl,--version-script=callers/archive/names.map -Wl,--gc-sections -Wl,-z,relro -Wl,-z,now -Wl,-z,defs -Wl,--build-id=sha1 \
    "$parts/symdemangle.o"
strip --strip-unneeded "$out/$shared"
ln -sf "$shared" "$out/libsymdemangle.so.$abi"
ln -sf "libsymdemangle.so.$abi" "$out/libsymdemangle.so"

fill() { # fill FILE NAME : a template of callers/archive, with its holes filled
    include=$(realpath -m --relative-to="$prefix/$libdir/cmake/symdemangle" "$prefix/include")
    sed -e "s|@PREFIX@|$prefix|g" -e "s|@LIBDIR@|$libdir|g" -e "s|@NAME@|$2|g" -e "s|@VERSION@|$version|g" \
        -e "s|@MAJOR@|$major|g" -e "s|@MINOR@|$minor|g" -e "s|@ABI@|$abi|g" -e "s|@INCLUDE@|$include|g" "callers/archive/$1"
}
fill symdemangle.pc.in symdemangle >"$out/symdemangle.pc"
fill symdemangle.pc.in symdemangle_arena >"$out/symdemangle_arena.pc"
fill symdemangleConfig.cmake.in symdemangle >"$out/symdemangleConfig.cmake"
fill symdemangleConfigVersion.cmake.in symdemangle >"$out/symdemangleConfigVersion.cmake"
