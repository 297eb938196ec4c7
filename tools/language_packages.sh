#!/bin/bash
# Makes the packages of callers/ from the library's C file, and that for JavaScript from its WebAssembly module:
#
#   tools/language_packages.sh [-d DIST] [-w PAGE] OUT [rust | go | python | npm]..
#
#   -d DIST    the folder that has symdemangle.c and symdemangle.h, in the place of dist/
#   -w PAGE    the folder that web/module/make.sh made; without one there is no package for JavaScript
#
# OUT/rust and OUT/go get the folders of the crate and of the module for Go, and OUT/npm gets that of the package for JavaScript. OUT/python
# gets the source package, and a wheel for each compiler that is here (cc, and cross compilers for 64-bit ARM Linux and for Windows). OUT
# also gets what cargo and npm pack of their folders. GO_MODULE is the path that go.mod gets: that of the repository in which the module is
# released. What isn't installed is named and left out. It needs no kit and no network.
set -euo pipefail
here=$(cd "$(dirname "$0")/.." && pwd)
dist=$here/dist page=
while getopts d:w: option; do
    case $option in
        d) dist=$(realpath "$OPTARG") ;;
        w) page=$(realpath "$OPTARG") ;;
        *) sed -n '4s/^#  *//p' "$0" >&2; exit 2 ;;
    esac
done
shift $((OPTIND - 1))
[ $# -ge 1 ] || { sed -n '4s/^#  *//p' "$0" >&2; exit 2; }
mkdir -p "$1"
out=$(cd "$1" && pwd)
shift
[ $# -gt 0 ] || set -- rust go python npm
cd "$here"

has() { # has PROGRAM WHAT : whether a program is installed
    command -v "$1" >/dev/null || { echo "$1 isn't installed: $2 isn't made"; return 1; }
}
fresh() { # fresh NAME : an empty folder of OUT with the licences
    rm -rf "${out:?}/$1"
    mkdir -p "$out/$1"
    cp LICENSE-MIT LICENSE-APACHE "$out/$1"
}

make_rust() {
    fresh rust
    cp -r callers/rust/{Cargo.toml,README.md,build.rs,src,tests} "$out/rust"
    mkdir "$out/rust/csrc"
    cp "$dist/symdemangle.c" "$dist/symdemangle.h" "$out/rust/csrc"
    has cargo 'the crate' || return 0
    (cd "$out/rust" && CARGO_TARGET_DIR=$out/rust.target cargo package --offline --no-verify --exclude-lockfile)
    mv "$out"/rust.target/package/symdemangle-*.crate "$out"
    rm -rf "$out/rust.target"
}

make_go() {
    fresh go
    cp callers/go/{README.md,go.mod,*.go} "$out/go"
    sed -i "s|^module .*|module ${GO_MODULE:-symdemangle}|" "$out/go/go.mod"
    sed 's| -I\${SRCDIR}/../../dist||' callers/go/compiled.go >"$out/go/compiled.go"
    cp "$dist/symdemangle.h" "$out/go"
    { printf '//go:build !symdemangle_installed\n\n' && cat "$dist/symdemangle.c"; } >"$out/go/symdemangle.c"
}

make_python() {
    rm -rf "$out/python.folder" "$out/python"
    mkdir -p "$out/python.folder/csrc" "$out/python"
    cp -r LICENSE-MIT LICENSE-APACHE callers/python/{README.md,pyproject.toml,symdemangle,tests,wheel.py} "$out/python.folder"
    cp "$dist/symdemangle.c" "$dist/symdemangle.h" "$out/python.folder/csrc"
    local make=$out/python.folder/wheel.py compiler
    python3 "$make" --sources "$out/python" >/dev/null
    for compiler in ${COMPILERS:-cc aarch64-linux-gnu-gcc x86_64-w64-mingw32-gcc}; do
        ! has "$compiler" 'its wheel' || CC=$compiler python3 "$make" --compiled "$out/python" >/dev/null
    done
    rm -rf "$out/python.folder"
}

make_npm() {
    if [ -z "$page" ]; then
        echo 'there is no WebAssembly module (-w): the package for JavaScript is not made'
        return
    fi
    fresh npm
    cp callers/npm/{package.json,README.md,index.d.ts,*.js} web/library.js "$page/symdemangle.wasm" "$page/module.json" "$out/npm"
    ! has npm 'the packed package for JavaScript' || (cd "$out" && npm pack --silent ./npm >/dev/null)
}

if [ "$*" != npm ] && [ ! -f "$dist/symdemangle.c" ]; then
    echo "$0: there is no $dist/symdemangle.c: tools/portable/make.sh makes it" >&2
    exit 1
fi
for language; do
    case $language in
        rust | go | python | npm) "make_$language" ;;
        *) echo "$0: there is no package for $language" >&2; exit 2 ;;
    esac
done
(cd "$out" && find . -maxdepth 2 -type f \( -name '*.crate' -o -name '*.whl' -o -name '*.gz' -o -name '*.tgz' -o -name go.mod \) | sort)
