#!/bin/bash
# Tests the packages that compile the library's C file, as they are packed. Each package is unpacked, built and tested without a network,
# without the kit and without an installed library, by the tests of its caller in callers/.
#
#   tests/packaged.sh [-d DIST] [-w PAGE] [-b] [python | npm | recipes | rust | go | c]..
#
#   -d DIST    the folder that tools/portable/make.sh made, in the place of dist/
#   -w PAGE    the folder that web/module/make.sh made, with the module of the package for JavaScript
#   -b         changes an answer in a copy of the C file (or an export in a copy of the module) instead: the tests of each package have to fail on the copy
#
# Programs that aren't installed are named, and their tests left out: cargo with the crate cc (librust-cc-dev), go, node, npm, tsc; cross
# compilers for 64-bit ARM Linux and Windows, with qemu-aarch64 and wine; and the programs that read the recipes of dist/packaging. A dist/
# that was made from other sources isn't tested.
set -euo pipefail
cd "$(dirname "$0")/.."
dist= page= breaks=no
while getopts d:w:b option; do
    case $option in
        d) dist=$(realpath "$OPTARG") ;;
        w) page=$(realpath "$OPTARG") ;;
        b) breaks=yes ;;
        *) sed -n '5s/^#  *//p' "$0" >&2; exit 2 ;;
    esac
done
shift $((OPTIND - 1))
# the slowest packages come first
[ $# -gt 0 ] || set -- python npm recipes rust go c
if [ -z "$dist" ]; then
    dist=$PWD/dist left=
    if [ ! -f "$dist/symdemangle.c" ]; then
        left="there is no dist/symdemangle.c"
    elif [ -x tools/portable/sources.sh ] && ! grep -q "$(tools/portable/sources.sh)" "$dist/MANIFEST"; then
        left="dist/ is of other sources than these"
    fi
    if [ -n "$left" ]; then
        echo "$left: what compiles the C file isn't tested"
        [[ " $* " == *' npm '* ]] || exit 0
        set -- npm
    fi
fi
work=$(mktemp -d)
trap 'rm -rf "$work"' EXIT
unset SYMDEMANGLE_DIR SYMDEMANGLE_LIBRARY GO_MODULE
export PKG_CONFIG=false

has() { # has PROGRAM WHAT : whether a program is installed
    command -v "$1" >/dev/null || { echo "$1 isn't installed: $2 isn't tested"; return 1; }
}
quiet() { # quiet COMMAND.. : shows what the command prints, if the command fails
    "$@" >"$work/out" 2>&1 || { tail -n 400 "$work/out"; return 1; }
}
made() { # made LANGUAGE [OPTION..] : makes the packages of a language
    local language=$1
    shift
    quiet tools/language_packages.sh -d "$dist" "$@" "$work/packages" "$language"
}

# The C file by itself: it has only the names of the header, and it answers a C and a C++ caller as the archive does.
try_c() {
    quiet cc -std=c99 -O1 -I "$dist" -c "$dist/symdemangle.c" -o "$work/symdemangle.o"
    local others
    others=$(nm -g --defined-only "$work/symdemangle.o" | awk 'NF == 3 && $3 !~ /^symdemangle_/ || /_of$/ { print $3 }')
    [ -z "$others" ] || { echo "symdemangle.c has other names: $others"; return 1; }
    quiet cc -std=c99 -I "$dist" callers/c/calls.c "$work/symdemangle.o" -o "$work/calls"
    quiet c++ -std=c++17 -I "$dist" callers/c/calls.cc "$work/symdemangle.o" -o "$work/calls++"
    quiet "$work/calls"
    quiet "$work/calls++"
    # the file is compiled as the folder callers/go compiles it in a clone
    quiet cc -std=c99 -fsyntax-only -I "$dist" callers/go/library.c
    echo 'c: ok'
}

try_rust() {
    has cargo 'the crate' || return 0
    compgen -G '/usr/share/cargo/registry/cc-*' >/dev/null || { echo "librust-cc-dev isn't installed: the crate isn't tested"; return 0; }
    made rust
    if grep -i warning "$work/out"; then return 1; fi
    mkdir "$work/crate"
    tar -C "$work/crate" --strip-components=1 -xzf "$work"/packages/symdemangle-*.crate
    CARGO_TARGET_DIR=$work/target quiet cargo --config tests/callers/debian_crates.toml test --offline --manifest-path "$work/crate/Cargo.toml"
    echo "rust: $(basename "$work"/packages/symdemangle-*.crate), $(stat -c %s "$work"/packages/symdemangle-*.crate) bytes: ok"
}

try_go() {
    has go 'the module for Go' || return 0
    made go
    (cd "$work/packages/go" && GOCACHE=$work/gocache GOFLAGS=-mod=mod GOPROXY=off quiet go test ./...)
    echo 'go: ok'
}

has_answers() { # has_answers COMPILER LIBRARY RUN.. : runs a caller in C over the library of a wheel
    local compiler=$1 library=$2
    shift 2
    quiet "$compiler" -std=c99 -I "$dist" callers/c/calls.c "$library" -o "$(dirname "$library")/calls.exe"
    (cd "$(dirname "$library")" && LD_LIBRARY_PATH=. quiet "$@" ./calls.exe)
}

try_python() {
    local packages=$work/packages/python wheel
    COMPILERS=' ' made python
    python3 -m venv "$work/venv"
    quiet "$work/venv/bin/pip" wheel --quiet --no-cache-dir --no-index --disable-pip-version-check -w "$work/wheels" "$packages"/symdemangle-*.tar.gz
    quiet "$work/venv/bin/pip" install --quiet --no-cache-dir --no-index --disable-pip-version-check "$work"/wheels/*.whl
    (cd "$work" && quiet "$work/venv/bin/python" "$OLDPWD/callers/python/tests/calls.py")
    # wheels for other machines: a caller in C calls their library
    COMPILERS='aarch64-linux-gnu-gcc x86_64-w64-mingw32-gcc' CFLAGS=-O1 made python
    grep "isn't installed" "$work/out" || true
    # (no such wheel exists if no compiler for another machine is installed)
    local wheels=("$packages"/*.whl)
    [ -e "${wheels[0]}" ] || wheels=()
    for wheel in ${wheels[@]+"${wheels[@]}"}; do (cd "$packages" && mkdir "$wheel.d" && python3 -m zipfile -e "$wheel" "$wheel.d"); done
    for wheel in "$packages"/*_aarch64.whl; do
        [ ! -d "$wheel.d" ] || [ "$(uname -m)" = aarch64 ] || ! has qemu-aarch64 'the wheel for 64-bit ARM' ||
            has_answers aarch64-linux-gnu-gcc "$wheel.d/symdemangle/libsymdemangle.so" qemu-aarch64 -L /usr/aarch64-linux-gnu
    done
    for wheel in "$packages"/*-win_amd64.whl; do
        [ ! -d "$wheel.d" ] || ! has wine 'the wheel for Windows' ||
            WINEPREFIX=${WINEPREFIX:-$work/wine} WINEDEBUG=-all WINEDLLOVERRIDES='mscoree=;mshtml=' has_answers x86_64-w64-mingw32-gcc "$wheel.d/symdemangle/symdemangle.dll" wine
    done
    echo "python: $(basename -a "$packages"/*.tar.gz "$work"/wheels/*.whl ${wheels[@]+"${wheels[@]}"} | paste -sd ' '): ok"
}

try_npm() {
    has node 'the package for JavaScript' && has npm 'the package for JavaScript' || return 0
    if [ -z "$page" ]; then
        if ! command -v rt >/dev/null || ! command -v wasm-opt >/dev/null || [ ! -f crates/symdemangle/out/libsymdemangle.a ]; then
            echo "there is no WebAssembly module (-w), or what makes it isn't installed: the package for JavaScript isn't tested"
            return 0
        fi
        page=$work/page
        quiet web/module/make.sh "$page"
    fi
    made npm -w "$page"
    local folder=$work/javascript
    mkdir "$folder"
    cp -r callers/npm/tests "$folder"
    echo '{"private": true, "type": "module"}' >"$folder/package.json"
    (cd "$folder" && quiet npm install --offline --no-audit --no-fund "$work"/packages/symdemangle-*.tgz)
    (cd "$folder" && quiet node --test tests/)
    # the example of the page
    sed -n '/^```js$/,/^```$/{/^```/d;p}' docs/callers/JAVASCRIPT.md >"$folder/example.mjs"
    sed -n '/^```text$/,/^```$/{/^```/d;p}' docs/callers/JAVASCRIPT.md >"$work/wanted"
    (cd "$folder" && node example.mjs) >"$work/told"
    quiet diff "$work/wanted" "$work/told"
    ! has tsc 'what TypeScript reads of the package' ||
        (cd "$folder" && quiet tsc --noEmit --strict --target es2022 --module node16 --moduleResolution node16 tests/types.mts)
    echo "npm: $(basename "$work"/packages/symdemangle-*.tgz), $(stat -c %s "$work"/packages/symdemangle-*.tgz) bytes: ok"
}

try_recipes() {
    quiet tests/packaged/recipes.sh "$dist" "$work/recipes"
    cat "$work/out"
}

broken() { # broken LANGUAGE : checks that the tests of a language fail on a C file or a module that answers otherwise
    local copy=$work/broken
    rm -rf "$copy" && mkdir "$copy"
    if [ "$1" = npm ]; then
        [ -n "$page" ] || { echo 'npm: -b needs -w'; return 0; }
        cp "$page/symdemangle.wasm" "$page/module.json" "$copy"
        python3 tests/packaged/changed.py "$copy/symdemangle.wasm"
        set -- npm -w "$copy" -d "$dist"
    else
        cp -r "$dist/." "$copy"
        python3 tests/packaged/changed.py "$copy/symdemangle.c"
        set -- "$1" -d "$copy"
    fi
    if "$0" "${@:2}" "$1" >"$work/said" 2>&1; then
        echo "not seen: $1 over a library with another answer"
        return 1
    fi
    grep -aqE 'chor|^text: ' "$work/said" || { cat "$work/said"; echo "$1 fails, but not by an answer"; return 1; }
    echo "seen: $1"
}

if [ $breaks = yes ]; then
    for it; do [ "$it" = recipes ] || broken "$it"; done
    echo 'tests/packaged.sh: ok'
    exit
fi

one() { # one LANGUAGE : tests the packages of a language in a folder of its own, and keeps the output and the status
    set +e
    (
        set -e
        work=$work/$1
        mkdir "$work"
        "try_$1"
    ) >"$work/$1.said" 2>&1
    echo $? >"$work/$1.status"
}
# Two languages are tested at a time, since a compiler takes most of the time.
for it; do
    while [ "$(jobs -pr | wc -l)" -ge 2 ]; do wait -n || true; done
    one "$it" &
done
wait
failed=
for it; do
    cat "$work/$it.said"
    [ "$(cat "$work/$it.status")" -eq 0 ] || failed+=" $it"
done
[ -z "$failed" ] || { echo "FAILED:$failed"; exit 1; }
echo 'tests/packaged.sh: ok'
