#!/bin/bash
# Installs the libraries into a folder of its own and runs callers of them: in C, C++, Rust, Python and Go; static, shared and over a lent
# block; found by pkg-config and CMake; under sanitizers, and with each allocation refused. Then runs programs over callers/shims, and every
# example of the headers and of docs/callers.
#
#   tests/callers.sh [FILE..]
#
# Each FILE has symbols, one a line, for the comparisons; the rows of crates/check_rows are always among them. The script proves the library
# first if it wasn't proved. What isn't installed here (clang, cmake, pkg-config, cargo, go) is named and left out.
set -euo pipefail
files=()
for file in "$@"; do files+=("$(realpath "$file")"); done
cd "$(dirname "$0")/.."
work=$(mktemp -d)
trap 'rm -rf "$work"' EXIT
prefix=$work/prefix
lib=$prefix/lib

(cd crates/symdemangle && rt lib)
tools/install.sh --libraries "$prefix"
grep -aE $'^(text|refused)\t' crates/check_rows/stdin | tr '\t' '\n' | grep -aE '^_(Z|R)[A-Za-z0-9_.$]+$' | head -n 20000 >"$work/symbols"
[ "$(wc -l <"$work/symbols")" -gt 300 ] || { echo "too few rows were found in crates/check_rows/stdin" >&2; exit 1; }

has() { # has PROGRAM WHAT : whether a program is installed
    command -v "$1" >/dev/null || { echo "$1 isn't installed: $2 isn't tested"; return 1; }
}

# run NAME COMPILER..: builds a program and runs it; the last words are those of the compiler
run() {
    local name=$1
    shift
    "$@" -o "$work/$name"
    "$work/$name" >"$work/out" || { echo "$name:"; cat "$work/out"; exit 1; }
    echo "$name: $(tail -n 1 "$work/out")"
}

warnings=(-Wall -Wextra -Werror -I "$prefix/include")
checks=(-g -fsanitize=address,undefined -fno-sanitize-recover)
static=("$lib/libsymdemangle.a")

# C and C++, every standard
run c cc -std=c11 "${checks[@]}" "${warnings[@]}" callers/c/calls.c "${static[@]}"
run c99 cc -std=c99 -Wpedantic "${warnings[@]}" callers/c/calls.c "${static[@]}"
for standard in 11 14 17 20; do
    run "c++$standard" c++ "-std=c++$standard" -Wpedantic "${checks[@]}" "${warnings[@]}" -x c++ callers/c/calls.c -x none "${static[@]}"
done
for standard in 17 20; do
    run "symdemangle.hpp, c++$standard" c++ "-std=c++$standard" -Wpedantic "${checks[@]}" "${warnings[@]}" callers/c/calls.cc "${static[@]}"
done
for standard in 11 14; do
    ! echo '#include <symdemangle.hpp>' | c++ "-std=c++$standard" -I "$prefix/include" -fsyntax-only -x c++ - 2>"$work/out"
    grep -q 'error: #error "symdemangle.hpp needs C++17' "$work/out" && [ "$(grep -c error: "$work/out")" -eq 1 ] ||
        { echo "symdemangle.hpp, c++$standard:"; cat "$work/out"; exit 1; }
done
if has clang 'the header under -Weverything'; then
    for language in c c++; do
        printf '#include <symdemangle.h>\n#include <symdemangle_arena.h>\n' |
            clang -x $language -Weverything -Wno-padded -Wno-c++98-compat-pedantic -Werror -I callers/c -fsyntax-only -
    done
    echo 'clang -Weverything: ok'
fi
run static cc -static -std=c11 "${warnings[@]}" callers/c/calls.c "${static[@]}"
run 'refused' cc -std=c11 "${warnings[@]}" callers/c/out_of_memory.c "${static[@]}"
cat "$work/out"

# docs/callers/C.md and the other pages give the measured memory that a call takes for a name.
said() { # said CALL : the figure in a row of the table of calls
    sed -n "s/^| \`symdemangle_$1\`[^|]*| \([0-9]*\) |.*/\1/p" docs/callers/C.md
}
for_a_byte=$(said text) pressed=$(said press)
[ -n "$for_a_byte" ] && [ -n "$pressed" ] || { echo "docs/callers/C.md doesn't say what memory a name takes"; exit 1; }
for page in docs/callers/{CPP,RUST,PYTHON,GO,OTHERS}.md callers/c/symdemangle.h callers/rust/src/lib.rs callers/python/symdemangle/__init__.py \
    callers/go/symdemangle.go; do
    grep -q " $for_a_byte .*byte" "$page" || { echo "$page doesn't say what memory a name takes"; exit 1; }
done
run memory cc -std=c11 "-DFOR_A_BYTE=$for_a_byte" "-DPRESSED=$pressed" "${warnings[@]}" tests/callers/memory.c "${static[@]}"
read -r for_a_byte pressed < <(sed -n 's/.*In a lent block a name takes up to \([0-9]*\) bytes for each of its bytes, and \([0-9,]*\) where.*/\1 \2/p' docs/callers/C.md | tr -d ,) ||
    { echo "docs/callers/C.md doesn't say what a name takes of a lent block"; exit 1; }
run 'memory of a lent block' cc -std=c11 -DARENA "-DFOR_A_BYTE=$for_a_byte" "-DPRESSED=$pressed" "${warnings[@]}" tests/callers/memory.c "$lib/libsymdemangle_arena.a"

# Exported names: an archive has only the header's names, and the shared library has each of them with its version. Neither needs more than
# the C library, and the archive over a lent block needs nothing that allocates.
for archive in symdemangle symdemangle_arena; do
    others=$(nm -g --defined-only "$lib/lib$archive.a" | awk 'NF == 3 && $3 !~ /^symdemangle_/ { print $3 }')
    [ -z "$others" ] || { echo "lib$archive.a has other names: $others"; exit 1; }
done
needed=$(nm -g --undefined-only "$lib/libsymdemangle_arena.a" | awk '$1 == "U" { print $2 }' | grep -vE '^(mem(cpy|move|set|cmp|chr)|_GLOBAL_OFFSET_TABLE_|bcmp|strlen)$' || true)
[ -z "$needed" ] || { echo "libsymdemangle_arena.a needs $needed"; exit 1; }
for call in $(sed -n 's/^[a-z_0-9 ]*[ *]\(symdemangle_[a-z_]*\)(.*/\1/p' callers/c/symdemangle.h); do
    nm -D "$lib/libsymdemangle.so" | grep -q " T $call@@" || { echo "libsymdemangle.so lacks $call"; exit 1; }
    nm -g "$lib/libsymdemangle.a" | grep -q " T $call$" || { echo "libsymdemangle.a lacks $call"; exit 1; }
    case $call in *_string | *_free) continue ;; esac
    nm -g "$lib/libsymdemangle_arena.a" | grep -q " T $call$" || { echo "libsymdemangle_arena.a lacks $call"; exit 1; }
done
tests/callers/interface.py callers/c/symdemangle.h "$lib/libsymdemangle.so" tests/callers/interface.txt >"$work/out" ||
    { echo 'the interface is another than tests/callers/interface.txt says:'; cat "$work/out"; exit 1; }
echo 'names: ok'

# Found by pkg-config and by CMake
if has pkg-config 'symdemangle.pc'; then
    export PKG_CONFIG_PATH=$lib/pkgconfig
    # shellcheck disable=SC2046
    {
        LD_LIBRARY_PATH=$lib run pkg-config cc -std=c99 -Wall -Wextra -Werror $(pkg-config --cflags symdemangle) callers/c/calls.c $(pkg-config --libs symdemangle)
        ldd_of=$(LD_LIBRARY_PATH=$lib ldd "$work/pkg-config")
        grep -q "libsymdemangle.so.0.1 => $lib" <<<"$ldd_of" || { echo 'pkg-config: it is not the shared library'; exit 1; }
        run pkg-config-static cc -static -std=c99 -Wall -Wextra -Werror $(pkg-config --static --cflags symdemangle) callers/c/calls.c $(pkg-config --static --libs symdemangle)
    }
    [ "$(pkg-config --modversion symdemangle)" = "$(sed -n 's/^#define SYMDEMANGLE_VERSION_[A-Z]* \([0-9]*\)$/\1/p' callers/c/symdemangle.h | paste -sd .)" ]
fi
if has cmake 'find_package'; then
    cmake -S tests/callers -B "$work/cmake" -DCMAKE_PREFIX_PATH="$prefix" -DCALLS="$PWD/callers/c/calls.c" >"$work/out" ||
        { cat "$work/out"; exit 1; }
    cmake --build "$work/cmake" >"$work/out" || { cat "$work/out"; exit 1; }
    for program in calls_symdemangle calls_static calls_shared; do
        echo "cmake, $program: $("$work/cmake/$program" | tail -n 1)"
        "$work/cmake/$program" >/dev/null
    done
    "$work/cmake/threads_arena" "$work/symbols" >/dev/null
fi

# The wheel for Python, installed without a network into an environment of its own
python3 callers/python/wheel.py "$lib/libsymdemangle.so" "$work/wheels" >"$work/out"
SOURCE_DATE_EPOCH=1000000000 python3 callers/python/wheel.py "$lib/libsymdemangle.so" "$work/again" >"$work/out"
SOURCE_DATE_EPOCH=1000000000 python3 callers/python/wheel.py "$lib/libsymdemangle.so" "$work/again/again" >"$work/out"
cmp "$work"/again/*.whl "$work"/again/again/*.whl
python3 -m venv "$work/venv"
"$work/venv/bin/pip" install --quiet --no-index --disable-pip-version-check "$work"/wheels/*.whl
(cd "$work" && "$work/venv/bin/python" "$OLDPWD/callers/python/tests/calls.py" 2>"$work/out") || { cat "$work/out"; exit 1; }
"$work/venv/bin/python" tests/parts.py crates/check_rows/stdin "$work/symbols" ${files[@]+"${files[@]}"} >"$work/out" || { cat "$work/out"; exit 1; }
echo "parts: $(tail -n 1 "$work/out")"
echo "python: $(basename "$work"/wheels/*.whl): ok"

# The package for Go as it was installed, over the library that pkg-config finds
if has go 'the package for Go' && has pkg-config 'the package for Go'; then
    cp -r "$prefix/share/symdemangle/go" "$work/go"
    cp callers/go/symdemangle_test.go "$work/go"
    (cd "$work/go" && LD_LIBRARY_PATH=$lib PKG_CONFIG_PATH=$lib/pkgconfig GOCACHE=$work/gocache GOFLAGS=-mod=mod GOPROXY=off go test ./... >"$work/out" 2>&1) ||
        { cat "$work/out"; exit 1; }
    [ -z "$(gofmt -l callers/go)" ] || { echo "callers/go isn't in gofmt's layout"; exit 1; }
    echo 'go: ok'
fi

# The crate for cargo as it was installed, over the installed archive, without the kit. cargo requires the crate cc, which Debian has as
# librust-cc-dev, though nothing is compiled.
if has cargo 'the crate for cargo' && { compgen -G '/usr/share/cargo/registry/cc-*' >/dev/null || { echo "librust-cc-dev isn't installed: the crate for cargo isn't tested"; false; }; }; then
    cp -r "$prefix/share/symdemangle/rust" "$work/crate"
    cp -r callers/rust/tests "$work/crate/tests"
    crate() { cargo --config tests/callers/debian_crates.toml "$@" --offline --manifest-path "$work/crate/Cargo.toml"; }
    SYMDEMANGLE_DIR="$lib" CARGO_TARGET_DIR="$work/target" crate test --quiet
    SYMDEMANGLE_DIR="$work" CARGO_TARGET_DIR="$work/unlinked" crate check --quiet --features unlinked
    if SYMDEMANGLE_DIR="$work" CARGO_TARGET_DIR="$work/unlinked" crate check 2>"$work/out"; then
        echo 'the crate builds without a library'; exit 1
    fi
    grep -q "there is no libsymdemangle.a in \[\"$work\"\]" "$work/out" || { cat "$work/out"; exit 1; }
fi

# A library that is older than its callers: they do without what the library doesn't know
older=$work/older
mkdir -p "$older/parts"
renamed=()
for call in text texts filter count press string; do renamed+=(--redefine-sym "symdemangle_$call=later_$call"); done
(cd "$older/parts" && ar x "$lib/libsymdemangle.a" && for part in *.o; do objcopy "${renamed[@]}" "$part"; done)
cc -std=c99 -O1 -fPIC "${warnings[@]}" -Wpedantic -c tests/callers/older.c -o "$older/parts/older.o"
ar rcs "$older/libsymdemangle.a" "$older"/parts/*.o
cc -shared -o "$older/libsymdemangle.so.0.1" -Wl,-soname,libsymdemangle.so.0.1 -Wl,--version-script=callers/archive/names.map "$older"/parts/*.o
run 'symdemangle.hpp, older' c++ -std=c++17 "${warnings[@]}" -DOLDER callers/c/calls.cc "$older/libsymdemangle.a"
(cd "$work" && SYMDEMANGLE_LIBRARY=$older/libsymdemangle.so.0.1 "$work/venv/bin/python" "$OLDPWD/callers/python/tests/calls.py" older 2>"$work/out") ||
    { cat "$work/out"; exit 1; }
if [ -d "$work/go" ]; then
    (cd "$work/go" && SYMDEMANGLE_OLDER=1 LD_LIBRARY_PATH=$older PKG_CONFIG_PATH=$lib/pkgconfig GOCACHE=$work/gocache GOFLAGS=-mod=mod GOPROXY=off go test ./... >"$work/out" 2>&1) ||
        { cat "$work/out"; exit 1; }
fi
if [ -d "$work/crate" ]; then
    SYMDEMANGLE_OLDER=1 SYMDEMANGLE_DIR="$older" CARGO_TARGET_DIR="$work/target" crate test --quiet --test calls
fi
echo 'an older library: ok'

# Over a lent block: in a handler, without malloc; the texts are the usual library's
arena=("$lib/libsymdemangle_arena.a")
plain=(-std=gnu11 -O1 "${warnings[@]}")
cc "${plain[@]}" -DUSUAL tests/callers/arena.c -o "$work/usual" "${static[@]}"
cc "${plain[@]}" tests/callers/arena.c -o "$work/arena" "${arena[@]}"
cc "${plain[@]}" tests/callers/interrupted.c -o "$work/interrupted" "${arena[@]}"
cc "${plain[@]}" -pthread tests/callers/threads.c -o "$work/threads" "${static[@]}"
cc "${plain[@]}" -pthread -DARENA tests/callers/threads.c -o "$work/threads_arena" "${arena[@]}"
for file in "$work/symbols" ${files[@]+"${files[@]}"}; do
    "$work/usual" "$file" >"$work/texts" 2>/dev/null
    "$work/arena" "$file" $((4 << 20)) >"$work/out"
    cmp "$work/texts" "$work/out"
    for size in 16384 32768 65536; do "$work/arena" "$file" $size >/dev/null; done
    "$work/arena" "$file" >/dev/null
    sum=$("$work/interrupted" "$file" 2>/dev/null)
    [ "$("$work/interrupted" "$file" ticks)" = "$sum" ] || { echo 'calls that are interrupted answer otherwise'; exit 1; }
    [ "$("$work/threads" "$file")" = "$("$work/threads_arena" "$file")" ] || { echo 'threads answer otherwise'; exit 1; }
done
cc "${plain[@]}" -pthread -Wl,-z,now tests/callers/stack.c -o "$work/stack" "${static[@]}"
"$work/stack" "$work/symbols" >"$work/out" || { echo 'a call uses more of the stack than the header says'; cat "$work/out"; exit 1; }
cat "$work/out"
c++ -std=c++11 -O1 -rdynamic "${warnings[@]}" -Wpedantic callers/c/crash_reporter.cc -o "$work/reporter" "${arena[@]}" -ldl
if "$work/reporter" 2>"$work/out"; then echo 'the crash reporter: no fault'; exit 1; fi
[ "$(grep -c '^int app::open_box<int volatile>(app::Box<int volatile> const&, int)$' "$work/out")" -eq 3 ] && grep -qx main "$work/out" ||
    { echo 'the crash reporter:'; cat "$work/out"; exit 1; }
echo 'a lent block: ok'

# The calls of other demanglers, in programs that were written for these
c++ -std=c++11 -O1 "${warnings[@]}" tests/callers/demangles.cc -o "$work/demangles"
cc -std=c99 -O2 -shared -fPIC "${warnings[@]}" -Wpedantic -DCXA -DCPLUS -DRUSTC callers/shims/shims.c -o "$work/shims.so" "${static[@]}" -ldl
"$work/demangles" | sed 's/^/__cxa_demangle of the runtime: /'
LD_PRELOAD=$work/shims.so "$work/demangles" | sed 's/^/__cxa_demangle: /'
terminated=$(LD_DEBUG=bindings LD_DEBUG_OUTPUT=$work/bindings LD_PRELOAD=$work/shims.so bash -c '"$0" throw 2>&1 || true' "$work/demangles" 2>/dev/null)
grep -q "terminate called after throwing an instance of 'ns::Fault<int, 3>'" <<<"$terminated" || { echo "terminate: $terminated"; exit 1; }
grep -q "libstdc++.* to $work/shims.so.*__cxa_demangle" "$work"/bindings.* || { echo 'the terminate handler calls another __cxa_demangle'; exit 1; }
for program in 'nm -D -C' c++filt; do
    case $program in
        nm*) LD_PRELOAD=$work/shims.so $program "$(cc -print-file-name=libstdc++.so.6)" >"$work/out" ;;
        *) printf '_Z1fDn\n_Z1fv\n' | LD_PRELOAD=$work/shims.so $program >"$work/out" ;;
    esac
    echo "$program: $(grep -cv ' _Z\|^_Z' "$work/out") lines without a mangled name, $(grep -c ' _Z\|^_Z' "$work/out") with one"
done
# c++filt prints decltype(nullptr) where this library's text has a name
grep -qxF 'f(std::nullptr_t)' "$work/out" || { echo 'c++filt: the preloaded call was not used'; cat "$work/out"; exit 1; }
shows() { # shows TEXT VARIABLES OPTIONS NAME : what c++filt prints over the shims
    local told
    # shellcheck disable=SC2086
    told=$(env $2 LD_PRELOAD="$work/shims.so" c++filt $3 "$4")
    [ "$told" = "$1" ] || { echo "c++filt $3 $4, $2: $told"; exit 1; }
}
shows 'f(int)' '' '' _Z1fi
shows f '' -p _Z1fi
shows int '' -t i
shows i '' '' i
shows foo::bar '' '' _RNvC3foo3bar
shows '<test>' '' '' '_ZN13_$LT$test$GT$17h0123456789abcdefE'
shows foo::bar::h0123456789abcdef '' '-s gnu-v3' _ZN3foo3bar17h0123456789abcdefE
shows _RNvC3foo3bar '' '-s gnu-v3' _RNvC3foo3bar
shows _Z1fv '' '-s rust' _Z1fv
shows _D3foo3barFiZv '' '-s dlang' _D3foo3barFiZv
shows 'foo.bar(int)' SYMDEMANGLE_NEXT=1 '-s dlang' _D3foo3barFiZv
shows '__Z1fv' SYMDEMANGLE_NEXT=0 '' __Z1fv
echo 'c++filt, its options and what is forwarded: ok'

# rustc_demangle, in a program that knows only its declaration, and in a packaged program that loads the library by its name: Hotspot's
# parser of perf's records (1.6; 1.3 has no such call). PERFPARSER names this parser, or a script that runs it, where it isn't in its usual
# folder.
if has rustc 'rustc_demangle'; then
    cc -std=c99 -O2 -shared -fPIC "${warnings[@]}" -Wpedantic -DRUSTC callers/shims/shims.c -o "$work/librustc_demangle.so" "${static[@]}"
    rustc --edition 2024 -O -g -C symbol-mangling-version=v0 -L "$work" tests/callers/rustc_demangle.rs -o "$work/rust_names"
    export LD_LIBRARY_PATH=$work
    "$work/rust_names" >"$work/out" || exit 1
    echo "rustc_demangle: $(cat "$work/out")"
    nm "$work/rust_names" | awk '$3 ~ /^_R/ { print $3 }' >"$work/names"
    "$work/rust_names" names <"$work/names" >"$work/out"
    if [ ! -s "$work/out" ] || grep '^_R' "$work/out"; then echo 'rustc_demangle: names that stay mangled'; exit 1; fi
    echo "rustc_demangle: the $(wc -l <"$work/names") symbols of a program, as rustfilt: $(rustfilt <"$work/names" 2>/dev/null |
        paste -d '\n' - "$work/out" | awk 'NR % 2 { its = $0; next } $0 == its { same++ } END { print same + 0 }')"
    parser=${PERFPARSER:-/usr/libexec/hotspot-perfparser}
    if [ -x "$parser" ] && has perf 'rustc_demangle in Hotspot' && HOME=$work perf record -q -e cpu-clock:u -o "$work/perf.data" "$work/rust_names" work >"$work/out"; then
        "$parser" --input "$work/perf.data" --output "$work/parsed" 2>"$work/out" || { cat "$work/out"; exit 1; }
        grep -qaF '<rustc_demangle::Deep<u32>>::work' "$work/parsed" || { echo 'Hotspot: the name stays mangled'; exit 1; }
        echo 'rustc_demangle in Hotspot: ok'
    else
        echo "Hotspot isn't installed, or perf records nothing here: rustc_demangle isn't tested in it"
    fi
    unset LD_LIBRARY_PATH
fi

python3 tests/examples.py "$prefix"
echo ok
