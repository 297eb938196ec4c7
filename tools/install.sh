#!/bin/sh
# Installs the proved programs with their man pages and completions, the libraries with their headers, licences and documents:
#
#   tools/install.sh [PREFIX]                 under /usr/local, if no PREFIX is named here or in the environment
#   tools/install.sh --uninstall [PREFIX]     removes the same files, and the folders of its own that are left empty
#   tools/install.sh --libraries [PREFIX]     only the libraries, with headers, what finds them, and the packages for Rust, Python and Go
#
# LIBDIR in the environment is the folder of libraries under PREFIX (lib), as LIBDIR=lib64 or LIBDIR=lib/x86_64-linux-gnu. DESTDIR is a
# folder that everything is put into as if it were the root, for packages. The script proves what isn't proved yet, which takes long only
# once.
set -eu
mode=all
case ${1-} in
    --uninstall | --libraries)
        mode=${1#--}
        shift
        ;;
esac
case $#${1-} in
    0 | 1[!-]*) ;;
    *) echo "usage: $0 [--uninstall | --libraries] [PREFIX]" >&2; exit 2 ;;
esac
prefix=${1:-${PREFIX:-/usr/local}}
prefix=${prefix%/}
libdir=${LIBDIR:-lib}
case $prefix in /*) ;; *) echo "$0: PREFIX has to begin with a slash: $prefix" >&2; exit 2 ;; esac
case $libdir in /* | *..*) echo "$0: LIBDIR is a folder under PREFIX: $libdir" >&2; exit 2 ;; esac
root=${DESTDIR-}$prefix
cd "$(dirname "$0")/.."

packed=$(mktemp -d)
trap 'rm -rf "$packed"' EXIT

# Each file: its mode, where it is taken from, and where it goes under the prefix.
files() {
    cat <<LIST
644 callers/c/symdemangle.h include/symdemangle.h
644 callers/c/symdemangle.hpp include/symdemangle.hpp
644 callers/c/symdemangle_arena.h include/symdemangle_arena.h
644 $packed/libsymdemangle.a $libdir/libsymdemangle.a
644 $packed/libsymdemangle_arena.a $libdir/libsymdemangle_arena.a
644 $packed/symdemangle.pc $libdir/pkgconfig/symdemangle.pc
644 $packed/symdemangle_arena.pc $libdir/pkgconfig/symdemangle_arena.pc
644 $packed/symdemangleConfig.cmake $libdir/cmake/symdemangle/symdemangleConfig.cmake
644 $packed/symdemangleConfigVersion.cmake $libdir/cmake/symdemangle/symdemangleConfigVersion.cmake
644 callers/rust/Cargo.toml share/symdemangle/rust/Cargo.toml
644 callers/rust/README.md share/symdemangle/rust/README.md
644 callers/rust/build.rs share/symdemangle/rust/build.rs
644 callers/rust/src/lib.rs share/symdemangle/rust/src/lib.rs
644 callers/rust/src/library.rs share/symdemangle/rust/src/library.rs
644 callers/python/symdemangle/__init__.py share/symdemangle/python/symdemangle/__init__.py
644 callers/python/symdemangle/__main__.py share/symdemangle/python/symdemangle/__main__.py
644 callers/python/symdemangle/_stream.py share/symdemangle/python/symdemangle/_stream.py
644 callers/python/symdemangle/cxxfilt.py share/symdemangle/python/symdemangle/cxxfilt.py
644 callers/python/symdemangle/py.typed share/symdemangle/python/symdemangle/py.typed
644 callers/go/go.mod share/symdemangle/go/go.mod
644 callers/go/installed.go share/symdemangle/go/installed.go
644 callers/go/symdemangle.go share/symdemangle/go/symdemangle.go
LIST
    [ $mode != libraries ] || return 0
    cat <<LIST
644 callers/c/crash_reporter.cc share/doc/symdemangle/examples/crash_reporter.cc
644 callers/shims/shims.c share/doc/symdemangle/examples/shims.c
755 tools/symfilt_dask.py share/doc/symdemangle/tools/symfilt_dask.py
LIST
    for program in symfilt demangle; do
        cat <<LIST
755 crates/$program/out/$program bin/$program
644 docs/$program.1 share/man/man1/$program.1
644 tools/completions/$program.bash share/bash-completion/completions/$program
644 tools/completions/$program.fish share/fish/vendor_completions.d/$program.fish
644 tools/completions/_$program share/zsh/site-functions/_$program
LIST
    done
    for document in README.md CHANGELOG.md SECURITY.md LICENSE-MIT LICENSE-APACHE docs/GRAMMARS.md docs/PROMISES.md \
        docs/SYMFILT.md docs/CXXFILT.md docs/SPEED.md docs/SHORT_WAYS.md docs/SCALE.md docs/callers/*.md docs/*.svg; do
        [ ! -f "$document" ] || echo "644 $document share/doc/symdemangle/$document"
    done
}

# A file that a document links to and that isn't installed is named without a link. The installed package for Go has only the code that uses
# the installed library.
LOCAL='ARCHITECTURE|DECISIONS|TESTING|WORKING'
put() { # put BITS FROM TO
    case $3 in
        share/doc/*.md)
            sed -E "s@\\[([^]]*)\\]\\([^)]*($LOCAL)\\.md(#[^)]*)?\\)@\\1@g" "$2" >"$packed/document"
            install -D -m "$1" "$packed/document" "$root/$3"
            ;;
        share/symdemangle/go/installed.go)
            sed '/^\/\/go:build/{N;d}' "$2" >"$packed/installed.go"
            install -D -m "$1" "$packed/installed.go" "$root/$3"
            ;;
        *) install -D -m "$1" "$2" "$root/$3" ;;
    esac
}

# The shared library has the version in its name; the links lead to it.
version() {
    sed -n 's/^#define SYMDEMANGLE_VERSION_[A-Z]* \([0-9]*\)$/\1/p' callers/c/symdemangle.h | paste -sd .
}
real=libsymdemangle.so.$(version)
case $(version) in 0.*) name=${real%.*} ;; *) name=${real%.*.*} ;; esac

if [ $mode = uninstall ]; then
    files | while read -r _ _ to; do rm -f "$root/$to"; done
    rm -f "$root/$libdir/$real" "$root/$libdir/$name" "$root/$libdir/libsymdemangle.so"
    for folder in share/doc/symdemangle/docs/callers share/doc/symdemangle/docs share/doc/symdemangle/examples share/doc/symdemangle/tools \
        share/doc/symdemangle share/symdemangle/rust/src share/symdemangle/rust share/symdemangle/python/symdemangle \
        share/symdemangle/python share/symdemangle/go share/symdemangle "$libdir/cmake/symdemangle"; do
        [ ! -d "$root/$folder" ] || rmdir --ignore-fail-on-non-empty "$root/$folder"
    done
    exit
fi

[ $mode = libraries ] || [ -x crates/symfilt/out/symfilt ] || (cd crates/symfilt && rt run -- _RNvC3foo3bar)
[ $mode = libraries ] || [ -x crates/demangle/out/demangle ] || (cd crates/demangle && rt run -- _RNvC3foo3bar)
[ -f crates/symdemangle/out/libsymdemangle.a ] || (cd crates/symdemangle && rt lib)
tools/pack.sh "$packed" "$prefix" "$libdir"
files | while read -r bits from to; do put "$bits" "$from" "$to"; done
install -m 644 "$packed/$real" "$root/$libdir/$real"
ln -sf "$real" "$root/$libdir/$name"
ln -sf "$name" "$root/$libdir/libsymdemangle.so"
