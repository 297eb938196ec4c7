#!/bin/bash
# Installs everything under a folder of its own, tries what is there, and removes it again. Then the script makes the release twice,
# compares both, and unpacks the packages: tests/packages.sh. It needs a committed, proved tree, as tools/release.sh does, and dpkg. What
# isn't installed (mandoc, mandb, cmake, pkg-config, lintian) is named, and its tests are left out.
set -euo pipefail
cd "$(dirname "$0")/.."
work=$(mktemp -d)
trap 'rm -rf "$work" docs/not-committed' EXIT

fail() {
    echo "$*"
    exit 1
}

has() { # has PROGRAM WHAT : whether a program is installed
    command -v "$1" >/dev/null || { echo "$1 isn't installed: $2 isn't tested"; return 1; }
}

# Each place that has a version has the same one.
version=$(sed -n 's/^#define SYMDEMANGLE_VERSION_[A-Z]* \([0-9]*\)$/\1/p' callers/c/symdemangle.h | paste -sd .)
grep -q "^version = \"$version\"$" callers/rust/Cargo.toml || fail "callers/rust/Cargo.toml isn't of version $version"
grep -q "^__version__ = \"$version\"$" callers/python/symdemangle/__init__.py || fail "callers/python isn't of version $version"
grep -q "^\.TH SYMFILT 1 [0-9-]* \"symdemangle $version\"" docs/symfilt.1 || fail "docs/symfilt.1 isn't of version $version"
grep -q "^SYMDEMANGLE_${version%.*} {$" callers/archive/names.map || fail "callers/archive/names.map isn't of version $version"
[ "$(sed -n 's/^## \([0-9.]*\).*/\1/p' CHANGELOG.md | head -n 1)" = "$version" ] || fail "CHANGELOG.md begins with another version than $version"
grep -q "^\.TH DEMANGLE 1 [0-9-]* \"symdemangle $version\"" docs/demangle.1 || fail "docs/demangle.1 isn't of version $version"
# this is mandoc's most frequent complaint about a page; it is tested also where mandoc isn't installed
long=$(LC_ALL=C awk 'length > 80 { print FILENAME ":" FNR }' docs/symfilt.1 docs/demangle.1)
[ -z "$long" ] || fail "lines of more than 80 bytes: $long"
! has mandoc 'the layout of the manual pages' || [ -z "$(mandoc -T lint docs/symfilt.1 docs/demangle.1 | tee /dev/stderr)" ] || fail 'the manual pages'
if has mandb 'that apropos finds the pages'; then
    mkdir -p "$work/man/man1" && cp docs/symfilt.1 docs/demangle.1 "$work/man/man1" && mandb -q -c "$work/man"
    [ "$(apropos -M "$work/man" demangle | sed -n 's/ (1).*//p' | sort | paste -sd ' ')" = 'demangle symfilt' ] || fail "apropos doesn't find the pages"
fi

# All is installed into a package's folder and then removed: what was there before stays, and nothing else.
root=$work/root
mkdir -p "$root/opt/it/lib64" && touch "$root/opt/it/lib64/other"
DESTDIR=$root PREFIX=/opt/it LIBDIR=lib64 tools/install.sh
[ "$(echo 'at _RNvC3foo3bar' | "$root/opt/it/bin/symfilt")" = 'at foo::bar' ] || fail 'the installed program'
[ "$(echo 'at _RNvC3foo3bar' | "$root/opt/it/bin/demangle")" = 'at foo::bar' ] || fail 'the installed demangle'
for file in bin/symfilt bin/demangle share/man/man1/demangle.1 include/symdemangle.h lib64/libsymdemangle.a lib64/libsymdemangle.so lib64/pkgconfig/symdemangle.pc \
    lib64/cmake/symdemangle/symdemangleConfig.cmake share/man/man1/symfilt.1 share/doc/symdemangle/LICENSE-MIT \
    share/doc/symdemangle/LICENSE-APACHE share/doc/symdemangle/docs/GRAMMARS.md share/doc/symdemangle/docs/callers/C.md \
    share/symdemangle/rust/Cargo.toml share/symdemangle/python/symdemangle/__init__.py share/symdemangle/go/symdemangle.go; do
    [ -s "$root/opt/it/$file" ] || fail "$file wasn't installed"
done
! grep -rqF "$work" "$root" || fail 'an installed file names the folder that it was built in'
dead=$(cd "$root/opt/it/share/doc/symdemangle" && find . -name '*.md' | while read -r page; do
    grep -o '](\([^)#]*\)[#)]' "$page" | sed 's/^](//; s/[#)]$//' | grep -v '^$\|^[a-z]*:' |
        while read -r to; do [ -e "$(dirname "$page")/$to" ] || echo "$page: $to"; done
done)
[ -z "$dead" ] || fail "installed documents link to what isn't installed: $dead"
DESTDIR=$root PREFIX=/opt/it LIBDIR=lib64 tools/install.sh --uninstall
left=$(cd "$root/opt/it" && find . -not -type d)
[ "$left" = ./lib64/other ] || fail "left behind: $left"
for wrong in '--what' 'relative'; do
    if tools/install.sh "$wrong" 2>/dev/null; then fail "tools/install.sh takes $wrong"; fi
done

# The release is made twice, at different times and from different folders. tests/portable.sh tests whether dist/ was made from this tree.
export OLD_DIST=passes
tools/release.sh "$work/one" >/dev/null
sleep 1
(umask 077 && TZ=Asia/Tokyo tools/release.sh "$work/another/one" >/dev/null)
diff -r "$work/one" "$work/another/one" || fail 'the release has other bytes the second time'
(cd "$work/one" && sha256sum --quiet -c SHA256SUMS)
mkdir "$work/tar" "$work/c"
tar -C "$work/tar" --strip-components=1 -xzf "$work"/one/symdemangle-[0-9]*.tar.gz
# The C files are whole; tests/packaged.sh builds them.
tar -C "$work/c" --strip-components=1 -xzf "$work"/one/symdemangle-c-*.tar.gz
(cd "$work/c" && grep -E '^[0-9a-f]{64}  ' MANIFEST | sha256sum --quiet -c) || fail 'the tarball of dist'
for package in "$work"/one/*.deb; do dpkg-deb -x "$package" "$work/deb"; done
for program in "$work/tar/bin/symfilt" "$work/deb/usr/bin/symfilt" "$work/tar/bin/demangle" "$work/deb/usr/bin/demangle"; do
    [ "$("$program" _Z1fv)" = 'f()' ] || fail "$program"
done
for lib in "$work/tar/lib" "$work/deb/usr/lib/x86_64-linux-gnu"; do
    cc -std=c99 -I callers/c callers/c/calls.c "$lib/libsymdemangle.a" -o "$work/calls"
    "$work/calls" >/dev/null
done
# CMake finds the library in the tarball, wherever the tarball is unpacked, and pkg-config finds it in the package, as in a system's root.
if has cmake 'what CMake finds'; then
    cmake -S tests/callers -B "$work/cmake" -DCMAKE_PREFIX_PATH="$work/tar" -DCALLS="$PWD/callers/c/calls.c" >"$work/out" &&
        cmake --build "$work/cmake" >>"$work/out" || fail "cmake: $(cat "$work/out")"
    for program in symdemangle static shared; do "$work/cmake/calls_$program" >/dev/null || fail "cmake, $program"; done
fi
if has pkg-config 'what pkg-config finds'; then
    found() { PKG_CONFIG_SYSROOT_DIR=$work/deb PKG_CONFIG_LIBDIR=$work/deb/usr/lib/x86_64-linux-gnu/pkgconfig pkg-config "$@"; }
    # shellcheck disable=SC2046
    cc -std=c99 $(found --cflags symdemangle) callers/c/calls.c $(found --libs symdemangle) -o "$work/calls"
    LD_LIBRARY_PATH=$work/deb/usr/lib/x86_64-linux-gnu "$work/calls" >/dev/null || fail 'pkg-config'
fi

# The Debian packages are installed into a root of their own and removed again.
if [ "$(id -u)" -eq 0 ]; then
    mkdir -p "$work/root2/var/lib/dpkg/updates" "$work/root2/var/lib/dpkg/info" && touch "$work/root2/var/lib/dpkg/status"
    inside() { dpkg --root="$work/root2" --log=/dev/null --force-depends --force-script-chrootless "$@" >"$work/out" 2>&1 || fail "dpkg $1: $(cat "$work/out")"; }
    inside -i "$work"/one/*.deb
    [ "$("$work/root2/usr/bin/symfilt" _Z1fv)" = 'f()' ] || fail 'the packages that were installed'
    inside -V libsymdemangle0.1 libsymdemangle-dev symdemangle
    [ ! -s "$work/out" ] || fail "files of the packages that aren't as they say: $(cat "$work/out")"
    inside -P libsymdemangle0.1 libsymdemangle-dev symdemangle
    left=$(cd "$work/root2" && find . -path ./var/lib/dpkg -prune -o -not -type d -print)
    [ -z "$left" ] || fail "the packages left behind: $left"
else
    echo "this isn't root: that dpkg installs the packages isn't tested"
fi
for package in "$work"/one/*.deb; do dpkg-deb -I "$package" | sed -n 's/^ \(Package\|Version\|Depends\)/\1/p'; done
if has lintian 'what lintian finds in the packages'; then
    lintian --allow-root --fail-on error,warning --suppress-tags bogus-mail-host,bogus-mail-host-in-debian-changelog,initial-upload-closes-no-bugs \
        "$work"/one/*.deb 2>/dev/null || fail 'lintian finds errors or warnings'
fi

# A tree with files that aren't committed isn't released.
touch docs/not-committed
if tools/release.sh "$work/two" 2>"$work/err"; then rm docs/not-committed; fail 'a changed tree was released'; fi
rm docs/not-committed
grep -q "isn't what was committed" "$work/err" || fail "release.sh refused, but said: $(cat "$work/err")"
echo ok
