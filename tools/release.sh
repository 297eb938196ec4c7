#!/bin/bash
# Makes what is released of a proved tree: a tarball with the programs, the libraries, headers, man pages, completions and documents; Debian
# packages of the same (the shared library, what links it, the programs); dist/ as a tarball; and the checksums of all these.
# tools/language_packages.sh makes the packages of the languages.
#
#   tools/release.sh OUT
#
# The tree has to be committed, and proved: `rt run` in crates/symfilt and crates/demangle and `rt lib` in crates/symdemangle have built
# what the tree has now. The same commit gives the same bytes each time, with the same compiler, binutils, tar, gzip and dpkg; all times are
# SOURCE_DATE_EPOCH, or the commit's time where that isn't set. MAINTAINER is whom the Debian package names, as `Name <address>`. The C
# files of dist/ have to be of this tree, unless OLD_DIST is `passes`, for tests.
set -euo pipefail
[ $# -eq 1 ] || { echo "usage: $0 OUT" >&2; exit 2; }
mkdir -p "$1"
out=$(cd "$1" && pwd)
cd "$(dirname "$0")/.."
umask 022
export LC_ALL=C TZ=UTC

refuse() {
    echo "$0: $*" >&2
    exit 1
}
git rev-parse --verify -q HEAD >/dev/null || refuse "this is no git repository with a commit, so nothing says what is released"
[ -z "$(git status --porcelain)" ] || refuse "the tree isn't what was committed; see \`git status\`"
[ "${OLD_DIST-}" = passes ] || { grep -qx "sources: $(tools/portable/sources.sh)" dist/MANIFEST && ! grep -q 'not proved' dist/MANIFEST; } ||
    refuse "dist isn't of this tree: \`tools/portable/make.sh dist\` makes it anew"
(cd dist && grep -E '^[0-9a-f]{64}  ' MANIFEST | sha256sum --quiet --check) >/dev/null 2>&1 ||
    refuse "a file of dist was changed by hand: \`tools/portable/make.sh dist\` makes it anew"
for program in symfilt demangle; do
    [ -x crates/$program/out/$program ] || refuse "$program isn't built: \`rt run -- _RNvC3foo3bar\` in crates/$program proves and builds it"
done
[ -f crates/symdemangle/out/libsymdemangle.a ] || refuse "the library isn't built: \`rt lib\` in crates/symdemangle proves and builds it"
# Each command is quick if what was built is of this source. Otherwise it proves the program or the library, or fails.
for program in symfilt demangle; do
    (cd crates/$program && rt run -- _RNvC3foo3bar) >/dev/null || refuse "$program isn't proved"
done
(cd crates/symdemangle && rt lib) >/dev/null || refuse "the library isn't proved"

SOURCE_DATE_EPOCH=${SOURCE_DATE_EPOCH:-$(git log -1 --format=%ct)}
export SOURCE_DATE_EPOCH
version=$(sed -n 's/^#define SYMDEMANGLE_VERSION_[A-Z]* \([0-9]*\)$/\1/p' callers/c/symdemangle.h | paste -sd .)
[ "$({ crates/symfilt/out/symfilt --version 2>&1 || true; } | sed 's/^symfilt \([0-9.]*\) .*/\1/')" = "$version" ] ||
    refuse "the version of symfilt isn't the header's, $version"
[ "$(crates/demangle/out/demangle --version | sed 's/^demangle \([0-9.]*\) .*/\1/')" = "$version" ] ||
    refuse "the version of demangle isn't the header's, $version"
work=$(mktemp -d)
trap 'rm -rf "$work"' EXIT

# The tarball: to be unpacked over /usr/local.
whole=symdemangle-$version-x86_64-linux
DESTDIR=$work/tar PREFIX=/usr/local LIBDIR=lib tools/install.sh
mv "$work/tar/usr/local" "$work/$whole"
strip "$work/$whole/bin/symfilt" "$work/$whole/bin/demangle"
tar -C "$work" --sort=name --mtime="@$SOURCE_DATE_EPOCH" --owner=0 --group=0 --numeric-owner --format=gnu -cf - "$whole" |
    gzip -9n >"$out/$whole.tar.gz"

# The Debian packages, with the words of the recipe.
recipe=dist/packaging/debian
root=$work/root
lib=usr/lib/x86_64-linux-gnu
maintainer=${MAINTAINER:-symdemangle <symdemangle@localhost>}
DESTDIR=$root PREFIX=/usr LIBDIR=${lib#usr/} tools/install.sh
strip "$root/usr/bin/symfilt" "$root/usr/bin/demangle"
mkdir -p "$root/usr/share/zsh/vendor-completions"
mv "$root/usr/share/zsh/site-functions"/_* "$root/usr/share/zsh/vendor-completions"
rmdir "$root/usr/share/zsh/site-functions"
rm "$root"/usr/share/doc/symdemangle/{LICENSE-MIT,LICENSE-APACHE,CHANGELOG.md}
gzip -9n "$root"/usr/share/man/man1/*.1
abi=$(readlink "$root/$lib/libsymdemangle.so")
abi=${abi#libsymdemangle.so.}

take() { # take PACKAGE PATH.. : moves what was installed into a package
    local package=$1 path
    shift
    for path; do
        mkdir -p "$work/$package/$(dirname "$path")"
        mv "$root/$path" "$work/$package/$path"
    done
}
take "libsymdemangle$abi" "$lib/libsymdemangle.so.$abi" "$lib/libsymdemangle.so.$version"
take libsymdemangle-dev "$lib" usr/include usr/share/symdemangle
find "$root" -type d -empty -delete
take symdemangle usr
mkdir -p "$work/libsymdemangle$abi/DEBIAN"
printf 'activate-noawait ldconfig\n' >"$work/libsymdemangle$abi/DEBIAN/triggers"
printf 'libsymdemangle %s libsymdemangle%s (>= %s)\n' "$abi" "$abi" "$version" >"$work/libsymdemangle$abi/DEBIAN/shlibs"

documents() { # documents FOLDER : the copyright and the two changelogs of a package
    mkdir -p "$1"
    gzip -9nc CHANGELOG.md >"$1/changelog.gz"
    printf 'symdemangle (%s-1) unstable; urgency=medium\n\n  * Version %s; see changelog.gz.\n\n -- %s  %s\n' "$version" "$version" \
        "$maintainer" "$(date -R -d "@$SOURCE_DATE_EPOCH")" | gzip -9n >"$1/changelog.Debian.gz"
    cp $recipe/copyright "$1/copyright"
}
needed_libc() { # needed_libc FILE.. : the newest glibc that files ask for
    objdump -T "$@" | sed -n 's/.*(\?GLIBC_\([0-9][0-9.]*\)).*/\1/p' | sort -V | tail -n 1
}
field() { # field PACKAGE NAME : a field of a package in the recipe, with the lines that continue it
    awk -v package="$1" -v name="$2:" '/^Package:/ { ours = $2 == package } /^[^ ]/ { on = ours && $1 == name } on' $recipe/control
}
deb() { # deb PACKAGE RELATION.. : the package of its folder
    local folder=$work/$1 package=$1 file="$1_${version}-1_amd64.deb"
    shift
    documents "$folder/usr/share/doc/$package"
    mkdir -p "$folder/DEBIAN"
    {
        printf 'Package: %s\nSource: symdemangle\nVersion: %s-1\nPriority: optional\nArchitecture: amd64\n' "$package" "$version"
        printf 'Maintainer: %s\nInstalled-Size: %s\n' "$maintainer" "$(du -k --apparent-size -s "$folder/usr" | cut -f 1)"
        printf '%s\n' "$@"
        for name in Section Multi-Arch Description; do field "$package" $name; done
    } | sed '/^$/d' >"$folder/DEBIAN/control"
    (cd "$folder" && find usr -type f | sort | xargs md5sum >DEBIAN/md5sums)
    find "$folder" -depth -exec touch -h -d "@$SOURCE_DATE_EPOCH" {} +
    dpkg-deb --root-owner-group -Zxz --build "$folder" "$out/$file" >/dev/null
    released+=("$file")
}
released=("$whole.tar.gz")
deb "libsymdemangle$abi" "Depends: libc6 (>= $(needed_libc "$work/libsymdemangle$abi/$lib/libsymdemangle.so.$version"))"
deb libsymdemangle-dev "Depends: libsymdemangle$abi (= $version-1)" 'Suggests: symdemangle'
deb symdemangle "Depends: libc6 (>= $(needed_libc "$work"/symdemangle/usr/bin/*))"

# What builds anywhere with a C compiler: what is committed of dist/, in the order of its names.
if [ -f dist/symdemangle.c ]; then
    git ls-files -z dist | tar -C "$PWD" --transform="s|^dist|symdemangle-$version|" --mtime="@$SOURCE_DATE_EPOCH" --owner=0 --group=0 \
        --numeric-owner --mode=go=rX,u+rw --format=gnu --null -T - -cf - | gzip -9n >"$out/symdemangle-c-$version.tar.gz"
    released+=("symdemangle-c-$version.tar.gz")
fi

(cd "$out" && sha256sum "${released[@]}" | tee SHA256SUMS)
