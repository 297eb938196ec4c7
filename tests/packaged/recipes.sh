#!/bin/bash
# Tests the recipes of dist/packaging over a folder that tools/portable/make.sh made: tests/packaged/recipes.sh DIST WORK
#
# Debian's source package and the packages that it builds are made, and lintian checks them. The recipe of vcpkg is built only by CMake, and
# that of nix by nix with a stand-in for nixpkgs (stdenv.nix). The recipes of conda and Homebrew are only read. With FULL=yes in the
# environment Debian's packages are optimised and their tests run, as for a release. A tool that isn't installed is named, and its recipe is
# left out.
set -euo pipefail
cd "$(dirname "$0")/../.."
dist=$(realpath "$1")
mkdir -p "$2"
work=$(cd "$2" && pwd)
recipes=dist/packaging

has() { # has PROGRAM WHAT : whether a program is installed
    command -v "$1" >/dev/null || { echo "$1 isn't installed: $2 isn't tested"; return 1; }
}
quiet() { # quiet COMMAND.. : shows what the command prints, if the command fails
    "$@" >"$work/out" 2>&1 || { tail -n 40 "$work/out"; return 1; }
}

# Each place that has a version has the same one.
version=$(sed -n 's/^#define SYMDEMANGLE_VERSION_[A-Z]* \([0-9]*\)$/\1/p' callers/c/symdemangle.h | paste -sd .)
for line in "debian/changelog:symdemangle ($version-1)" "conda/meta.yaml:version: \"$version\"" "homebrew/symdemangle.rb:symdemangle-c-$version.tar" \
    "nix/default.nix:version = \"$version\"" "vcpkg/vcpkg.json:\"version\": \"$version\"" "../../callers/npm/package.json:\"version\": \"$version\""; do
    grep -qF "${line#*:}" "$recipes/${line%%:*}" || { echo "${line%%:*} isn't of version $version"; exit 1; }
done

! has ruby "Homebrew's recipe" || quiet ruby -c $recipes/homebrew/symdemangle.rb
if python3 -c 'import yaml' 2>/dev/null; then
    quiet python3 -c 'import sys, yaml; it = yaml.safe_load(open(sys.argv[1])); assert it["build"]["script"] and it["test"]["commands"]' $recipes/conda/meta.yaml
else
    echo "Python's yaml isn't installed: conda's recipe isn't tested"
fi
quiet python3 -m json.tool $recipes/vcpkg/vcpkg.json
source=$work/symdemangle-$version
rm -rf "$source"
cp -r "$dist" "$source"
rm -rf "$source/packaging"
cp -r $recipes "$source/packaging"
! has cmake "vcpkg's recipe" || quiet cmake "-DDIST=$source" "-DOUT=$work/vcpkg" -P tests/packaged/vcpkg.cmake

if has nix-build "nix's recipe"; then
    # nix uses a store of this test's own, which is removed afterwards
    (
        export NIX_STORE_DIR=$work/nix/store NIX_STATE_DIR=$work/nix/state NIX_LOG_DIR=$work/nix/log NIX_CONF_DIR=$work/nix NIX_REMOTE='' HOME=$work/nix
        mkdir -p "$HOME"
        quiet nix-build --option sandbox false --option build-users-group '' --no-out-link tests/packaged/stdenv.nix \
            --arg recipe "$source/packaging/nix/default.nix" --argstr path "$PATH"
    )
    [ "$("$(tail -n 1 "$work/out")/bin/demangle" _Z1fv)" = 'f()' ] || { echo "nix's program"; exit 1; }
    chmod -R u+w "$work/nix" && rm -rf "$work/nix"
fi
if has dpkg-buildpackage "Debian's recipe" && has dh "Debian's recipe"; then
    # this is what is released as symdemangle-c-VERSION.tar.gz
    tar -C "$work" --sort=name -czf "$work/symdemangle_$version.orig.tar.gz" "symdemangle-$version"
    cp -r $recipes/debian "$source/debian"
    (cd "$source" && DEB_BUILD_OPTIONS="parallel=$(nproc)${FULL:- nocheck noopt}" quiet dpkg-buildpackage -us -uc)
    for package in symdemangle libsymdemangle0.1 libsymdemangle-dev; do
        dpkg-deb -x "$work/${package}_$version-1_$(dpkg --print-architecture).deb" "$work/root"
    done
    [ "$("$work/root/usr/bin/demangle" _Z1fv)" = 'f()' ] && [ "$("$work/root/usr/bin/symfilt" _Z1fv)" = 'f()' ] || { echo "Debian's programs"; exit 1; }
    # lintian of Debian 12 doesn't know loong64 yet
    ! has lintian "what lintian finds in Debian's packages" || quiet lintian --allow-root --fail-on error,warning --suppress-tags \
        bogus-mail-host,bogus-mail-host-in-debian-changelog,initial-upload-closes-no-bugs,hardening-no-fortify-functions,unknown-architecture "$work"/*.changes
fi
echo 'recipes: ok'
