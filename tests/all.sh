#!/bin/bash
# Runs the other scripts over the programs and the library that are in crates/*/out, and prints a line for each:
#
#   tests/all.sh [-b] [-q] [-s SYMBOLS].. [-r REFERENCE] [-m MODULE] [NAME..]
#
#   -b            uses programs and library as they are, as `.ci/run` does; without -b the script asks rt whether they were built from these sources
#   -q            leaves out what takes minutes: packages, other machines, a browser
#   -s SYMBOLS    a file of symbols, one a line; without such a file they are taken from the installed libraries (bench/inputs.sh)
#   -r REFERENCE  another implementation with the same command line, for compare.py and fuzz.py
#   -m MODULE     another implementation as a module of Python, for costs.py
#   NAME          the lines that are run, as `callers packages`; without names all
#
# A line is `ok`, `FAILED` with the end of what the script printed, or `left out` with what is missing. The next lines are what the script
# itself left out. The last lines are the names of all scripts that failed or were left out, and how many there are of each. The status is 1
# where one failed, 2 where the programs or the library aren't built.
set -u
usage() {
    echo "usage: $0 [-b] [-q] [-s SYMBOLS].. [-r REFERENCE] [-m MODULE] [NAME..]" >&2
    exit 2
}
as_built=no
is_quick=no
reference=
module=
symbols=()
while getopts bqs:r:m: option; do
    case $option in
        b) as_built=yes ;;
        q) is_quick=yes ;;
        s) symbols+=("$(realpath "$OPTARG")") ;;
        r) reference=$(realpath "$OPTARG") ;;
        m) module=$(realpath "$OPTARG") ;;
        *) usage ;;
    esac
done
shift $((OPTIND - 1))
wanted=" $* "
for file in ${symbols[@]+"${symbols[@]}"} $reference $module; do
    [ -s "$file" ] || { echo "$0: there is nothing in $file" >&2; exit 2; }
done
cd "$(dirname "$0")/.." || exit 2
symfilt=$PWD/crates/symfilt/out/symfilt
demangle=$PWD/crates/demangle/out/demangle
library=crates/symdemangle/out/libsymdemangle.a
check_rows=crates/check_rows/out/check_rows
[ -x "$symfilt" ] || { echo "$0: no $symfilt: \`rt run -- _RNvC3foo3bar\` in crates/symfilt proves and builds it" >&2; exit 2; }
[ -x "$demangle" ] || { echo "$0: no $demangle: \`rt run -- _RNvC3foo3bar\` in crates/demangle proves and builds it" >&2; exit 2; }
[ -f "$library" ] || { echo "$0: no $library: \`rt lib\` in crates/symdemangle proves and builds it" >&2; exit 2; }
work=$(mktemp -d)
trap 'rm -rf "$work"' EXIT

if [ $as_built = yes ]; then
    # an rt that refuses to build, and forwards all else to the real rt
    mkdir "$work/path"
    printf '#!/bin/sh\ncase $1 in run | lib) ;; *) exec "%s" "$@" ;; esac\n' "$(command -v rt)" >"$work/path/rt"
    chmod +x "$work/path/rt"
    PATH=$work/path:$PATH
fi
if [ ${#symbols[@]} -eq 0 ] && bench/inputs.sh "$work/inputs" >"$work/log" 2>&1; then
    for language in cpp rust; do
        # 2,000 of them, evenly
        awk -v all="$(wc -l <"$work/inputs/$language.txt")" 'NR * 2000 % all < 2000' "$work/inputs/$language.txt" >"$work/$language"
        [ ! -s "$work/$language" ] || symbols+=("$work/$language")
    done
fi
grep -haE $'^(text|refused|press)\t' crates/check_rows/stdin | tr '\t' '\n' | grep -aE '^_(Z|R)[A-Za-z0-9_.$]+$' | sort -u >"$work/rows"
cat "$work/rows" ${symbols[@]+"${symbols[@]}"} >"$work/symbols"

ok=0 failed=() out=()
told() { # told STATE NAME WORDS
    printf '%-8s  %-14s  %s\n' "$1" "$2" "$3"
}
chosen() { # chosen NAME : whether a line is run
    [ "$wanted" = '  ' ] || [[ $wanted == *" $1 "* ]]
}
try() { # try NAME COMMAND..
    local name=$1 start=$SECONDS
    chosen "$name" || return 0
    shift
    # a script that hangs is ended
    [ "$(type -t "$1")" = function ] || set -- timeout 1800 "$@"
    if "$@" >"$work/log" 2>&1; then
        ok=$((ok + 1))
        told ok "$name" "$((SECONDS - start)) s: $(tail -n 1 "$work/log")"
    else
        failed+=("$name")
        told FAILED "$name" "$((SECONDS - start)) s"
        tail -n 20 "$work/log" | sed 's/^/          /'
    fi
    grep -a "n't installed\|isn't tested" "$work/log" | sed 's/^/          left out in it: /'
    grep -a '^notice: ' "$work/log" | sed 's/^/          /'
}
leave() { # leave NAME WHY
    chosen "$1" || return 0
    out+=("$1")
    told 'left out' "$1" "$2"
}
long_ones() { # packages, other machines and the page, which take minutes
    local made=()
    if ! command -v dpkg >/dev/null; then
        leave packages "dpkg isn't installed"
    elif [ -n "$(git status --porcelain)" ]; then
        leave packages "what isn't committed isn't released"
    else
        try packages tests/packages.sh
    fi
    # the module for WebAssembly, which the package for JavaScript and the page use; without it, each of the two makes the module itself, or
    # says why it can't
    if { chosen packaged || chosen web; } && command -v wasm-opt >/dev/null && web/module/make.sh "$work/page" >"$work/log" 2>&1; then
        made=(-w "$work/page")
    fi
    try packaged tests/packaged.sh ${made[@]+"${made[@]}"}
    if [ -f dist/symdemangle.c ]; then
        try portable tests/portable.sh -q ${symbols[@]+"${symbols[@]}"}
    else
        leave portable "there is no dist: tools/portable/make.sh makes it"
    fi
    if command -v node >/dev/null && command -v wasm-opt >/dev/null; then
        try web tests/web.sh ${made[@]+"${made[@]}"} -p "$symfilt" -d "$demangle"
    else
        leave web "node or binaryen's wasm-opt isn't installed"
    fi
}
compared() { tests/compare.py "$@" <"$work/symbols"; }
costs() { tools/pack.sh "$work/packed" && tests/costs.py "$work/packed/libsymdemangle.so" "$module" <"$work/symbols"; }

try written tools/write.py --check
try tables tests/tables.py
try stored tests/stored.sh
try edges tests/edges.sh "$symfilt" "$demangle"
try process tests/process.sh "$demangle"
try rows tests/vectors.py --demangle "$demangle" "$symfilt"
try texts tests/texts.py "$symfilt" "$demangle"
try short tests/short_texts.py "$symfilt"
try gnu tests/gnu_texts.py "$demangle"
try left tests/left.py "$demangle"
try tools tests/tools.sh "$demangle"
try readme tests/readme.py "$symfilt" "$demangle"
try calls tests/fail_calls.sh "$symfilt"
if [ -x $check_rows ]; then
    try allocations tests/refuse_allocations.sh "$symfilt" $check_rows
else
    try allocations tests/refuse_allocations.sh "$symfilt"
    leave allocations "of the library's calls: \`rt run\` in crates/check_rows builds the program that makes them"
fi
try colliding tests/colliding.py "$symfilt"
try hostile tests/hostile.py "$demangle"
try json tests/json_lines.py "$demangle"
if [ -x /usr/bin/time ]; then
    try repeats tests/repeats.py "$symfilt" "$demangle"
else
    leave repeats "GNU time isn't installed"
fi
try pressed tests/pressed.py "$symfilt"
cargo=$(command -v cargo)
if [ -n "$cargo" ] && nm "$cargo" 2>/dev/null | grep -q '_ZN.*17h[0-9a-f]\{16\}E'; then
    try legacy tests/legacy.py "$symfilt" "$cargo"
else
    leave legacy "cargo isn't installed, or has no legacy Rust names"
fi
if compgen -c llvm-config >/dev/null; then
    try partial tests/partial.py "$demangle"
else
    leave partial "LLVM's library (llvm-config) isn't installed"
fi
if compgen -c llvm-dwarfdump >/dev/null; then
    try truth tests/truth.py "$symfilt"
else
    leave truth "llvm-dwarfdump isn't installed"
fi
try callers tests/callers.sh ${symbols[@]+"${symbols[@]}"}
if [ $is_quick = yes ]; then
    for name in packages packaged portable web; do
        leave $name "takes minutes: without -q"
    done
else
    long_ones
fi
if [ $as_built = yes ]; then
    try commands tests/commands.sh -n
else
    try commands tests/commands.sh
fi
if command -v parallel >/dev/null || /usr/bin/python3 -c 'import distributed' 2>/dev/null; then
    try scale tests/scale.sh "$symfilt"
else
    leave scale "neither GNU parallel nor Dask is installed"
fi
if [ -n "$reference" ]; then
    try compare compared "$symfilt" "$reference"
    try fuzz tests/fuzz.py "$symfilt" "$reference" --seconds 60
    try compare-wide compared --wide "$symfilt" "$reference"
    try fuzz-wide tests/fuzz.py "$symfilt" "$reference" --wide --lang cpp --seconds 60
else
    leave compare "no other implementation (-r)"
fi
if [ -n "$module" ]; then
    try costs costs
else
    leave costs "no other implementation as a module (-m)"
fi
[ ${#failed[@]} -eq 0 ] || echo "failed: ${failed[*]}"
[ ${#out[@]} -eq 0 ] || echo "left out: ${out[*]}"
echo "$ok ok, ${#failed[@]} failed, ${#out[@]} left out"
[ $((ok + ${#failed[@]})) -gt 0 ] || { echo "$0: nothing has such a name" >&2; exit 2; }
[ ${#failed[@]} -eq 0 ]
