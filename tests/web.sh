#!/bin/bash
# Tests the page in a browser:
#
#   tests/web.sh [-w PAGE | -l LIBRARY] [-p SYMFILT] [-d DEMANGLE] [-s SHOTS] [-b]
#
# The script makes the page with the module of the proved library. It compares the module with the rows of crates/check_rows and with the
# programs' texts (tests/web/module.mjs, in Node). Then it uses the page as a person does (tests/web/page.mjs, in Chromium).
#
#   -w PAGE       a folder that web/module/make.sh made from the proved library; its module is tested
#   -l LIBRARY    an LLVM module of the library, in the place of the proved one
#   -p SYMFILT    the program symfilt, in the place of the proved one
#   -d DEMANGLE   the program demangle, in the place of the proved one
#   -s SHOTS      a folder that gets pictures of the page
#   -b            breaks copies of the page afterwards, one after the other: the tests have to fail on each copy
#
# A program that isn't installed (node, chromium, binaryen's wasm-opt) is named, and the tests that need it are left out.
set -euo pipefail
cd "$(dirname "$0")/.."
made= library= symfilt=crates/symfilt/out/symfilt demangle=crates/demangle/out/demangle shots= breaks=no
while getopts w:l:p:d:s:b option; do
    case $option in
        w) made=$(realpath "$OPTARG") ;;
        l) library=$(realpath "$OPTARG") ;;
        p) symfilt=$(realpath "$OPTARG") ;;
        d) demangle=$(realpath "$OPTARG") ;;
        s) mkdir -p "$OPTARG" && shots=$(realpath "$OPTARG") ;;
        b) breaks=yes ;;
        *) sed -n '4s/^#  *//p' "$0" >&2; exit 2 ;;
    esac
done
work=$(mktemp -d)
trap 'rm -rf "$work"' EXIT

has() { # has PROGRAM WHAT : whether a program is installed
    command -v "$1" >/dev/null || { echo "$1 isn't installed: $2 isn't tested"; return 1; }
}
has node 'the page' || exit 0
[ -n "$made" ] || has wasm-opt 'the page' || exit 0

${CC:-cc} -std=gnu11 -O1 -Wall -Wextra -Werror tests/web/int128.c -o "$work/int128"
"$work/int128"
page=$work/page
if [ -n "$made" ]; then
    # only the module is taken from that folder; all else is taken from this tree
    mkdir "$page"
    cp "$made/symdemangle.wasm" "$made/module.json" web/*.html web/*.css web/*.js web/*.svg web/*.webmanifest "$page"
else
    web/module/make.sh "$page" ${library:+"$library"}
fi
! grep -aE '/(home|work|root|opt|usr|tmp)/' "$page"/* || { echo 'the page names a path of this machine'; exit 1; }

symbols=$work/symbols
grep -haE $'^((wide |legacy )?(text|refused)|press)\t' crates/check_rows/stdin | tr '\t' '\n' | grep -aE '^_(Z|R)[A-Za-z0-9_.$]+$' | sort -u >"$symbols"
mkdir "$work/hostile"
for each in cpp=hostile_cpp rust=hostile_rust; do
    python3 -c "import sys; sys.path.insert(0, 'bench'); import plot; print(plot.${each#*=}(60000))" >"$work/hostile/${each%%=*}"
done

module_test() { node tests/web/module.mjs "$1" crates/check_rows/stdin "$demangle" "$symbols"; }
page_test() { node tests/web/page.mjs "$1" "$demangle" "$symfilt" "$symbols" "$work/hostile" ${2:+"$2"}; }
# Node 20 takes files named .js for modules only where a package says so.
echo '{"type": "module"}' >"$page/package.json"
module_test "$page"
! has chromium 'the page in a browser' || page_test "$page" "$shots"

# broken TEST FILE OLD NEW : the test has to fail on a page where OLD, which the file has once, is replaced by NEW
broken() {
    cp "$page/$2" "$work/whole"
    FILE=$page/$2 OLD=$3 NEW=$4 python3 -c '
import os
file, old, new = (os.environ[it] for it in ("FILE", "OLD", "NEW"))
text = open(file).read()
assert text.count(old) == 1, f"{file} has {old} {text.count(old)} times"
open(file, "w").write(text.replace(old, new))'
    if "$1" "$page" >"$work/said" 2>&1; then
        echo "not seen: in $2, $3 made ${4:-nothing}"
        exit 1
    fi
    cp "$work/whole" "$page/$2"
    echo "seen: $2: $3: $(grep -aE 'Error: |^page.mjs: ' "$work/said" | head -n 1 | cut -c1-160)"
}
if [ $breaks = yes ]; then
    broken module_test library.js 'BRIEF: 1, NO_PARAMETERS: 2' 'BRIEF: 2, NO_PARAMETERS: 1'
    broken module_test library.js 'view.getUint32(result + 8, true)' 'view.getUint32(result + 12, true)'
    broken module_test library.js '[0, 4, 8, 12, 16]' '[0, 8, 4, 12, 16]'
    broken module_test library.js '[0, 4, 8, 12, 16]' '[0, 4, 8, 16, 12]'
    broken module_test library.js '[rows, nodes, steps] = [0, 4, 8]' '[rows, nodes, steps] = [8, 4, 0]'
    broken module_test words.js 'if (kind === ESCAPE) return at - 1;' ''
    broken module_test words.js '? ESCAPE : "[;:"' '? ESCAPE : ""'
    broken module_test words.js 'return before ||' 'return 0 &&'
    broken module_test words.js 'Uint8Array.of(run[begin], 97, run.at(-1))' 'run.slice(-1)'
    broken module_test words.js 'isDot(run[at - 1]) && ' ''
    broken module_test words.js 'word[end - 1])) end -= 1;' 'word[end - 1])) break;'
    broken page_test pieces.js 'open.at(-1).end <= place' 'open.at(-1).end < place'
    broken page_test pieces.js 'part.from <= from && to <= part.to' 'part.from <= from && to < part.to'
    broken page_test pieces.js 'if (LISTS.has(role)) count = 0;' ''
    broken page_test cards.js '[...spans, ...entries]' 'entries'
    broken page_test cards.js 'lights(partAt(event) ?? chosen)' 'lights(chosen)'
    broken page_test cards.js 'ArrowDown: 1' 'ArrowDown: 2'
    broken page_test address.js 'words.includes(word)' 'false'
    broken page_test sw.js 'await kept.match(request)' 'null'
    broken page_test worker.js 'if (bytes > offset) break;' 'units += 1;'
    broken page_test worker.js 'code < 0x80 ? 1 : code < 0x800 ? 2' 'code < 0x800 ? 1'
    broken page_test words.js ' | FLAG.WITHIN |' ' |'
    broken page_test page.js 'PATIENCE = 300;' 'PATIENCE = 300_000;'
    broken page_test page.js 'if (!isStopped) ask();' 'ask();'
    broken page_test show.js '\u2028-\u202e' ''
    broken page_test job.js 'read / size' '0'
    broken page_test style.css 'form { display: grid; grid-template-columns: repeat(auto-fill, minmax(17rem, 1fr));' 'form { display: grid; grid-template-columns: repeat(3, 17rem);'
    broken page_test style.css 'prefers-color-scheme: dark' 'prefers-color-scheme: none'
    broken page_test index.html '</main>' '<img src="http://127.0.0.1:1/it.png" alt="it"></main>'
    broken page_test index.html '<label for="input">Names or a log</label>' 'Names or a log'
fi
echo 'tests/web.sh: ok'
