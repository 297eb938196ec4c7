#!/bin/bash
# Prints one sum over all that dist/ is made of, as the files are in a tree: crates with their proofs, the C files and headers, the
# translator.
#
#   tools/portable/sources.sh [TREE]
#
# MANIFEST of dist/ has the sum of the tree that dist/ was made of. The script needs git, and no kit.
set -euo pipefail
cd "${1:-$(dirname "$0")/../..}"
git ls-files -z -- crates crates.txt callers/archive callers/c tools/portable docs/demangle.1 docs/symfilt.1 'LICENSE-*' |
    LC_ALL=C sort -z | xargs -0 sha256sum | sha256sum | cut -d ' ' -f 1
