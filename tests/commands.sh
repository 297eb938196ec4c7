#!/bin/bash
# Tests README's commands of "Get it", and the gate: tests/commands.sh [-n].
#
# README's commands are typed as README has them, in their order, in a clean clone of what is committed. Each command has to print what is
# wanted of it below. With -n no command is run: the script only checks that each command begins at the top of the repository, enters
# folders that exist, and leaves its reader at the top. The commands take some ten minutes of processor time. The gate (.ci/run) is run over
# stand-ins for what it calls: it has to fail where one of these fails, and where `rt ci` passes with an edit that tests nothing.
set -u
cd "$(dirname "$0")/.." || exit 2
work=$(mktemp -d)
trap 'rm -rf "$work"' EXIT
mapfile -t commands < <(sed -n '/^## Get it/,/^## [^G]/ s/^    //p' README.md)
# what each command except the gate has to print; `*` is anything
wanted=('*' 'at foo::bar(int)' '*' 'f()' 'at foo::bar(int)' 'each row holds')

git -c advice.detachedHead=false clone -q . "$work/clone" && cd "$work/clone" || exit 2
echo 'at _ZN3foo3barEi' >crash.log
tried=0 failed=0
fails() { # fails WORDS
    failed=$((failed + 1))
    echo "$*"
}
for command in ${commands[@]+"${commands[@]}"}; do
    said=
    [[ $command != *.ci/run* ]] || continue
    tried=$((tried + 1))
    folder=$(sed -nE 's/^(\(cd|make -C) ([^ ]*) .*/\2/p' <<<"$command")
    [ -d "${folder:-.}" ] && bash -n -c "$command" || { fails "not from the top: $command"; continue; }
    [[ $command != cd\ * ]] || { fails "the next command begins elsewhere: $command"; continue; }
    [ "${1-}" != -n ] || continue
    if ! said=$(bash -c "$command" 2>"$work/err") || [[ $said != ${wanted[tried - 1]-} ]]; then
        fails "$ $command"$'\n'"$said"$'\n'"wanted: ${wanted[tried - 1]-}"
        tail -n 5 "$work/err"
    fi
done
[ $tried -eq ${#wanted[@]} ] || fails "README has $tried commands, and ${#wanted[@]} are known here"
[[ ${commands[*]-} == *.ci/run* ]] || fails "README doesn't name the gate, .ci/run"

# The gate: each stand-in ends with a given status, and the stand-in for rt prints what the real rt would.
mkdir "$work/bin"
printf '#!/bin/sh\necho "$SAID"\nexit "$RT"\n' >"$work/bin/rt"
printf '#!/bin/sh\nexit "$LIBRARY"\n' >tests/library.py
printf '#!/bin/sh\nexit "$ALL"\n' >tests/all.sh
chmod +x "$work/bin/rt" tests/library.py tests/all.sh
gate() { # gate PASSES|FAILS RT SAID LIBRARY ALL : checks how the gate ends over these stand-ins
    local ended=PASSES
    RT=$2 SAID=$3 LIBRARY=$4 ALL=$5 PATH=$work/bin:$PATH bash .ci/run >"$work/out" 2>&1 || ended=FAILS
    [ $ended = "$1" ] || fails ".ci/run $ended with rt ci $2 ($3), tests/library.py $4 and tests/all.sh $5"
}
gate PASSES 0 '3 passed, 0 failed' 0 0
gate FAILS 1 '3 passed, 1 failed' 0 0
gate FAILS 0 '3 passed, 0 failed' 1 0
gate FAILS 0 '3 passed, 0 failed' 0 1
gate FAILS 0 $'rt: crates/some/must-fail/one.edit: BAD EDIT: it did not reach the prover\n3 passed, 0 failed' 0 0
echo "$tried commands and the gate, $failed fail"
[ $failed -eq 0 ]
