#!/usr/bin/env python3
"""Keeps the LLVM module that `rattle build` makes of a proved program or static library:

    tools/portable/proved_module.py CRATE_FOLDER OUT.bc

The crate is proved anew, over the checked libraries of those below it, and nothing is written in its folder. OUT.bc.proved gets
the last line of that check. rattle makes no module of a crate that isn't proved, so nothing is kept. The toolchain folder that
rattle is given is the kit's, except for a clang that copies its input, and compiles it without optimising, as only the copy is
wanted."""

import os
import subprocess
import sys
import tempfile

KIT = os.path.dirname(subprocess.check_output(["rt", "doc"], text=True).strip())
sys.path.insert(0, f"{KIT}/bin")
sys.dont_write_bytecode = True
import rtlib

CLANG = """#!/bin/bash
words=()
for it in "$@"; do
    if [ -f "$it" ] && [ "$(head -c 2 "$it" | tr -d '\\0')" = BC ]; then cp "$it" '{out}'; fi
    [ "$it" = -O3 ] && it=-O0
    words+=("$it")
done
exec '{kit}/toolchain/bin/clang' "${{words[@]}}"
"""


computed = {}
compute = rtlib.Crate.stamp


def stamp(crate):
    """A crate's sum, computed once: it has those of all crates below it."""
    if crate.folder not in computed:
        computed[crate.folder] = compute(crate)
    return computed[crate.folder]


rtlib.Crate.stamp = stamp


def is_proved(crate):
    """Whether a library was made of its files as they are. This is known by the sum that `rt check` leaves with it, or else by the times of
    the files, as `rt ci` leaves no sum."""
    if crate.is_built():
        return True
    if not os.path.isdir(crate.rlib) or os.path.exists(f"{os.path.dirname(crate.rlib)}/stamp"):
        return False
    made = os.path.getmtime(crate.rlib)
    from_ = [*rtlib.files_of(crate.folder), *(it.rlib for it in crate.below())]
    return all(os.path.getmtime(file) <= made for file in from_)


def toolchain(folder, out):
    """A toolchain folder whose clang keeps the module as `out`."""
    os.makedirs(f"{folder}/bin")
    os.symlink(f"{KIT}/toolchain/lib", f"{folder}/lib")
    for name in os.listdir(f"{KIT}/toolchain/bin"):
        if name != "clang":
            os.symlink(f"{KIT}/toolchain/bin/{name}", f"{folder}/bin/{name}")
    with open(f"{folder}/bin/clang", "w") as script:
        script.write(CLANG.format(out=out, kit=KIT))
    os.chmod(f"{folder}/bin/clang", 0o755)


def main(folder, out):
    folder, out = os.path.abspath(folder), os.path.abspath(out)
    for old in (out, f"{out}.proved"):
        if os.path.exists(old):
            os.remove(old)
    os.chdir(folder)
    crate = rtlib.Crate(folder, rtlib.root_above(folder) or folder, {}, name=None)
    for below in crate.below():
        if not is_proved(below):
            sys.exit(f"proved_module.py: {below.folder} isn't proved as it is now: `rt check` there, or `rt ci` for all")
    with tempfile.TemporaryDirectory() as work:
        toolchain(work, out)
        with open(f"{work}/said", "w+") as crate.out:
            # code for every processor of x86-64: a program for later ones begins by asking for what it needs
            words = crate.words([], keeps=False) + ["--cpu", "x86-64", "--toolchain", work, "--backend", "llvm"]
            status = crate.call(rtlib.RATTLE, "build", *words, "-o", f"{work}/made")
            crate.out.seek(0)
            said = crate.out.read()
    verdict = [line for line in said.split("\n") if line.startswith("logic=proved ")]
    if status or not verdict or not os.path.isfile(out):
        print(said, file=sys.stderr)
        if os.path.exists(out):
            os.remove(out)
        sys.exit(status or "proved_module.py: no proved module was seen")
    with open(f"{out}.proved", "w") as to:
        to.write(verdict[-1] + "\n")
    print(verdict[-1])


if len(sys.argv) != 3:
    sys.exit(__doc__)
main(*sys.argv[1:])
