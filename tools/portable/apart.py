#!/usr/bin/env python3
"""Moves what no run needs out of a function that is inlined at hundreds of places:

    tools/portable/apart.py FROM.ll TO.ll

The kit's copy of items (copy_bits) asks whether what it writes begins within what it reads. Nearly always that isn't so, and memmove
copies; otherwise a loop copies item by item. Here the copy calls a second function of the same text in the place of the loop, so that
only the question and the two calls are inlined. The script stops if copy_bits has another form."""

import re
import sys

COPY = re.compile(r'^define internal void @"(core::ptr::copy_drop::copy_bits::[^\n]*)"\(([^\n]*)\) (#\d+) \{\n(.*?)^\}\n', re.S | re.M)
# The first block, which goes to the loop or to the block with memmove.
BODY = re.compile(r"(start:\n(?:  [^\n]*\n)*?  br i1 \S+, label %(\S+), label %(\S+)\n)(.*)", re.S)


def parted(copy):
    """The function that asks, and the one that has all of the former text."""
    name, parameters, attributes, text = copy.groups()
    body = BODY.match(text)
    moves = body and re.search(rf"^{re.escape(body[3])}:.*\n  call void @llvm\.memmove\..*\n  ret void\n", body[4], re.M)
    if not moves:
        sys.exit(f"apart.py: {name} doesn't look as it did")
    given = parameters.replace(" noundef", "")
    call = f'  call void @"{name}::within"({given})\n  ret void\n'
    return (
        f'define internal void @"{name}"({parameters}) {attributes} {{\n{body[1]}\n{moves[0]}\n{body[2]}:\n{call}}}\n\n'
        f'define internal void @"{name}::within"({parameters}) cold noinline {attributes} {{\n{text}}}\n'
    )


def main(source, target):
    with open(source, errors="surrogateescape") as file:
        text, count = COPY.subn(parted, file.read())
    if not count:
        sys.exit("apart.py: there is no copy_bits")
    with open(target, "w", errors="surrogateescape") as file:
        file.write(text)


if len(sys.argv) != 3:
    sys.exit(__doc__)
main(*sys.argv[1:])
