#!/usr/bin/env python3
"""Writes the text of an LLVM module for x86-64 as one for wasm64:  retarget.py FROM.ll TO.ll

Both machines have pointers and usize of 64 bits, little-endian bytes, and the same sizes and alignments of every type that
Rattle has, so only the words that name the machine change. It stops at what has no meaning on the other machine: an
intrinsic, a type or assembly of x86-64."""
import re
import sys

LAYOUT = "e-m:e-p:64:64-p10:8:8-p20:8:8-i64:64-i128:128-n32:64-S128-ni:1:10:20"
TRIPLE = "wasm64-unknown-unknown"
OF_X86 = re.compile(
    r' "(?:probe-stack|stack-probe-size|target-cpu|target-features|tune-cpu|frame-pointer)"(?:="[^"]*")?'
)
FOREIGN = re.compile(r"@llvm\.x86|\basm\b|x86_fp80|x86_amx")
HEADS = {
    "target datalayout": f'target datalayout = "{LAYOUT}"\n',
    "target triple": f'target triple = "{TRIPLE}"\n',
}


def main(source, target):
    text = {"encoding": "utf-8", "errors": "surrogateescape"}
    missing = set(HEADS)
    with open(source, **text) as lines, open(target, "w", **text) as to:
        for line in lines:
            for head, other in HEADS.items():
                if line.startswith(head):
                    line = other
                    missing.discard(head)
            if line.startswith("attributes"):
                line = OF_X86.sub("", line)
            # a constant may hold any bytes
            if FOREIGN.search(line) and not line.startswith("@"):
                sys.exit(f"retarget.py: of x86-64 alone: {line}")
            to.write(line)
    if missing:
        sys.exit(f"retarget.py: {source} has no {', '.join(sorted(missing))}")


main(*sys.argv[1:])
