#!/usr/bin/env python3
"""Finds what nothing names: definitions and lemmas of specs/ and proofs/ that nothing else mentions (a re-export does not count), and
names of crates.txt that no file of their crate has. Prints them, and ends with status 1 if there are any.

    tools/unreached.py [ROOT]

Names are compared as words, so an unused definition isn't found if another one with its name is used. Rows and limits are left out: they
are computed, and nothing uses them. A crate may have to list another crate that it doesn't name, if a clause of a lower crate mentions that
crate: try it."""
import os
import re
import sys
from collections import Counter

from files import lines_of_crates, read, sources

DEFINED = re.compile(r"^(?:(?:abbrev|unfoldable|pub) )*([^\s:(){}\[\],;.=]+) : ", re.M)
WORD = re.compile(r"[^\s(){}\[\],;.|λ↦=\"]+")
END = re.compile(r"\n\n(?=\S)|\Z")
# the files that the prover calls for, and those of rows
LEFT_OUT = re.compile(r"(Answers|Invariants|Proof|Lib)\.antt$|(Rows?|Limits|Presses|KindNumbers)\.antt$|/Rows/")

def words(text):
    """The words of a text and how often it has each, without comments and re-exports."""
    lines = re.sub(r"(?<=\w)[:.]{1,2}(?=\w)", " ", text).split("\n")
    return Counter(word for line in lines if not line.lstrip().startswith(("--", "//", "pub use ", "unfoldable pub use "))
                   for word in WORD.findall(line))

def unreached(crates):
    """The definitions that no other paragraph names: a declaration ends at a blank line that a line without indentation follows."""
    texts, everywhere = {path: read(path) for path in sources(crates)}, Counter()
    for text in texts.values():
        everywhere.update(words(text))
    for path, text in texts.items():
        for found in DEFINED.finditer(text) if path.endswith(".antt") and not LEFT_OUT.search(path) else ():
            own = words(text[found.start():END.search(text, found.start()).start()])
            if "◌" not in found[1] and everywhere[found[1]] <= own[found[1]]:
                yield f"{os.path.relpath(path, crates)}: nothing names {found[1]}"

def unnamed(root):
    """The names of crates.txt that no file of their crate has."""
    for crate, line in lines_of_crates(root).items():
        text = "\n".join(map(read, sources(f"{root}/crates/{crate}")))
        yield from (f"crates.txt: no file of {crate} names {name}" for name in line.partition(":")[2].split()
                    if not re.search(rf"\b{name}\b", text))

if __name__ == "__main__":
    ROOT = sys.argv[1] if len(sys.argv) > 1 else os.path.join(os.path.dirname(os.path.abspath(__file__)), "..")
    faults = [*unreached(f"{ROOT}/crates"), *unnamed(ROOT)]
    print("\n".join(faults), end="\n" if faults else "")
    sys.exit(1 if faults else 0)
