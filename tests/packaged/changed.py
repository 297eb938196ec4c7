#!/usr/bin/env python3
"""Changes an answer of a library, in place, in the library's C file or WebAssembly module: changed.py FILE

`char` becomes `chor` in each text of the file."""
import re
import sys

path = sys.argv[1]
with open(path, "rb") as file:
    before = file.read()
if path.endswith(".c"):
    after = re.sub(rb'"(?:[^"\\\n]|\\.)*"', lambda text: text[0].replace(b"char", b"chor"), before)
else:
    after = before.replace(b"char", b"chor")
if after == before:
    sys.exit(f"changed.py: {path} has no text with `char`")
with open(path, "wb") as file:
    file.write(after)
