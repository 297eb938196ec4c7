#!/usr/bin/env python3
"""Writes the rows `cut` and `put` of crates/check_rows/stdin for symbols, with the answers of another implementation.

    tests/changes.py REFERENCE < SYMBOLS >> crates/check_rows/stdin

REFERENCE is a Python module with demangle(symbol, limit, brief, lang), whose result has `answer` ("text", "Malformed",
"BadReference" or "BadValue"), `text` and `at`. SYMBOLS has one symbol per line, and each symbol is well shaped."""

import os
import sys

sys.path.insert(0, os.path.join(os.path.dirname(os.path.abspath(__file__)), "..", "tools"))
from files import load

LIMIT = 1_000_000
CHANGES = (("cut", None), ("put !", b"!"), ("put 0", b"0"), ("put ff", b"\xff"))
REASONS = {"Malformed": b"malformed at %d", "BadReference": b"bad reference at %d", "BadValue": b"bad value at %d"}


def spelled(text):
    """Bytes as a row spells them."""
    return text.replace(b"\\", b"\\\\").replace(b"\t", b"\\t").replace(b"\n", b"\\n").replace(b"\xff", b"\\f")


def answer_of(reference, symbol, lang):
    answer = reference.demangle(symbol, LIMIT, False, lang)
    if answer.answer == "text":
        return spelled(answer.text)
    return REASONS[answer.answer] % answer.at if answer.answer in REASONS else b"too long"


def row_of(reference, symbol, name, byte):
    lang = "cpp" if symbol.startswith(b"_Z") else "rust"
    fields = [name.encode(), symbol]
    for place in range(len(symbol)):
        changed = symbol[:place] if byte is None else symbol[:place] + byte + symbol[place + 1 :]
        answer = answer_of(reference, changed, lang)
        if answer != b"malformed at %d" % place:
            fields.append(b"%d " % place + answer)
    return b"\t".join(fields)


def main():
    if len(sys.argv) != 2:
        sys.exit(__doc__)
    reference = load(sys.argv[1])
    symbols = [line for line in sys.stdin.buffer.read().split(b"\n") if line]
    if not symbols:
        sys.exit("no symbols on standard input")
    for symbol in symbols:
        for name, byte in CHANGES:
            sys.stdout.buffer.write(row_of(reference, symbol, name, byte) + b"\n")


if __name__ == "__main__":
    main()
