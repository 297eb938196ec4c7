#!/usr/bin/env python3
"""Compares each symbol's answer at its exact cost and at one less with another implementation's.

    tests/costs.py [--wide] LIBRARY REFERENCE < SYMBOLS

LIBRARY is the shared library (tools/pack.sh makes libsymdemangle.so). REFERENCE is a Python module with
demangle(symbol, limit), whose result has `answer` ("text", "TooLong", "Malformed", "BadReference" or "BadValue"), `text`,
`cost` and `at`. SYMBOLS has one symbol a line. With --wide the library reads C++ by the wide grammar, and REFERENCE has to do so, too.
At a limit of its cost a symbol has its text, and at one less it is too long. A symbol that is refused is refused for the same reason at the
same place, at limits of 0 and 1,000,000. The script prints each difference, and its status is 1 where there is one.
"""

import ctypes
import os
import sys

sys.path.insert(0, os.path.join(os.path.dirname(os.path.abspath(__file__)), "..", "tools"))
from files import load

OK, TOO_LONG = 0, 4
REFUSED = {"Malformed": 1, "BadReference": 2, "BadValue": 3}
LIMIT = 1_000_000
FULL, WIDE_FULL = 0, 4


class Result(ctypes.Structure):
    """What the library reports for a symbol with its status."""

    _fields_ = [("length", ctypes.c_size_t), ("offset", ctypes.c_uint32), ("status", ctypes.c_uint32)]


class Library:
    """The library's call for a text, with a buffer for it."""

    def __init__(self, path, flags):
        self.flags = flags
        self.call = ctypes.CDLL(path).symdemangle_text
        self.call.restype = ctypes.c_uint32
        self.call.argtypes = [
            ctypes.c_char_p, ctypes.c_size_t, ctypes.c_uint32, ctypes.c_uint32,
            ctypes.c_void_p, ctypes.c_size_t, ctypes.POINTER(Result),
        ]
        self.buffer = ctypes.create_string_buffer(LIMIT)

    def answer(self, symbol, limit):
        """The status at a limit, and the text or the offset that comes with it."""
        result = Result()
        status = self.call(symbol, len(symbol), limit, self.flags, self.buffer, LIMIT, ctypes.byref(result))
        return status, self.buffer[: result.length] if status == OK else result.offset


def wanted(answer):
    """What the library has to answer, by limit."""
    if answer.answer in REFUSED:
        return {limit: (REFUSED[answer.answer], answer.at) for limit in (0, LIMIT)}
    if answer.answer == "TooLong":
        return {LIMIT: (TOO_LONG, 0)}
    return {answer.cost: (OK, answer.text), answer.cost - 1: (TOO_LONG, 0)}


def main():
    wide = sys.argv[1:2] == ["--wide"]
    paths = sys.argv[2:] if wide else sys.argv[1:]
    if len(paths) != 2:
        sys.exit(__doc__)
    library, reference = Library(os.path.abspath(paths[0]), WIDE_FULL if wide else FULL), load(paths[1])
    symbols = [line for line in sys.stdin.buffer.read().split(b"\n") if line]
    if not symbols:
        sys.exit("no symbols on standard input")
    differences = 0
    for symbol in symbols:
        for limit, right in wanted(reference.demangle(symbol, LIMIT)).items():
            found = library.answer(symbol, limit)
            if found != right:
                differences += 1
                print(f"{symbol.decode(errors='replace')} at {limit}\n  library:   {found}\n  reference: {right}")
    print(f"{len(symbols)} symbols, {differences} differences")
    sys.exit(1 if differences else 0)


if __name__ == "__main__":
    main()
