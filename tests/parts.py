#!/usr/bin/env python3
"""Asks the library for the parts of names, by the package for Python, and names what comes out wrong.

    tests/parts.py ROWS [FILE..]

ROWS is `crates/check_rows/stdin`, from which the rows `parts` are taken. Each FILE has symbols, one a line. The text of each name has to be
the one that a call without parts answers. The parts are slices of the text in the order of their starts, and any two are apart, or one is
within the other. The bytes that spell a part are in the name, and within the bytes that spell the part around it. A function's text
consists of its outermost parts, with only a blank, `::`, or the brackets of a suffix between them. SYMDEMANGLE_LIBRARY names the library
where the package brings none. The status is 1 where something comes out wrong."""

import re
import sys

import symdemangle

FUNCTIONS = {"function", "constructor", "destructor", "operator", "conversion", "literal_operator", "lambda"}
BETWEEN = {b"", b" ", b"::", b" (", b")"}
# parts whose bytes no text has
HIDDEN = {"hash", "instantiating_crate"}
MOST_FAULTS = 20


ESCAPES = {b"\\\\": b"\\", b"\\t": b"\t", b"\\n": b"\n", b"\\f": b"\xff"}


def rows_in(path):
    """The fields of the rows `parts` of a file: a symbol, what it is, its text, and the text's parts."""
    with open(path, "rb") as rows:
        for row in rows.read().split(b"\n"):
            what, *fields = row.split(b"\t")
            if what == b"parts":
                symbol, kind, text, parts = fields
                text = re.sub(rb"\\[\\tnf]", lambda found: ESCAPES[found[0]], text)
                yield tuple(field.decode("utf-8", "surrogateescape") for field in (symbol, kind, text, parts))


def spelled(parts):
    """Parts as a row has them."""
    return " ".join(f"{part.role}:{part.start}+{part.length}@{part.begin}-{part.end}" for part in parts)


def end_of(part):
    return part.start + part.length


def outermost(parts):
    """The parts that are in no other part."""
    found = []
    for part in parts:
        if not found or part.start >= end_of(found[-1]):
            found.append(part)
    return found


def misplaced(name, text, parts):
    """Why parts of a name's text aren't placed as they have to be, or None."""
    around = []
    for before, part in zip([None, *parts], parts):
        if end_of(part) > len(text):
            return "a part isn't in the text"
        if not 0 <= part.begin <= part.end <= len(name):
            return "what spells a part isn't in the name"
        if before and before.start > part.start:
            return "the starts go down"
        if part.role in HIDDEN and (part.length or part.start < len(text)) or before and before.role in HIDDEN and part.role not in HIDDEN:
            return "a part that no text has is in it, or isn't last"
        while around and end_of(around[-1]) <= part.start:
            around.pop()
        if around and end_of(part) > end_of(around[-1]):
            return "a part ends after the one that it begins in"
        if around and not around[-1].begin <= part.begin <= part.end <= around[-1].end:
            return "a part is spelled outside of what spells the one that it is in"
        around.append(part)
    return None


def loose(text, parts):
    """A piece of a function's text that is in no part and that no two parts may have between them, or None."""
    place = 0
    for part in outermost(parts):
        if text[place : part.start] not in BETWEEN:
            return text[place : part.start]
        place = end_of(part)
    return None if text[place:] in BETWEEN else text[place:]


def fault_of(name):
    """What comes out wrong for a name, or None."""
    try:
        found = symdemangle.parts(name)
    except symdemangle.Refused as why:
        try:
            return f"has no parts ({why}) and the text {symdemangle.try_demangle(name)}"
        except symdemangle.Refused as other:
            return None if str(other) == str(why) else f"is refused for {why} and for {other}"
    if found.text != symdemangle.try_demangle(name):
        return f"has the texts {found.text} and {symdemangle.try_demangle(name)}"
    text = found.text.encode("utf-8", "surrogateescape")
    fault = misplaced(name if isinstance(name, bytes) else name.encode("utf-8", "surrogateescape"), text, found.parts)
    if fault:
        return f"{fault}: {spelled(found.parts)}"
    # what initializes a module has a special name
    if found.kind in FUNCTIONS and found.mangling == "itanium" and found.parts[0].role != "special":
        rest = loose(text, found.parts)
        if rest is not None:
            return f"has {rest} in no part of {found.text}: {spelled(found.parts)}"
        if sum(part.role == "base" for part in outermost(found.parts)) != 1:
            return f"has not one base: {spelled(found.parts)}"
    return None


def fault_of_row(symbol, kind, text, parts):
    """What differs from what a row says, or None."""
    try:
        found = symdemangle.parts(symbol)
    except symdemangle.Refused as why:
        return f"is refused: {why}"
    told = found.kind, found.text, spelled(found.parts)
    return None if told == (kind, text, parts) else f"is {' | '.join(told)}"


def main():
    if len(sys.argv) < 2:
        sys.exit(__doc__)
    faults, count = [], 0
    for symbol, *wanted in rows_in(sys.argv[1]):
        count += 1
        faults += [f"{symbol} {fault}" for fault in [fault_of_row(symbol, *wanted), fault_of(symbol)] if fault]
    for path in sys.argv[2:]:
        with open(path, "rb") as names:
            for name in names.read().split(b"\n"):
                count += 1
                fault = fault_of(name)
                if fault:
                    faults.append(f"{name.decode('utf-8', 'replace')} {fault}")
    for fault in faults[:MOST_FAULTS]:
        print(fault)
    print(f"{count} names, {len(faults)} come out otherwise")
    sys.exit(1 if faults else 0)


if __name__ == "__main__":
    main()
