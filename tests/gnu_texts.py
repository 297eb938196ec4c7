#!/usr/bin/env python3
"""Compares what `demangle --spelling=gnu` prints with another implementation of the definition, and with c++filt.

    tests/gnu_texts.py [--shown N] DEMANGLE [FILE..]

Without files the symbols are those of `crates/check_rows/stdin` and of the lists in `bench`. For each C++ symbol that DEMANGLE reads, the
text has to be what this script makes of the text that DEMANGLE prints without the option. For all other symbols the line has to be the same
with and without the option. If the `c++filt` of binutils is installed, its text has to be the same for 98 of 100 symbols of
`bench/fresh_cpp.txt` that both read. The status is 1 if a text is wrong or the share is smaller, 2 if the program can't be run."""

import argparse
import os
import re
import shutil
import subprocess
import sys

HERE = os.path.dirname(os.path.abspath(__file__))
FRESH = os.path.join(HERE, "..", "bench", "fresh_cpp.txt")
FILES = [os.path.join(HERE, "..", "crates", "check_rows", "stdin"), FRESH, os.path.join(HERE, "..", "bench", "fresh_instances.txt")]
LEAST = 98  # of 100

LETTER = rb"[A-Za-z0-9_$.\x80-\xff]"
NAMES = {
    b"istream": b"std::basic_istream<char, std::char_traits<char> >",
    b"iostream": b"std::basic_iostream<char, std::char_traits<char> >",
    b"ostream": b"std::basic_ostream<char, std::char_traits<char> >",
    b"string": b"std::basic_string<char, std::char_traits<char>, std::allocator<char> >",
    b"nullptr_t": b"decltype(nullptr)",
}
# an operator's name; a name of std, perhaps with a constructor or destructor; or a suffix
PIECE = re.compile(
    rb"(?P<operator>(?<!" + LETTER + rb")operator(?:<=>|->|>>|\(\)|>))"
    rb"|(?P<std>(?<!:)(?<!" + LETTER + rb")std::(?P<name>istream|iostream|ostream|string|nullptr_t)(?!" + LETTER + rb")"
    rb"(?:(?P<front>::~?)(?P=name)(?!" + LETTER + rb"))?)"
    rb"|(?P<suffix> \((?P<dots>\." + LETTER + rb"*)\)\Z)",
    re.S,
)


def clones(dots):
    """A suffix as GNU's demangler spells it: each part, with the numbers after it, is in brackets of its own."""
    return b" [clone " + re.sub(rb"(?<=.)\.(?![0-9])", b"] [clone .", dots, flags=re.S) + b"]"


def spelled(text):
    """A text as GNU's demangler spells it."""
    out, at, last = [], 0, b""
    while at < len(text):
        found = PIECE.match(text, at)
        if found and found["operator"]:
            out.append(found["operator"])
            last = b"\0"
        elif found and found["std"]:
            out.append(NAMES[found["name"]])
            last = NAMES[found["name"]][-1:]
            if found["front"]:
                out.append(found["front"] + b"basic_" + found["name"])
                last = b"g"
        elif found and found["suffix"]:
            out.append(clones(found["dots"]))
            last = b"]"
        else:
            byte = text[at:at + 1]
            # an operator's sign isn't a bracket; a template that is written in full ends with a bracket
            if (byte, last) in ((b">", b">"), (b"[", b")")):
                out.append(b" ")
            out.append(byte)
            last = byte
            at += 1
            continue
        at = found.end()
    return b"".join(out)


def symbols_in(path):
    with open(path, "rb") as file:
        return re.findall(rb"(?<![A-Za-z0-9_.$])_Z[A-Za-z0-9_.$]*[A-Za-z0-9_$]", file.read())


def lines_of(command, symbols):
    try:
        ran = subprocess.run(command, input=b"".join(symbol + b"\n" for symbol in symbols), capture_output=True, check=True)
    except (OSError, subprocess.CalledProcessError) as error:
        print(f"{command[0]}: {error}", file=sys.stderr)
        sys.exit(2)
    return ran.stdout.split(b"\n")[:-1]


def share(program):
    """How many of 100 symbols that both read have the same text by c++filt; None where c++filt isn't installed."""
    if shutil.which("c++filt") is None or b"GNU" not in subprocess.run(["c++filt", "--version"], capture_output=True, check=False).stdout:
        return None
    symbols = symbols_in(FRESH)
    pairs = [(ours, theirs) for symbol, ours, theirs in zip(symbols, lines_of([program, "--spelling=gnu"], symbols), lines_of(["c++filt"], symbols), strict=True)
             if ours != symbol and theirs != symbol]
    return 100 * sum(ours == theirs for ours, theirs in pairs) / len(pairs)


def main():
    parser = argparse.ArgumentParser()
    parser.add_argument("--shown", type=int, default=5)
    parser.add_argument("program")
    parser.add_argument("files", nargs="*")
    options = parser.parse_args()
    symbols = sorted({symbol for path in options.files or FILES for symbol in symbols_in(path)})
    plain = lines_of([options.program, "--format=gnu-v3"], symbols)
    gnu = lines_of([options.program, "--format=gnu-v3", "--spelling=gnu"], symbols)
    wrong = [(symbol, text, other) for symbol, text, other in zip(symbols, plain, gnu, strict=True) if other != (text if text == symbol else spelled(text))]
    for it in wrong[:options.shown]:
        print(*it, sep="\n    ")
    changed = sum(text != other for text, other in zip(plain, gnu))
    alike = share(options.program)
    print(f"{len(symbols)} symbols, {changed} of whose texts are spelled otherwise: {len(wrong)} wrong; " +
          ("c++filt of binutils isn't installed" if alike is None else f"c++filt has the same text for {alike:.1f} of 100"))
    return 1 if wrong or not changed or (alike is not None and alike < LEAST) else 0


if __name__ == "__main__":
    sys.exit(main())
