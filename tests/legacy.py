#!/usr/bin/env python3
"""Compares symfilt's texts of legacy Rust names with those of other implementations.

    tests/legacy.py SYMFILT FILE..

SYMFILT is the built program. Each FILE is a program or a library with symbols that `nm` lists, or a text with one a line (`.txt`). The
legacy names among these symbols (`_ZN`, a path, `17h`, sixteen digits, `E`, maybe a suffix) are given to `symfilt --legacy`, to
`c++filt`, and to the rustc-demangle that is among rustc's own libraries, through a small program that `rustc` compiles first. A program
that isn't installed is left out. The other two show a path as symfilt does, and c++filt adds the hash. Each shows a suffix in a way of
its own, and c++filt keeps escapes of characters beyond ASCII; these differences are counted apart. The script prints every other
difference. The status is 1 if there is such a difference, 2 if there is nothing to compare."""

import collections
import os
import re
import shutil
import subprocess
import sys
import tempfile

NAME = re.compile(rb"_ZN[0-9A-Za-z_.$]*17h([0-9a-f]{16})E(\.[0-9A-Za-z_.$]+)?")
BEYOND_ASCII = re.compile(rb"\$u([89a-f][0-9a-f]|[0-9a-f]{3,6})\$")
DRIVER = """#![feature(rustc_private)]
extern crate rustc_demangle;
fn main() {
    for line in std::io::stdin().lines().map_while(Result::ok) {
        println!("{:#}", rustc_demangle::demangle(&line));
    }
}
"""


def symbols_of(path):
    """The words of a file that may be symbols."""
    if path.endswith(".txt"):
        with open(path, "rb") as file:
            return file.read().split()
    listed = subprocess.run(["nm", path], stdout=subprocess.PIPE, stderr=subprocess.DEVNULL, check=False).stdout
    return [line.split()[-1] for line in listed.splitlines() if line.split()]


def rust_driver(folder):
    """A program that shows names by rustc-demangle, or None where rustc isn't there or doesn't compile it."""
    if not shutil.which("rustc"):
        return None
    source, program = os.path.join(folder, "driver.rs"), os.path.join(folder, "driver")
    with open(source, "w", encoding="utf-8") as file:
        file.write(DRIVER)
    made = subprocess.run(["rustc", "-O", source, "-o", program], env={**os.environ, "RUSTC_BOOTSTRAP": "1"}, stderr=subprocess.DEVNULL, check=False)
    return program if made.returncode == 0 else None


def texts_by(command, names):
    """What a program prints for each name, one a line."""
    out = subprocess.run(command, input=b"\n".join(names) + b"\n", stdout=subprocess.PIPE, check=True).stdout.split(b"\n")[:-1]
    if len(out) != len(names):
        sys.exit(f"{command[0]}: {len(out)} lines for {len(names)} names")
    return out


def class_of(text, suffix, other):
    """How another program's text of a name agrees with symfilt's, or None where it doesn't."""
    if other == text:
        return "same text"
    bare = text[: -len(suffix) - 3] if suffix else text
    if suffix and other.startswith(bare) and suffix.startswith(other[len(bare) :]):
        return "same but for the suffix"
    return None


def compare(title, names, texts, others):
    """Counts the classes of one implementation's texts, prints the differences, and answers how many there are."""
    classes, different = collections.Counter(), 0
    for name, text, other in zip(names, texts, others):
        found = NAME.fullmatch(name)
        found_class = class_of(text, found[2] or b"", other.replace(b"::h" + found[1], b"") if title == "c++filt" else other)
        if found_class is None and title == "c++filt" and BEYOND_ASCII.search(name):
            found_class = "characters beyond ASCII"
        if found_class is None:
            different += 1
            print(f"{title}: {name.decode()}\n  symfilt: {text!r}\n  {title}: {other!r}")
        else:
            classes[found_class] += 1
    print(f"{title}: {different} differences; " + ", ".join(f"{count} {what}" for what, count in classes.most_common()))
    return different


def main():
    if len(sys.argv) < 3:
        sys.exit(__doc__)
    names = sorted({name for path in sys.argv[2:] for name in symbols_of(path) if NAME.fullmatch(name)})
    if not names:
        print("no legacy names")
        sys.exit(2)
    texts = texts_by([sys.argv[1], "--legacy"], names)
    print(f"{len(names)} names")
    different, compared = 0, 0
    with tempfile.TemporaryDirectory() as folder:
        driver = rust_driver(folder)
        for title, command in (("rustc-demangle", [driver] if driver else None), ("c++filt", ["c++filt"] if shutil.which("c++filt") else None)):
            if command:
                compared += 1
                different += compare(title, names, texts, texts_by(command, names))
    sys.exit(2 if not compared else 1 if different else 0)


if __name__ == "__main__":
    main()
