#!/usr/bin/env python3
"""Compares the parts that `demangle --json` gives of C++ functions with those of LLVM's partial demangler.

    tests/partial.py DEMANGLE [NAMES..]

Each of NAMES is a file of names, one a line; without NAMES the names are those of bench/. For each name that both read as a function, the
base, scope, parameters and return type have to have the same bytes. Blanks and parentheses aren't compared, since LLVM has more of them in
expressions and addresses. Where LLVM spells a lambda, an unnamed type or a block differently, only the base is compared. The script prints
the names that differ, with the parts in which they do. The status is 1 if more than 5 in 1,000 differ. In the differences that are known,
LLVM prints the return type of an enclosing function, or takes another type for a substitution. LLVM's headers and library (Debian's
llvm-dev) are needed."""

import collections
import json
import pathlib
import re
import shutil
import subprocess
import sys
import tempfile

HERE = pathlib.Path(__file__).resolve().parent
FUNCTIONS = {"function", "constructor", "destructor", "operator", "conversion", "literal_operator", "lambda"}
FIELDS = ("base", "scope", "parameters", "return_type")
SPELLED_OTHERWISE = re.compile(r"'lambda|'unnamed|'block|\(anonymous namespace\)")
SHOWN = 5
MOST_TEXT = 10_000 # bytes of a text that is compared


def config():
    """The program that says where LLVM's library is, in the newest version that is installed."""
    found = [shutil.which(name) for name in ("llvm-config", *(f"llvm-config-{number}" for number in range(30, 10, -1)))]
    return next(filter(None, found), None)


def peer(folder):
    """Builds the program that calls LLVM's partial demangler, or answers None."""
    if not (program := config()):
        return None
    said = lambda word: subprocess.run([program, word], capture_output=True, text=True, check=True).stdout.split()
    built = folder / "peer"
    command = ["c++", "-std=c++17", "-O1", *[f"-I{place}" for place in said("--includedir")], str(HERE / "partial/peer.cc"), "-o", str(built),
               *[f"-L{place}" for place in said("--libdir")], f"-lLLVM-{said('--version')[0].split('.')[0]}"]
    done = subprocess.run(command, capture_output=True, text=True)
    return built if done.returncode == 0 else None


def names_of(files):
    if files:
        texts = [pathlib.Path(file).read_bytes() for file in files]
    else:
        texts = [file.read_bytes() for file in sorted((HERE.parent / "bench").glob("fresh_*.txt"))]
    words = {word for text in texts for word in text.split(b"\n") if re.fullmatch(rb"_Z[A-Za-z0-9_.$]+", word)}
    return sorted(words)


def parts_of(demangle, names):
    """The four fields of each name that the program reads as a function, if the text isn't long: LLVM's demangler has no limit."""
    done = subprocess.run([demangle, "--json"], input=b"".join(name + b"\n" for name in names), stdout=subprocess.PIPE)
    fields = {}
    for line in done.stdout.splitlines():
        name = json.loads(line)
        if name.get("kind") not in FUNCTIONS or len(name["text"]) > MOST_TEXT:
            continue
        text = name["text"].encode()
        found = collections.defaultdict(str)
        for part in name["parts"]:
            found[part["role"]] += text[part["start"]:part["start"] + part["length"]].decode()
        fields[name["symbol"].encode()] = [found[role] for role in FIELDS]
    return fields


def bare(text):
    return re.sub("[ ()]", "", text)


def why(own, other):
    """How two lists of fields differ: None where they don't."""
    differing = [field for field, mine, theirs in zip(FIELDS, own, other) if bare(mine) != bare(theirs)]
    if not differing:
        return None
    if any(SPELLED_OTHERWISE.search(field) for field in other) and "base" not in differing:
        return None
    return ", ".join(differing)


def main():
    if len(sys.argv) < 2:
        sys.exit(__doc__)
    with tempfile.TemporaryDirectory() as folder:
        program = peer(pathlib.Path(folder))
        if not program:
            print("LLVM's library isn't installed: parts aren't compared with another program's")
            return 0
        own = parts_of(sys.argv[1], names_of(sys.argv[2:]))
        said = subprocess.run([program], input=b"".join(name + b"\n" for name in own), stdout=subprocess.PIPE, check=True).stdout
    other = {name: line.decode().split("\t") for name, line in zip(own, said.split(b"\n")) if line}
    both = sorted(own.keys() & other.keys())
    differing = collections.defaultdict(list)
    for name in both:
        if way := why(own[name], other[name]):
            differing[way].append(name)
    for way, found in sorted(differing.items()):
        print(f"{len(found)} differ in {way}")
        for name in found[:SHOWN]:
            print(f"  {name.decode()}\n    own:  {own[name]}\n    LLVM: {other[name]}")
    count = sum(map(len, differing.values()))
    print(f"{len(both)} functions to both, {count} differ; {len(own.keys() - other.keys())} are functions here alone")
    return 1 if count * 1000 > 5 * len(both) else 0


if __name__ == "__main__":
    sys.exit(main())
