#!/usr/bin/env python3
"""Compares the places of malformed C++ symbols with those of another implementation.
usage: cpp_shapes.py REFERENCE GENERATOR [COUNT [SEED]]
REFERENCE is a Python module with grammar("cpp", stage) and shape(grammar, symbol), which raises an error with a place `at`;
GENERATOR is one with symbols(seed, count, lang, mode). The program read_shapes is run by `rt try` (or by the command in TRY)."""
import os, shlex, subprocess, sys

HERE = os.path.dirname(os.path.abspath(__file__))
sys.path.insert(0, os.path.join(HERE, "..", "tools"))
from files import load

def wanted(reference, table, symbol):
    try: reference.shape(table, symbol)
    except reference.Bad as bad: return f"malformed at {bad.at}"
    return "rows"

def main():
    if len(sys.argv) < 3: sys.exit(__doc__)
    reference, generator = load(sys.argv[1]), load(sys.argv[2])
    count = int(sys.argv[3]) if len(sys.argv) > 3 else 4000
    seed = int(sys.argv[4]) if len(sys.argv) > 4 else 1
    symbols = []
    for mode, share in (("mutated", 3), ("valid", 1)):
        symbols += [s for s in generator.symbols(seed, count * share // 4, "cpp", mode) if b"\n" not in s]
    # each of the last symbols, cut at each place
    for symbol in symbols[-60:]: symbols += [symbol[:k] for k in range(len(symbol))]
    table = reference.grammar("cpp", "final2")
    words = shlex.split(os.environ.get("TRY", "rt try"))
    ran = subprocess.run(words, cwd=os.path.join(HERE, "..", "crates", "read_shapes"), input=b"\n".join(symbols), stdout=subprocess.PIPE, stderr=subprocess.PIPE)
    lines = [l for l in ran.stdout.decode().split("\n") if l]
    different = 0
    malformed = 0
    for symbol, line in zip(symbols, lines):
        want = wanted(reference, table, symbol)
        malformed += want != "rows"
        if (line if want != "rows" else line.split()[0]) != want:
            different += 1
            if different <= 20: print(f"{symbol!r}: {line}, not {want}")
    print(f"{len(symbols)} symbols, {malformed} malformed, {len(lines)} answered, {different} different")
    sys.exit(different != 0 or len(lines) < len(symbols))

if __name__ == "__main__": main()
