#!/usr/bin/env python3
"""Compares symfilt with another implementation, symbol by symbol and over a whole text.

    tests/compare.py [--wide | --legacy] SYMFILT REFERENCE < SYMBOLS

SYMFILT is the built program. REFERENCE is a program with the same command line, which filters if it is given no symbols. (`c++filt` can't
be used: its texts differ in blanks, and it names no places.) A program whose name ends in `.py` is run by this Python. SYMBOLS has one
symbol a line. With --wide both read C++ by the wide grammar, and with --legacy both take legacy Rust names for paths. The script prints
each difference, and its status is 1 where there is one.
"""

import subprocess
import sys

BATCH = 100
OPTIONS = ([], ["--limit", "60"], ["--brief"], ["--press"])
WIDE_OPTIONS = (["--wide"], ["--wide", "--limit", "60"], ["--wide", "--brief"])
LEGACY_OPTIONS = (["--legacy"], ["--legacy", "--limit", "60"], ["--legacy", "--brief"])
WAYS = {"--wide": WIDE_OPTIONS, "--legacy": LEGACY_OPTIONS}


def run(command, data=b""):
    done = subprocess.run(command, input=data, stdout=subprocess.PIPE, stderr=subprocess.PIPE)
    return done.returncode, done.stdout, done.stderr


def compare_words(symfilt, reference, options, words):
    """The number of differences. A batch that is answered differently is compared word by word."""
    own = run(symfilt + options + words)
    other = run(reference + options + words)
    if own == other:
        return 0
    alone = len(words) > 1 and sum(compare_words(symfilt, reference, options, [word]) for word in words)
    if alone:
        return alone
    if len(words) > 1:
        print(f"{options}: {len(words)} words differ together, and each is answered alike by itself, from {words[0]} on")
        own, other = (own[0], own[2][:200]), (other[0], other[2][:200])
        words = words[:1]
    print(f"{options} {words[0]}\n  symfilt:   {own}\n  reference: {other}")
    return 1


def command_of(path):
    """The words that run a program, which may be written in Python."""
    return [sys.executable, path] if path.endswith(".py") else [path]


def main():
    programs = sys.argv[1:]
    ways = WAYS.get(programs[0], OPTIONS) if programs else OPTIONS
    programs = programs if ways is OPTIONS else programs[1:]
    if len(programs) != 2:
        sys.exit(__doc__)
    symfilt = [programs[0]]
    reference = command_of(programs[1])
    for command in (symfilt, reference):
        if run(command + ways[0] + ["_Z1fv", "_Z1fQ"]) != (1, b"f()\n_Z1fQ\n", b"symfilt: _Z1fQ: malformed at 4\n"):
            sys.exit(f"{command[-1]} doesn't answer as symfilt's command line does: {' '.join([*ways[0], '_Z1fv', '_Z1fQ'])}")
    text = sys.stdin.buffer.read()
    lines = [line for line in text.split(b"\n") if line]
    # only ASCII words can be on a command line here, and a word that begins with a dash would be an option
    words = [line.decode() for line in lines if line.isascii() and not line.startswith(b"-")]
    if not words:
        sys.exit("no symbols on standard input")
    if len(words) < len(lines):
        print(f"{len(lines) - len(words)} lines are compared only in the filtered text")
    differences = 0
    for options in ways:
        for first in range(0, len(words), BATCH):
            differences += compare_words(symfilt, reference, options, words[first : first + BATCH])
    own = run(symfilt + ways[0], text)
    other = run(reference + ways[0], text)
    if own[:2] != other[:2]:
        differences += 1
        print("the filtered texts differ")
    print(f"{len(words)} symbols, {len(ways)} ways and filtered: {differences} differences")
    sys.exit(1 if differences else 0)


if __name__ == "__main__":
    main()
