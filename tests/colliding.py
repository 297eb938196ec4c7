#!/usr/bin/env python3
"""Presses C++ symbols of many names that share one hash or one mark, and a symbol of as many usual names, and compares the times.

    tests/colliding.py SYMFILT

Names that collide in a map with a fixed seed would make its look-ups slow: when nodes were found by their hash, a C++ symbol of 65,104
bytes with the names of tests/colliding_names.txt took fifty times as long as a usual one. Names of one length whose first, middle and last
bytes are the same have one mark, by which nodes are looked up first. Either symbol may take three times as long as the usual one.
"""
import itertools
import os
import resource
import string
import subprocess
import sys

MOST = 3.0
RUNS = 15


def seconds(program, word):
    """The least processor time of some runs that press the word."""
    least = None
    for _ in range(RUNS):
        before = resource.getrusage(resource.RUSAGE_CHILDREN)
        done = subprocess.run([program, "--press", "--", word], stdout=subprocess.PIPE, check=False)
        after = resource.getrusage(resource.RUSAGE_CHILDREN)
        if done.returncode != 0 or done.stdout.decode().strip()[:2] != word[:2]:
            sys.exit(f"a symbol of {len(word)} bytes wasn't pressed")
        took = after.ru_utime + after.ru_stime - before.ru_utime - before.ru_stime
        least = took if least is None else min(least, took)
    return least


def usual_names(count):
    """This many names of six letters, in their order."""
    letters = itertools.product(string.ascii_lowercase, repeat=6)
    return ["".join(name) for name in itertools.islice(letters, count)]


def names_of_one_mark(count):
    """This many names of six letters with the same first, fourth and last letter."""
    letters = itertools.product(string.ascii_lowercase, repeat=3)
    return [f"a{one}{two}a{three}a" for one, two, three in itertools.islice(letters, count)]


def word_of(names):
    """A C++ symbol with names of six letters as types."""
    return "_Z1f" + "".join("6" + name for name in names)


def main():
    if len(sys.argv) != 2:
        sys.exit(__doc__)
    program = sys.argv[1]
    path = os.path.join(os.path.dirname(os.path.abspath(__file__)), "colliding_names.txt")
    with open(path, encoding="ascii") as file:
        names = file.read().split()
    usual = seconds(program, word_of(usual_names(len(names))))
    ratio = 0
    for chosen, what in ((names, "that collide"), (names_of_one_mark(len(names)), "of one mark")):
        took = seconds(program, word_of(chosen))
        times = took / max(usual, 1e-3)
        print(f"{took:.4f} s with names {what}, {usual:.4f} s with usual ones: {times:.1f} times")
        ratio = max(ratio, times)
    sys.exit("more than three times as long" if ratio > MOST else 0)


if __name__ == "__main__":
    main()
