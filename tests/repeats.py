#!/usr/bin/env python3
"""Filters logs in which names are repeated, and compares each line with the answer for the name by itself; then measures the memory that this takes.

    tests/repeats.py SYMFILT DEMANGLE

A filter keeps texts of the symbols that came last, and finds them by a mark of the name. The names are those of the rows `text`, `refused`
and `repeated` of check_rows, those of bench/fresh_cpp.txt, and C++ names that share one mark. They are repeated at once, in the order of
stacks, and in any order. The status is 1 where a line differs from the line in a log in which each name comes once, or from the line for
the name on the command line; where names of one mark take twice the time of names that come once; or where a log of many texts takes 4 MB
more than a short log."""
import os
import random
import re
import resource
import subprocess
import sys
import tempfile

TOP = os.path.dirname(os.path.dirname(os.path.abspath(__file__)))
LINES = 40_000
MORE_MEMORY = 4_096  # in KB
MORE_TIME = 2.0
RUNS = 5
SYMFILT = ([], ["--wide"], ["--brief"], ["--no-params"], ["--legacy"], ["--limit", "60"], ["--press"], ["--press", "--wide"])
DEMANGLE = ([], ["-p"], ["--brief"], ["--escape"], ["--limit", "60"], ["--format", "rust"])


def row_names():
    """The symbols of the rows of check_rows, each once, in their order."""
    names = {}
    with open(os.path.join(TOP, "crates", "check_rows", "stdin"), encoding="latin-1") as file:
        for line in file:
            for field in line.rstrip("\n").split("\t"):
                if re.fullmatch("_[RZ][A-Za-z0-9_.$]*", field):
                    names[field] = None
    return list(names)


def fresh_names():
    """The C++ names of a fixed list."""
    with open(os.path.join(TOP, "bench", "fresh_cpp.txt"), encoding="utf-8") as file:
        return file.read().split()


def names_of_one_mark(count):
    """C++ names that share one mark. Each byte of the mark is mixed from letters of two steps of 32 bytes, and stays the same where both letters change."""
    pairs = [(at, at + 6) for at in (4, 5, 6, 7, 34, 35, 36, 37, 38, 39)]
    names = []
    for number in range(count):
        name = bytearray(b"_Z59" + b"b" * 59 + b"v")
        for bit, pair in enumerate(pairs):
            if number >> bit & 1:
                for at in pair:
                    name[at] = ord("c")
        names.append(name.decode())
    return names


def filtered(program, options, lines):
    """The lines that a program writes for the given lines."""
    text = "".join(line + "\n" for line in lines)
    done = subprocess.run([program, *options], input=text, stdout=subprocess.PIPE, encoding="utf-8", errors="surrogateescape", check=False)
    if done.returncode != 0:
        sys.exit(f"{program} {' '.join(options)}: status {done.returncode}")
    written = done.stdout.split("\n")[:-1]
    if len(written) != len(lines):
        sys.exit(f"{program} {' '.join(options)}: {len(written)} lines of {len(lines)}")
    return written


def orders(names, chosen):
    """Names with repetitions: at once, in the order of stacks, and in any order."""
    yield [name for name in chosen.sample(names, len(names)) for _ in range(chosen.randint(1, 4))]
    stacks = [chosen.choices(names, k=chosen.randint(5, 60)) for _ in range(60)]
    stacked = []
    while len(stacked) < LINES:
        stacked += chosen.choice(stacks)[chosen.randint(0, 4) :] + [chosen.choice(names)]
    yield stacked
    few = chosen.sample(names, 1_000)
    yield [chosen.choice(few if chosen.random() < 0.9 else names) for _ in range(LINES)]


def differences(program, options, names, chosen):
    """How many lines differ from those of a log where each name comes once. The first of them is printed."""
    once = dict(zip(names, filtered(program, options, names)))
    count = 0
    for order in orders(names, chosen):
        for name, line in zip(order, filtered(program, options, order)):
            if line != once[name]:
                if count == 0:
                    print(f"{os.path.basename(program)} {' '.join(options)}: {name} is {line}, and by itself {once[name]}")
                count += 1
    return count


def unlike_words(program, names):
    """How many names have one text in a log where each name comes twice, and another text on the command line."""
    twice = filtered(program, [], [name for name in names for _ in range(2)])[1::2]
    words = []
    for begin in range(0, len(names), 500):
        done = subprocess.run([program, "--", *names[begin : begin + 500]], stdout=subprocess.PIPE, encoding="utf-8", errors="surrogateescape", check=False)
        words += done.stdout.split("\n")[:-1]
    if len(words) != len(names):
        sys.exit(f"{len(words)} lines for {len(names)} names of the command line")
    return sum(one != other for one, other in zip(twice, words))


def seconds(program, lines):
    """The least processor time of some runs that filter lines."""
    least = None
    for _ in range(RUNS):
        before = resource.getrusage(resource.RUSAGE_CHILDREN)
        filtered(program, [], lines)
        after = resource.getrusage(resource.RUSAGE_CHILDREN)
        took = after.ru_utime + after.ru_stime - before.ru_utime - before.ru_stime
        least = took if least is None else min(least, took)
    return least


def most_memory(program, lines):
    """The most memory of a run that filters lines, in KB."""
    with tempfile.NamedTemporaryFile("w+") as log, tempfile.NamedTemporaryFile("r") as most:
        log.write("".join(line + "\n" for line in lines))
        log.seek(0)
        command = ["/usr/bin/time", "-f", "%M", "-o", most.name, program]
        subprocess.run(command, stdin=log, stdout=subprocess.DEVNULL, check=True)
        return int(most.read())


def many_texts(count):
    """C++ names with texts of 200 bytes. Each comes twice after a name that comes often, so that each text is kept."""
    names = (f"_Z200{'n' * 192}{number:08}v" for number in range(count))
    return ["_Z8commonlyv"] * 2_000 + [name for name in names for _ in range(2)]


def main():
    if len(sys.argv) != 3:
        sys.exit(__doc__)
    chosen = random.Random(1)
    marked = names_of_one_mark(1_000)
    names = list(dict.fromkeys(row_names() + fresh_names() + marked))
    failed = 0
    for program, modes in zip(sys.argv[1:], (SYMFILT, DEMANGLE)):
        program = os.path.abspath(program)
        for options in modes:
            failed += differences(program, options, names, chosen)
        short, long = most_memory(program, many_texts(50)), most_memory(program, many_texts(100_000))
        print(f"{os.path.basename(program)}: {long} KB with 100,000 texts, {short} KB with 50")
        failed += long - short > MORE_MEMORY
    program = os.path.abspath(sys.argv[2])
    failed += unlike_words(program, [name for name in names if len(name) < 4_000])
    others = [f"_Z59n{number:06}{'b' * 52}v" for number in range(4 * LINES)]
    took, usual = (seconds(program, lines) for lines in (chosen.choices(marked, k=4 * LINES), others))
    print(f"{took:.3f} s with names of one mark, {usual:.3f} s with names that come once: {took / max(usual, 1e-3):.1f} times")
    print(f"{failed} differences of {len(names)} names in {len(SYMFILT) + len(DEMANGLE)} modes")
    sys.exit(1 if failed or took > MORE_TIME * max(usual, 1e-2) else 0)


if __name__ == "__main__":
    main()
