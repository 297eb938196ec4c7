#!/usr/bin/env python3
"""Filters words whose texts double with each part, and compares the times with and without a low limit.

    tests/hostile.py DEMANGLE

Each word has 100 to 400 bytes and denotes a text of more than a million bytes, or of tens of thousands. At the default limit a program that
prints up to the limit before it refuses takes 26 to 74 times as long as at a limit of 5,000. The program may take eight times as long.

Texts of packs under pointers cost less than the default limit, so they are written whole. A word of 400 types, each under 400 pointers or
200 pointers to constant types, takes some eight times as long as with the low limit, and may take 12 times as long. A program that takes
each pointer by itself takes 44 times as long for the plain pointers. One that takes three pointers to constant types at once takes 18 times
as long for those.

Then all these words are one input, for which the program may take at most 30 MB at any time. The limit is 50 MB for an input that also has
words as long as the program reads.
"""
import os
import resource
import subprocess
import sys
import tempfile

MOST = 8.0
MOST_OF_POINTERS = 12.0
RUNS = 5
WORDS = 40
LOW = "5000"
LONGEST = 65_536
MOST_KILOBYTES = 30_000
MOST_WITH_LONG_WORDS = 50_000
DIGITS = "0123456789abcdefghijklmnopqrstuvwxyzABCDEFGHIJKLMNOPQRSTUVWXYZ"


def spelled(letter, number, digits):
    """A reference with this letter. It has no digits for 0, and otherwise the digits of the number less one."""
    if number == 0:
        return f"{letter}_"
    number -= 1
    text = digits[number % len(digits)]
    while number >= len(digits):
        number //= len(digits)
        text = digits[number % len(digits)] + text
    return f"{letter}{text}_"


def reference(place):
    """A back reference of Rust."""
    return spelled("B", place, DIGITS)


def substitution(number):
    """A substitution of C++."""
    return spelled("S", number, DIGITS[:10] + DIGITS[36:])


def cpp_word(begins, first, wraps, levels):
    """A C++ function of types, each made of the type before it. `wraps` makes a type, and says how many candidates it adds."""
    text, number = "_Z1f" + begins, first
    for _ in range(levels):
        more, candidates = wraps(substitution(number))
        text += more
        number += candidates
    return text


def pack_word(elements, wraps, levels):
    """A C++ function of expansions over a pack of this many elements. Each expansion is made of the one before it."""
    return cpp_word(f"IJ{'i' * elements}EEvDpPFvT_E", 3, lambda that: (f"Dp{wraps(that)}", 3), levels)


def pointers_word(elements, levels, pointer="P"):
    """A C++ function of an expansion over a pack of this many elements. Each element is under this many pointers."""
    return f"_Z1fIJ{'i' * elements}EEvDp{pointer * levels}T_"


def rust_word(first, wraps, levels):
    """An instance of a Rust function over types, each made of the type before it."""
    text = "_RINvC3foo3bar"
    place = len(text) - 2
    text += first
    for _ in range(levels):
        here = len(text) - 2
        text += wraps(reference(place))
        place = here
    return text + "E"


def families():
    """The words, named by what doubles in them."""
    return {
        "templates": cpp_word("1AIiiE", 1, lambda that: (f"S_I{that}{that}E", 1), 38),
        "functions": cpp_word("PFvvE", 1, lambda that: (f"PF{that}{that}E", 2), 16),
        "functions of three": cpp_word("PFvvE", 1, lambda that: (f"PF{that}{that}{that}E", 2), 10),
        "functions of five": cpp_word("PFvvE", 1, lambda that: (f"PF{that * 5}E", 2), 7),
        "functions, const": cpp_word("PKPFvvE", 3, lambda that: (f"PKPF{that}{that}E", 4), 14),
        "arrays": cpp_word("PA9_PFvvE", 3, lambda that: (f"PA9_PF{that}{that}E", 4), 17),
        "members": cpp_word("M1AFvvE", 2, lambda that: (f"MS_F{that}{that}E", 2), 16),
        "functions, shown": cpp_word("PFvvE", 1, lambda that: (f"PF{that}{that}E", 2), 11),
        "packs": pack_word(48, lambda that: f"PF{that}{that}E", 9),
        "packs of three": pack_word(48, lambda that: f"PF{that}{that}{that}E", 6),
        "packs, short": pack_word(16, lambda that: f"PF{that}{that}E", 11),
        "packs, shown": pack_word(60, lambda that: f"PF{that}{that}E", 5),
        "tuples": rust_word("ThhE", lambda that: f"T{that}{that}E", 20),
        "tuples of three": rust_word("ThhE", lambda that: f"T{that}{that}{that}E", 12),
        "function pointers": rust_word("FhEh", lambda that: f"F{that}{that}Eu", 19),
        "binders": rust_word("FG_hEh", lambda that: f"FG_{that}{that}{that}Eu", 12),
        "lifetimes": rust_word("FG_RL0_hEu", lambda that: f"FG_RL0_h{that}{that}{that}Eu", 12),
        "trait objects": rust_word("DINtC1a1bhhEEL_", lambda that: f"DINtC1a1b{that}{that}EEL_", 17),
        "generic paths": rust_word("INvC1a1bhhE", lambda that: f"INvC1a1b{that}{that}E", 18),
        "tuples, shown": rust_word("ThhE", lambda that: f"T{that}{that}E", 12),
    }


def packs_of_pointers():
    """The words of packs under pointers."""
    return {
        "packs of pointers, 80 by 60": pointers_word(80, 60),
        "packs of pointers, 400 by 400": pointers_word(400, 400),
        "packs of pointers to constant types, 400 by 200": pointers_word(400, 200, "PK"),
    }


def seconds(program, options, text):
    """The least processor time of some runs over the text."""
    least = None
    for _ in range(RUNS):
        before = resource.getrusage(resource.RUSAGE_CHILDREN)
        subprocess.run([program, *options], input=text, stdout=subprocess.DEVNULL, check=True)
        after = resource.getrusage(resource.RUSAGE_CHILDREN)
        took = after.ru_utime + after.ru_stime - before.ru_utime - before.ru_stime
        least = took if least is None else min(least, took)
    return least


def long_words():
    """Words that are as long as the program reads, and have many rows, nodes or levels."""
    half, quarter, fifth = LONGEST // 2 - 20, LONGEST // 4 - 20, LONGEST // 5 - 20
    return [
        "_Z1f" + "P" * 2 * half + "i",
        "_Z1f" + "i" * 2 * half,
        "_ZN" + "1a" * half + "E",
        "_Z1f" + "1AI" * quarter + "i" + "E" * quarter,
        "_Z1f" + "PF" * quarter + "v" + "E" * quarter,
        "_Z1fIJ" + "i" * half + "EEvDp" + "P" * half + "T_",
        "_RNv" + "Nv" * fifth + "C1a" + "1a" * fifth + "1f",
        "_RINvC1a1f" + "T" * half + "E" * half + "E",
    ]


def kilobytes(program, options, text):
    """The greatest memory of a run over the text."""
    with tempfile.TemporaryFile() as file:
        file.write(text)
        file.seek(0)
        run = subprocess.Popen([program, *options], stdin=file, stdout=subprocess.DEVNULL)
        _, status, used = os.wait4(run.pid, 0)
        run.returncode = os.waitstatus_to_exitcode(status)
    if run.returncode != 0:
        sys.exit(f"{program} ended with {run.returncode}")
    return used.ru_maxrss


def main():
    if len(sys.argv) != 2:
        sys.exit(__doc__)
    program = sys.argv[1]
    slow = []
    judged = [(MOST, name, word) for name, word in families().items()]
    judged += [(MOST_OF_POINTERS, name, word) for name, word in packs_of_pointers().items()]
    for most, name, word in judged:
        text = (word + "\n").encode() * WORDS
        for options in ([], ["--brief"], ["-p"]):
            whole = seconds(program, options, text)
            low = seconds(program, [*options, "--limit", LOW], text)
            times = whole / max(low, 4e-3)
            if times > most:
                slow.append(f"{name} {' '.join(options)}: {times:.0f} times".replace(" :", ":"))
    words = [word for word in families().values() for _ in range(WORDS)]
    large = []
    for what, most, text in (
        ("words that double", MOST_KILOBYTES, words),
        ("long words", MOST_WITH_LONG_WORDS, words + long_words() * 5),
    ):
        lines = "".join(f"{word}\n" for word in text).encode()
        took = max(kilobytes(program, options, lines) for options in ([], ["--brief"], ["-p"], ["--json"]))
        if took > most:
            large.append(f"{what}: {took} KB, where {most} are allowed")
    for line in slow + large:
        print(line)
    print(f"{len(judged)} words in three ways, {len(slow)} slow; {len(large)} of two inputs take too much memory")
    sys.exit(1 if slow or large else 0)


if __name__ == "__main__":
    main()
