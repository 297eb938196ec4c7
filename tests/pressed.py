#!/usr/bin/env python3
"""Presses pairs of C++ names: names that are spellings of one symbol have to become equal, and names of different symbols have to stay different.

    tests/pressed.py SYMFILT [FILE..]

tests/spelled_pairs.txt has 43 symbols, each with its pressed spelling. tests/kin_names.txt has 2,000 names of installed libraries:
thunks, local entities and instances of function templates. Each of these names has a kin, which differs in what canonicalizers of names
leave out of their keys: a thunk's offset, a discriminator, or whether a parameter's type is the template's. Both rules have to hold by each
grammar. The names of each FILE, or else of bench/fresh_cpp.txt and bench/fresh_instances.txt, are pressed by the wide grammar: a name that
has a spelling has to keep its text, and only names with one text may have one spelling.
"""
import os
import re
import subprocess
import sys

HERE = os.path.dirname(os.path.abspath(__file__))
MOST_WORDS = 1000
FRESH_NAMES = ("../bench/fresh_cpp.txt", "../bench/fresh_instances.txt")
WIDE_TEXT = ["--wide", "--limit=4294967295"]
NO_SPELLING = "no spelling yet"
# the least share of names with a spelling among the names that are read; instances of templates have a share of 0.968
LEAST_SPELLED = 0.96


def lines_of(name):
    with open(os.path.join(HERE, name), encoding="ascii") as file:
        return file.read().splitlines()


def kin_of(name):
    """The name of another symbol, which differs from this one in an offset, in a discriminator or in one parameter's type, and in nothing else."""
    thunk = re.match(r"(_ZT(?:h|c?h|v|cv)n?)(\d+)(_.*)", name)
    if thunk:
        return f"{thunk[1]}{int(thunk[2]) + 8}{thunk[3]}"
    if name.startswith(("_ZZ", "_ZGVZ")):
        counted = re.match(r"(.*[a-zA-Z])_(\d)$", name)
        return f"{counted[1]}_{(int(counted[2]) + 1) % 10}" if counted else name + "_0"
    instance = re.match(r"(.*I([a-z])E+v.*)T_$", name)
    return instance[1] + instance[2]


def answers(program, options, words):
    """What the program answers for each word: a text or a spelling; or None, and the reason."""
    found = []
    for first in range(0, len(words), MOST_WORDS):
        some = words[first:first + MOST_WORDS]
        done = subprocess.run([program, *options, "--", *some], capture_output=True, encoding="utf-8", check=False)
        complaints = dict(line.split(": ", 2)[1:] for line in done.stderr.splitlines())
        found += [(None, complaints[word]) if word in complaints else (line, "") for word, line in zip(some, done.stdout.splitlines())]
    return found


def pressed(program, options, words):
    """The pressed spellings of words, each of which has one."""
    spellings = answers(program, ["--press", *options], words)
    missing = [why for spelling, why in spellings if spelling is None]
    if missing:
        sys.exit(f"not pressed: {missing[0]}")
    return [spelling for spelling, _ in spellings]


def check_pairs(program, options):
    """Checks that the two names of each pair of spellings are pressed alike, and that a spelling is pressed unchanged. Answers whether a
    name and its kin are pressed alike, which is wrong."""
    pairs = [line.split(" ") for line in lines_of("spelled_pairs.txt")]
    wanted = [pair[1] for pair in pairs]
    if pressed(program, options, [pair[0] for pair in pairs]) != wanted or pressed(program, options, wanted) != wanted:
        sys.exit("a spelling isn't pressed to the one that is wanted")
    names = lines_of("kin_names.txt")
    kin = [kin_of(name) for name in names]
    merged = [pair for pair in zip(names, kin, pressed(program, options, names), pressed(program, options, kin)) if pair[2] == pair[3]]
    for name, other, *_ in merged:
        print("merged:", name, other)
    print(f"{len(pairs)} pairs of spellings are together, {len(names) - len(merged)} of {len(names)} pairs of names are apart")
    return bool(merged)


def check_wide(program, words):
    """Checks that by the wide grammar a spelling has its symbol's text, is pressed again unchanged, is the spelling by the ABI's grammar if
    that grammar has one, and belongs to only one text. Answers whether a spelling is wrong, or too few names have one."""
    texts = [text for text, _ in answers(program, WIDE_TEXT, words)]
    read = [(word, text) for word, text in zip(words, texts) if text is not None]
    spelled = answers(program, ["--press", "--wide"], [word for word, _ in read])
    wrong = {why for spelling, why in spelled if spelling is None and why != NO_SPELLING}
    kept = [(word, text, spelling) for (word, text), (spelling, _) in zip(read, spelled) if spelling is not None]
    spellings = [spelling for *_, spelling in kept]
    again = [text for text, _ in answers(program, WIDE_TEXT, spellings)]
    wrong |= {word for (word, text, _), other in zip(kept, again) if other != text}
    wrong |= {word for (word, _, spelling), (twice, _) in zip(kept, answers(program, ["--press", "--wide"], spellings)) if twice != spelling}
    first = answers(program, ["--press"], [word for word, *_ in kept])
    wrong |= {word for (word, _, spelling), (other, _) in zip(kept, first) if other not in (None, spelling)}
    of_spelling = {}
    wrong |= {word for word, text, spelling in kept if of_spelling.setdefault(spelling, text) != text}
    for word in sorted(wrong):
        print("by the wide grammar:", word)
    print(f"{len(kept)} of {len(read)} names have a spelling by the wide grammar, {len(wrong)} of them a wrong one")
    return bool(wrong) or len(kept) < LEAST_SPELLED * len(read)


def main():
    if len(sys.argv) < 2:
        sys.exit(__doc__)
    program, *files = sys.argv[1:]
    failed = check_pairs(program, [])
    failed |= check_pairs(program, ["--wide"])
    for name in [os.path.abspath(it) for it in files] or FRESH_NAMES:
        failed |= check_wide(program, list(dict.fromkeys(word for word in lines_of(name) if word.startswith("_Z"))))
    sys.exit(1 if failed else 0)


if __name__ == "__main__":
    main()
