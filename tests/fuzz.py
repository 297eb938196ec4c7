#!/usr/bin/env python3
"""Looks for words that symfilt and another implementation answer differently, and makes them as short as it can.

    tests/fuzz.py SYMFILT REFERENCE [--seed N] [--seconds S] [--size BYTES] [--lang rust|cpp|both] [--wide] [FILE..]

SYMFILT is the built program, REFERENCE another one, as for compare.py. The words are changed symbols: they are cut, flipped or spliced,
they name a part twice, or they have numbers at the edges of their ranges. The symbols are those of FILE, one a line, or of the rows of
crates/check_rows/stdin. Half of the C++ words are made by the grammar's table (derive.py), and are used as they are or changed in these
ways. With --wide both programs read C++ by the wide grammar, and the words are made by it. A word has at most BYTES bytes (400), and the
script ends after S seconds (60). The status is 1 where a word is answered otherwise, 2 where nothing was compared.
"""

import argparse
import os
import random
import re
import subprocess
import sys
import time

from compare import command_of
from derive import Words

HERE = os.path.dirname(os.path.abspath(__file__))
ROWS = os.path.join(HERE, "..", "crates", "check_rows", "stdin")
BATCH = 200
PATIENCE = 60
ANY = "any limit"
OPTIONS = ([], ["--limit", ANY], ["--brief"], ["--press"], ["--limit", "0"])
WIDE_OPTIONS = (["--wide"], ["--wide", "--limit", ANY], ["--wide", "--brief"], ["--wide", "--limit", "0"])
SEPARATORS = b" \n\t,;:<>()[]{}'\"!@#%^&*-+=/\\|?`~\0\x7f"
BYTES = b"_0123456789abcdefghijklmnopqrstuvwxyzABCDEFGHIJKLMNOPQRSTUVWXYZ.$"
DIGITS = BYTES[1:63]
NUMBER = re.compile(rb"[0-9]+|[0-9a-zA-Z]*_")
REFERENCE = re.compile(rb"[BSTLG][0-9a-zA-Z]*_")
EDGES = [0, 1, 9, 10, 35, 36, 61, 62, 127, 128, 999, 1000, 1001, 2**16, 2**31, 2**32 - 1, 2**32, 2**63, 2**64 - 3, 2**64 - 2, 2**64 - 1, 2**64, 2**128 - 1, 2**128]


def spelled(number, base):
    digits = b""
    while True:
        number, digit = divmod(number, base)
        digits = DIGITS[digit : digit + 1] + digits
        if number == 0:
            return digits


def place(rng, word):
    return rng.randrange(len(word) + 1)


def piece(rng, word):
    first, last = sorted((place(rng, word), place(rng, word)))
    return first, last


def cut(rng, word, _others):
    first, last = piece(rng, word)
    return rng.choice((word[:last], word[:first] + word[last:]))


def flip(rng, word, _others):
    at = rng.randrange(len(word)) if word else 0
    byte = rng.choice((rng.choice(BYTES), rng.randrange(1, 256)))
    return word[:at] + bytes([byte]) + word[at + 1 :]


def insert(rng, word, _others):
    at = place(rng, word)
    return word[:at] + bytes([rng.choice(BYTES)]) + word[at:]


def splice(rng, word, others):
    other = rng.choice(others)
    return word[: place(rng, word)] + other[place(rng, other) :]


def double(rng, word, _others):
    first, last = piece(rng, word)
    return word[:last] + word[first:last] + word[last:]


def refer_twice(rng, word, _others):
    """Writes a reference twice, or replaces it by another one."""
    found = list(REFERENCE.finditer(word))
    if not found:
        return double(rng, word, _others)
    one = rng.choice(found)
    number = rng.choice((b"", spelled(rng.randrange(len(word)), rng.choice((36, 62)))))
    new = rng.choice((one.group() * 2, one.group()[:1] + number + b"_"))
    return word[: one.start()] + new + word[one.end() :]


def edge(rng, word, _others):
    """Replaces a number by one at the edge of a range, or writes a zero before it."""
    found = list(NUMBER.finditer(word))
    if not found:
        return insert(rng, word, _others)
    one = rng.choice(found)
    ends = b"_" if one.group().endswith(b"_") else b""
    digits = one.group()[: len(one.group()) - len(ends)]
    near = int(digits) + rng.choice((-1, 1)) if digits.isdigit() else 1
    base = rng.choice((10, 16, 36, 62)) if ends else 10
    new = rng.choice((b"0" + digits, spelled(rng.choice(EDGES), base), spelled(max(near, 0), base)))
    return word[: one.start()] + new + ends + word[one.end() :]


MUTATIONS = (cut, flip, insert, splice, double, refer_twice, edge)


def changed(rng, seeds, size):
    word = rng.choice(seeds)
    for _ in range(rng.choice((1, 1, 2, 3, 5))):
        longer = rng.choice(MUTATIONS)(rng, word, seeds)
        if len(longer) <= size:
            word = longer
    return word


def made(rng, seeds, derived, size):
    """Words for one batch. With a grammar, half of them are the grammar's symbols. The others are made by changing these symbols
    and the seeds."""
    fresh = [derived.word() for _ in range(BATCH // 2)] if derived else []
    return fresh + [changed(rng, rng.choice((seeds, fresh or seeds)), size) for _ in range(BATCH - len(fresh))]


def options_of(rng, way):
    """The options of a way to call the programs, perhaps with a limit at which some symbols are too long."""
    return [str(rng.randrange(10, 300)) if word == ANY else word for word in way]


class Pair:
    def __init__(self, symfilt, reference, ways):
        self.symfilt = [symfilt]
        self.reference = command_of(reference)
        self.ways = ways

    def run(self, command, data=b""):
        try:
            done = subprocess.run(command, input=data, stdout=subprocess.PIPE, stderr=subprocess.PIPE, timeout=PATIENCE)
        except subprocess.TimeoutExpired:
            return "not ended", b"", b""
        return done.returncode, done.stdout, done.stderr

    def answers(self, options, words):
        own = self.run([*self.symfilt, *options, "--", *words])
        return own, self.run([*self.reference, *options, "--", *words])

    def texts(self, text):
        own = self.run([*self.symfilt, *self.ways[0]], text)
        return own[:2], self.run([*self.reference, *self.ways[0]], text)[:2]

    def answers_differ(self, options, words):
        own, other = self.answers(options, words)
        return own != other

    def texts_differ(self, text):
        own, other = self.texts(text)
        return own != other


def first_different(differs, words):
    """A word that is answered differently by itself, found among words that are answered differently together."""
    while len(words) > 1:
        half = len(words) // 2
        words = words[:half] if differs(words[:half]) else words[half:]
    return words[0] if differs(words) else None


def shrunk(differs, word):
    """A shorter word that is answered otherwise, too: ever smaller pieces are taken out, as long as PATIENCE lasts."""
    until = time.monotonic() + PATIENCE
    size = max(len(word) // 2, 1)
    while size:
        at = 0
        while at < len(word) and time.monotonic() < until:
            shorter = word[:at] + word[at + size :]
            if differs(shorter):
                word = shorter
            else:
                at += size
        size //= 2
    return word


def is_argument(word):
    try:
        word.decode("utf-8")
    except UnicodeDecodeError:
        return False
    return b"\0" not in word


def compare_words(pair, options, words):
    """A word that is answered otherwise, shrunk, with both answers."""
    if not words or not pair.answers_differ(options, words):
        return None
    word = first_different(lambda some: pair.answers_differ(options, some), words)
    if word is None:
        return f"{options}: words that differ only together: {words!r}"
    word = shrunk(lambda shorter: is_argument(shorter) and pair.answers_differ(options, [shorter]), word)
    own, other = pair.answers(options, [word])
    return f"{options} {word!r}\n  symfilt:   {own!r}\n  reference: {other!r}"


def compare_texts(pair, text):
    """A text that is filtered otherwise, shrunk, with both results."""
    if not pair.texts_differ(text):
        return None
    text = shrunk(pair.texts_differ, text)
    own, other = pair.texts(text)
    return f"filtered {text!r}\n  symfilt:   {own!r}\n  reference: {other!r}"


def seeds_of(files, lang):
    words = []
    for path in files:
        with open(path, "rb") as file:
            words += [line for line in file.read().split(b"\n") if line]
    if not files:
        with open(ROWS, "rb") as file:
            rows = [row.split(b"\t") for row in file.read().split(b"\n")]
        words += [row[3] for row in rows if row[0] in (b"text", b"wide text")] + [row[1] for row in rows if row[0] in (b"refused", b"press")]
    return [word for word in dict.fromkeys(words) if is_of(word, lang)]


def is_of(word, lang):
    begins = {"rust": (b"_R", b"__R"), "cpp": (b"_Z", b"__Z"), "both": (b"_R", b"__R", b"_Z", b"__Z")}
    return word.startswith(begins[lang])


def main():
    parser = argparse.ArgumentParser(usage=__doc__)
    parser.add_argument("symfilt")
    parser.add_argument("reference")
    parser.add_argument("files", nargs="*")
    parser.add_argument("--seed", type=int, default=1)
    parser.add_argument("--seconds", type=float, default=60)
    parser.add_argument("--size", type=int, default=400)
    parser.add_argument("--lang", choices=("rust", "cpp", "both"), default="both")
    parser.add_argument("--wide", action="store_true")
    asked = parser.parse_args()
    rng = random.Random(asked.seed)
    pair = Pair(asked.symfilt, asked.reference, WIDE_OPTIONS if asked.wide else OPTIONS)
    seeds = [word for word in seeds_of(asked.files, asked.lang) if len(word) <= asked.size]
    if not seeds or pair.run([asked.symfilt, "--version"])[0] != 2:
        print("there is no symbol to begin with" if not seeds else f"{asked.symfilt} isn't the program", file=sys.stderr)
        sys.exit(2)
    derived = None if asked.lang == "rust" else Words(asked.wide, rng, asked.size)
    until = time.monotonic() + asked.seconds
    compared = found = batches = 0
    while time.monotonic() < until:
        words = [word for word in made(rng, seeds, derived, asked.size) if is_of(word, asked.lang)]
        argued = [word for word in words if is_argument(word)]
        text = b"".join(word + bytes([rng.choice(SEPARATORS)]) for word in words)
        for wrong in (compare_words(pair, options_of(rng, pair.ways[batches % len(pair.ways)]), argued), compare_texts(pair, text)):
            if wrong:
                found += 1
                print(wrong, flush=True)
        compared += len(words)
        batches += 1
    print(f"seed {asked.seed}: {compared} words compared in {batches} batches, {found} differ")
    sys.exit(2 if compared == 0 else 1 if found else 0)


if __name__ == "__main__":
    main()
