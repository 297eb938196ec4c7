#!/usr/bin/env python3
"""Runs the built programs on rows of symbols and their answers, and names the rows for which a program gives another answer.

    tests/vectors.py [--demangle DEMANGLE] SYMFILT [FILE..]

SYMFILT and DEMANGLE are the built programs; without DEMANGLE its rows are skipped. Without files the rows are those of
crates/check_rows/stdin; docs/TESTING.md says how rows are written. A row whose word is longer than words of the filter may be is
skipped, and named. The status is 1 where a row doesn't hold, 2 where the program can't be run or there is no row.
"""

import json
import os
import subprocess
import sys

HERE = os.path.dirname(os.path.abspath(__file__))
RUN_BYTES = frozenset(b"ABCDEFGHIJKLMNOPQRSTUVWXYZabcdefghijklmnopqrstuvwxyz0123456789_.$") | frozenset(range(0x80, 0x100))
LONGEST_WORD = 65536
BEGINNINGS = (b"_Z", b"__Z", b"_R", b"__R")
REASONS = (b"malformed at ", b"bad reference at ", b"bad value at ", b"too long", b"no spelling yet")
ESCAPES = {b"\\": b"\\", b"n": b"\n", b"t": b"\t", b"f": b"\xff"}
DETAILS = {b"full": [], b"brief": ["--brief"], b"no-params": ["--no-params"], b"brief-no-params": ["--brief", "--no-params"]}
LEGACY = (["--legacy"], ["--legacy", "--wide"])
PUT = {b"put !": b"!", b"put 0": b"0", b"put ff": b"\xff"}


class Skipped(Exception):
    """Why a row isn't given to the program."""


def unescaped(field):
    """The bytes that a field denotes."""
    front, *rest = field.split(b"\\")
    out, i = front, 0
    while i < len(rest):
        if rest[i]:
            out += ESCAPES[rest[i][:1]] + rest[i][1:]
        else:  # two backslashes in succession
            out += b"\\"
            i += 1
            out += rest[i] if i < len(rest) else b""
        i += 1
    return out


def is_text(word):
    """Whether a word can be on a command line."""
    try:
        word.decode("utf-8")
    except UnicodeDecodeError:
        return False
    return b"\0" not in word and len(word) < 131072


def is_named(word):
    return len(word) <= LONGEST_WORD and word.startswith(BEGINNINGS)


def is_filtered_alone(word):
    """Whether the filter takes a word as it is, and no shorter word within it."""
    return bool(word) and RUN_BYTES.issuperset(word) and not word.endswith(b".")


class Program:
    def __init__(self, path):
        self.path = path
        self.runs = 0
        self.other = None

    def run(self, words, data=b""):
        """Standard output, standard error and the status."""
        self.runs += 1
        done = subprocess.run([self.path, *words], input=data, stdout=subprocess.PIPE, stderr=subprocess.PIPE, timeout=60)
        return done.stdout, done.stderr, done.returncode

    def answers(self, options, words):
        """The answer for each word: a text, or the reason why there is none."""
        out, err, status = self.run([*options, "--", *words])
        complaints = err.split(b"\n")
        lines = out.split(b"\n")
        if complaints.pop() or lines.pop() or len(lines) != len(words):
            return [b"the lines are %r, %r" % (out[-200:], err[-200:])] * len(words)
        if status != (1 if complaints else 0):
            return [b"the status is %d" % status] * len(words)
        answers = []
        for word, line in zip(words, lines):
            begins = b"symfilt: " + word + b": "
            if complaints and complaints[0].startswith(begins) and line == word:
                answers.append(complaints.pop(0)[len(begins) :])
            else:
                answers.append(line)
        return answers if not complaints else [b"complaints are left: %r" % complaints[:3]] * len(words)

    def filtered(self, options, words):
        """What the filter makes of each word, on a line of its own."""
        lines = self.run(options, b"\n".join(words))[0].split(b"\n")
        return lines if len(lines) == len(words) else [b"%d lines" % len(lines)] * len(words)


def differences(words, found, wanted):
    return [f"{word!r}: {is_!r}, not {want!r}" for word, is_, want in zip(words, found, wanted) if is_ != want]


def check_answer(program, options, word, wanted):
    """How the answers for a word, on the command line and in the filter, differ from the wanted one."""
    wrong = differences([word], program.answers(options, [word]), [wanted])
    if is_filtered_alone(word):
        stays = wanted.startswith(REASONS)
        wrong += differences([word], program.filtered(options, [word]), [word if stays else wanted])
    return wrong


def check_text(program, detail, cost, word, text, more=()):
    options = [*more, *DETAILS[detail]]
    cost = int(cost)
    wrong = check_answer(program, [f"--limit={cost}", *options], word, unescaped(text))
    for limit in (cost - 1, 0):
        wrong += check_answer(program, [f"--limit={limit}", *options], word, b"too long")
    return wrong


def check_long(program, detail, cost, word, length):
    options = DETAILS[detail]
    found = program.answers([f"--limit={int(cost)}", *options], [word])[0]
    wrong = [] if len(found) == int(length) else [f"a text of {len(found)} bytes, not {int(length)}"]
    return wrong + check_answer(program, [f"--limit={int(cost) - 1}", *options], word, b"too long")


def check_repeated(program, detail, cost, front, count, repeated, end, length):
    word = front + int(count) * repeated + end
    if len(word) > LONGEST_WORD:
        raise Skipped(f"a word of {len(word)} bytes; the program is given at most {LONGEST_WORD}")
    return check_long(program, detail, cost, word, length)


def check_refused(program, word, reason):
    wrong = check_answer(program, [], word, reason)
    wrong += check_answer(program, ["--limit=0", "--brief"], word, reason)
    # a symbol whose text is too long can be pressed
    return wrong if reason == b"too long" else wrong + differences([word], program.answers(["--press"], [word]), [reason])


def check_refused_by(program, options, word, reason):
    wrong = check_answer(program, options, word, reason)
    return wrong + check_answer(program, [*options, "--limit=0", "--brief"], word, reason)


def check_wide_text(program, *fields):
    return check_text(program, *fields, more=["--wide"])


def check_wide_refused(program, word, reason):
    return check_refused_by(program, ["--wide"], word, reason)


def check_legacy_text(program, *fields):
    return [line for more in LEGACY for line in check_text(program, *fields, more=more)]


def check_legacy_refused(program, word, reason):
    return [line for more in LEGACY for line in check_refused_by(program, more, word, reason)]


def check_oversize(program, front, count, repeated, end):
    size = len(front) + int(count) * len(repeated) + len(end)
    raise Skipped(f"a word of {size} bytes, only for the static library")


def check_nameless(program, word):
    wrong = differences([word], program.answers([], [word]), [b"not a symbol"])
    return wrong + (differences([word], program.filtered([], [word]), [word]) if is_filtered_alone(word) else [])


def check_type(program, cost, name, text):
    """Checks a type by the symbol of its typeinfo, which has the type's text after other words: no option of symfilt reads types."""
    return check_text(program, b"full", cost, b"_ZTI" + name, b"typeinfo for " + text)


def check_refused_type(program, name, answer):
    if not answer.startswith(REASONS):
        raise Skipped("a name that can't be a type, only for the static library")
    reason, place = answer.rsplit(b" ", 1)
    return check_refused(program, b"_ZTI" + name, b"%s %d" % (reason, int(place) + 4))


def check_press(program, word, pressed):
    words, wanted = [word, pressed], [pressed, pressed]
    return differences(words, program.answers(["--press", "--limit=0"], words), wanted)


def check_wide_press(program, word, answer):
    words, wanted = ([word], [answer]) if answer.startswith(REASONS) else ([word, answer], [answer, answer])
    return differences(words, program.answers(["--press", "--wide", "--limit=0"], words), wanted)


def check_tree(program, word, tree):
    """Checks only whether a symbol with a tree has a text, and whether another one is refused: no program shows nodes."""
    found = program.answers([], [word])[0]
    is_right = found == tree if tree.startswith(REASONS) else not found.startswith(REASONS)
    return [] if is_right else [f"{word!r}: {found!r}, and its tree is {tree!r}"]


def changed(change, word, place):
    return word[:place] if change == b"cut" else word[:place] + PUT[change] + word[place + 1 :]


def check_changes(program, change, word, *others):
    wanted = {int(place): unescaped(answer) for place, answer in (other.split(b" ", 1) for other in others)}
    words = [changed(change, word, place) for place in range(len(word))]
    answers = [wanted.get(place, b"malformed at %d" % place) for place in range(len(word))]
    pairs = list(zip(words, answers))
    wrong = [f"{place}: there is no such place" for place in wanted if place >= len(word)]
    argued = [(word, answer if is_named(word) else b"not a symbol") for word, answer in pairs if is_text(word)]
    alone = [(word, word if not is_named(word) or answer.startswith(REASONS) else answer) for word, answer in pairs if is_filtered_alone(word)]
    for run, rows in ((program.answers, argued), (program.filtered, alone)):
        if rows:
            words = [word for word, _ in rows]
            wrong += differences(words, run([], words), [answer for _, answer in rows])
    return wrong


def options_of(field):
    return [] if field == b"-" else field.decode().split(" ")


def check_way(program, grammar, detail, word, way, form):
    """Checks only that there is a text: no program shows which way it was written."""
    options = ([] if detail == b"full" else [b"--" + detail]) + ([b"--wide"] if grammar == b"wide" else [])
    out, err, status = program.run([option.decode() for option in options] + [word.decode()])
    return [] if out and not err and status == 0 else [f"{word!r} has no text: {(out, err, status)!r}"]


def check_filter(program, options, text, wanted):
    out, err, status = program.run(options_of(options), unescaped(text))
    found = (out, err, status)
    return [] if found == (unescaped(wanted), b"", 0) else [f"{found!r}"]


def check_command(program, status, words, out, err):
    found = program.run(options_of(words))
    wanted = (unescaped(out), unescaped(err), int(status))
    same = found == wanted or (err == b"*" and found[1] and (found[0], found[2]) == (wanted[0], wanted[2]))
    return [] if same else [f"{found!r}, not {wanted!r}"]


def check_demangle(program, status, words, text, out, err):
    if program.other is None:
        raise Skipped("a row of the program demangle, which wasn't given")
    arguments = [] if words == b"-" else unescaped(words).split(b" ")
    found = program.other.run(arguments, unescaped(text))
    wanted = (out, err, int(status))
    same = found[2] == wanted[2] and all(got if want == b"*" else got == unescaped(want) for got, want in zip(found, wanted[:2]))
    return [] if same else [f"{found!r}, not {wanted!r}"]


def check_parts(program, word, kind, text, parts):
    """Checks a name's parts in the program's object of JSON, whose texts have U+FFFD for bytes that aren't UTF-8."""
    if program.other is None:
        raise Skipped("a row of the program demangle, which wasn't given")
    out, err, status = program.other.run(["--json", unescaped(word).decode()])
    found = json.loads(out) if status == 0 and not err else {}
    spelled = " ".join("{role}:{start}+{length}@{from}-{to}".format(**part) for part in found.get("parts", ()))
    wanted = (kind.decode(), unescaped(text).decode("utf-8", "replace"), parts.decode())
    return [] if (found.get("kind"), found.get("text"), spelled) == wanted else [f"{(out, err, status)!r}"]


CHECKS = {
    b"text": check_text,
    b"long": check_long,
    b"repeated": check_repeated,
    b"refused": check_refused,
    b"wide text": check_wide_text,
    b"wide refused": check_wide_refused,
    b"legacy text": check_legacy_text,
    b"legacy refused": check_legacy_refused,
    b"oversize": check_oversize,
    b"nameless": check_nameless,
    b"type": check_type,
    b"type refused": check_refused_type,
    b"press": check_press,
    b"wide press": check_wide_press,
    b"tree": check_tree,
    b"parts": check_parts,
    b"way": check_way,
    b"filter": check_filter,
    b"command": check_command,
    b"demangle": check_demangle,
}


def check(program, row):
    what, *fields = row.split(b"\t")
    try:
        if what in CHECKS:
            return CHECKS[what](program, *fields)
        if what == b"cut" or what in PUT:
            return check_changes(program, what, *fields)
    except (TypeError, ValueError, KeyError) as fault:
        return [f"no such row: {fault}"]
    except subprocess.TimeoutExpired:
        return ["the program had not ended after 60 seconds"]
    return ["no such row"]


def main():
    arguments = sys.argv[1:]
    other = None
    if len(arguments) > 1 and arguments[0] == "--demangle":
        other = Program(arguments[1])
        arguments = arguments[2:]
    if not arguments:
        sys.exit(__doc__)
    program = Program(arguments[0])
    program.other = other
    rows = failed = skipped = 0
    try:
        if not program.run(["--version"])[1].startswith(b"symfilt"):
            print(f"{arguments[0]} isn't the program", file=sys.stderr)
            sys.exit(2)
        for path in arguments[1:] or [os.path.join(HERE, "..", "crates", "check_rows", "stdin")]:
            with open(path, "rb") as file:
                lines = file.read().split(b"\n")
            for number, row in enumerate(lines, 1):
                if not row or row.startswith(b"#"):
                    continue
                rows += 1
                try:
                    wrong = check(program, row)
                except Skipped as reason:
                    skipped += 1
                    print(f"{path}:{number}: skipped: {reason}")
                    continue
                if wrong:
                    failed += 1
                    print(f"{path}:{number}: {row[:100].decode(errors='replace')}")
                    for line in wrong[:5]:
                        print(f"    {line[:400]}")
    except OSError as fault:
        print(fault, file=sys.stderr)
        sys.exit(2)
    print(f"{rows} rows, {failed} don't hold, {skipped} skipped; the program was run {program.runs} times")
    sys.exit(2 if rows == skipped else 1 if failed else 0)


if __name__ == "__main__":
    main()
