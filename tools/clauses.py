#!/usr/bin/env python3
"""Lists what the public calls of a tree promise, one clause a line, so that two trees can be compared.

    tools/clauses.py [TREE [OTHER]]

A line is a crate, a function (with its type or trait), and one of its clauses: a `requires`, an `ensures`, a law or data of a trait, a
ghost field, a model. Each run of blanks in a clause is written as one. Without a second tree it lists the clauses of the first
(this repository, if none is named). With a second tree it prints the lines that only one of them has, `-` before those of the first
and `+` before those of the second, and ends with status 1 if there are any. A function counts as public if it is `pub`, or is in a
trait or in an `impl` of one. Comments, and where in a crate a function is, don't count.
"""
import re
import sys
from collections import Counter
from pathlib import Path

ROOT = Path(__file__).resolve().parent.parent
PUBLIC = r"\s*(pub(?:\([^)]*\))? )?"
OWNER, FUNCTION = re.compile(PUBLIC + r"(impl|trait)\b(.*)"), re.compile(PUBLIC + r"(?:const )?fn (\w+)")
CLAUSE, TYPE = re.compile(PUBLIC + r"(requires|ensures|ghost(?! use\b))\b"), re.compile(PUBLIC + r"(?:struct|enum) (\w+)")
LITERAL = re.compile(r"b?'(\\.|[^'\\])'|b?\"(\\.|[^\"\\])*\"")

def braces(text):
    """How many braces are open at the end of a text."""
    return text.count("{") - text.count("}")

def owner_of(text):
    """An `impl`'s or a trait's name, without parameters and bounds, and whether all of its functions are public."""
    _, word, rest = OWNER.match(text).groups()
    rest = re.sub(r"\bwhere\b.*|\{.*", "", rest).strip()
    if rest.startswith("<"):
        ends = (at for at in range(len(rest)) if rest[:at].count("<") == rest[:at].count(">") > 0)
        rest = rest[next(ends):].strip()
    name = " ".join(rest.split()) if word == "impl" else "trait " + re.match(r"\w+", rest).group()
    return name, word == "trait" or " for " in name

def joined(file):
    """The lines of a file without comments: an owner up to its brace is one line, and so is a clause."""
    lines = iter([re.sub(r"(^|\s)//.*", "", line) for line in file.read_text().splitlines()])
    for line in lines:
        while (OWNER.match(line) and "{" not in line
               or CLAUSE.match(line) and (braces(line) > 0 or "{" not in line and not line.endswith(";"))):
            line += " " + next(lines).strip()
        yield line

def clauses_of(file):
    """What a file's public calls promise: an owner with a function, and a clause."""
    owner, is_open, function, is_public, depth = "", False, "", False, 0
    for line in joined(file):
        if clause := CLAUSE.match(line):
            # (clauses of functions that aren't public aren't listed)
            if is_public or clause[2] == "ghost":
                text = " ".join(line.split()).replace("( ", "(").replace(" )", ")").rstrip(",;")
                yield f"{owner} {function}".strip(), text
            continue
        if depth == 0 and OWNER.match(line):
            (owner, is_open), function, is_public = owner_of(line), "", True
        elif begins := FUNCTION.match(line):
            function, is_public = begins[2], begins[1] == "pub " or is_open
        elif begins := TYPE.match(line):
            owner, function, is_open, is_public = begins[2], "", False, True
        depth += braces(LITERAL.sub("", line))
        if depth == 0 and line.startswith("}"):
            owner, is_open, function = "", False, ""

def clauses(tree):
    """The clauses of a tree, a line each."""
    folder = Path(tree) / "crates"
    return [f"{file.relative_to(folder).parts[0]} {call}: {clause}" for file in sorted(folder.glob("*/src/**/*.rt"))
            for call, clause in clauses_of(file)]

def main():
    """Lists the clauses of a tree, or those in which two trees differ; returns the status."""
    trees = sys.argv[1:] or [ROOT]
    if len(trees) > 2 or str(trees[0]).startswith("-"):
        sys.exit(__doc__.strip())
    first, *others = map(clauses, trees)
    if not others:
        print("\n".join(first))
        return 0
    lost, new = Counter(first) - Counter(others[0]), Counter(others[0]) - Counter(first)
    for mark, lines in (("-", lost), ("+", new)):
        for line in lines.elements():
            print(mark, line)
    print(f"{len(first)} clauses, then {len(others[0])}: {lost.total()} went, {new.total()} came")
    return 1 if lost or new else 0

if __name__ == "__main__":
    sys.exit(main())
