#!/usr/bin/env python3
"""Prints which names of tests/left_names.txt the program reads now, so that the list keeps only names that the program leaves or answers
differently.

    tests/left.py DEMANGLE

The list has names that compilers write, sorted by form, each with a text that other tools or debug information have for it. The status is 1
where the program answers a name with that text: the name is then taken from the list."""

import os
import subprocess
import sys

LIST = os.path.join(os.path.dirname(os.path.abspath(__file__)), "left_names.txt")


def forms():
    """The names of each form, with their texts."""
    found = {}
    with open(LIST, encoding="utf-8") as file:
        for line in file.read().split("\n"):
            if line.startswith("## "):
                found[line[3:].split(":")[0]] = names = []
            elif line and not line.startswith("#"):
                names.append(line.split("\t"))
    return found


def main():
    if len(sys.argv) != 2:
        sys.exit(__doc__)
    of_forms = forms()
    rows = [row for names in of_forms.values() for row in names]
    lines = "".join(f"{name}\n" for name, _ in rows)
    answers = subprocess.run([sys.argv[1]], input=lines, stdout=subprocess.PIPE, text=True, check=True).stdout.split("\n")
    read = [name for (name, text), answer in zip(rows, answers) if answer == text]
    for name in read:
        print(f"{name} is read: take it from the list")
    print(f"{len(rows)} names of {len(of_forms)} forms, {len(read)} read")
    return 1 if read else 0


if __name__ == "__main__":
    sys.exit(main())
