#!/usr/bin/env python3
"""Adds entries to the tables of tools/tables, in a copy of the tree: one entry of each sort that takes one line according to
docs/WORKING.md. For each entry the script runs tools/write.py, and prints how many lines that writes, in how many files.

    tests/tables.py

The status is 1 if the scripts refuse an entry, write nothing for it, or have more to write when they are run again. Nothing is proved."""
import os
import re
import shutil
import subprocess
import sys
import tempfile

ROOT = os.path.dirname(os.path.dirname(os.path.abspath(__file__)))
# what is added, its table, the entry that it follows, and its line
ENTRIES = (
    ("a C++ operator with a known first letter", "vocabulary.txt", "operator pt", "operator pq ->?"),
    ("a builtin type after a D", "vocabulary.txt", "builtin Dn", "builtin Dm std::moon none"),
    ("a special name of a type", "vocabulary.txt", "special S", 'special X "fixture for "'),
    ("a special name of a name", "vocabulary.txt", "named_special GR", 'named_special TQ "thread for "'),
    ("an abbreviation", "vocabulary.txt", "abbreviation d", "abbreviation v std::string_view"),
    ("an ending of a literal", "vocabulary.txt", "ending y", "ending n i128"),
    ("a fixed text of C++'s layout", "vocabulary.txt", "text TEMPLATE_NAME", 'text MORE "more "'),
    ("a letter before a type", "cpp_trees.txt", "wrapper complex", 'wrapper imaginary G " _Imaginary" "An imaginary type. Parts: the type of its two halves."'),
    ("a basic type of Rust", "vocabulary.txt", "basic z", "basic g f16 none"),
)


def git(folder, *words):
    """What git says in a folder."""
    given = ["git", "-C", folder, "-c", "user.name=tests", "-c", "user.email=tests@example.com", "-c", "core.hooksPath=/dev/null", *words]
    return subprocess.run(given, capture_output=True, text=True, check=True).stdout


def copied(folder):
    """Copies what the scripts read and write, as a repository of its own."""
    for name in ("callers", "crates", "docs", "tools"):
        shutil.copytree(f"{ROOT}/{name}", f"{folder}/{name}", ignore=shutil.ignore_patterns("out", "__pycache__"))
    shutil.copy(f"{ROOT}/crates.txt", folder)
    git(folder, "init", "-q")
    git(folder, "add", "-A")
    git(folder, "commit", "-qm", "before")


def run(folder):
    """What tools/write.py says, and whether it succeeds."""
    done = subprocess.run([sys.executable, "-B", f"{folder}/tools/write.py"], capture_output=True, text=True, check=False)
    return done.stdout + done.stderr, done.returncode == 0


def written(folder):
    """How many lines were written, and in how many files. Afterwards the copy is as it was before."""
    git(folder, "add", "-A")
    counts = [int(line.split()[0]) for line in git(folder, "diff", "--cached", "--numstat", "--", "crates").splitlines()]
    git(folder, "reset", "-q", "--hard")
    return sum(counts), len(counts)


def add(table, after, line):
    """Puts a line after an entry of a table."""
    with open(table, encoding="utf-8") as file:
        text = file.read()
    found = re.search(rf"^{re.escape(after)} .*\n", text, re.M)
    assert found, f"{table} has no entry {after}"
    with open(table, "w", encoding="utf-8") as file:
        file.write(f"{text[:found.end()]}{line}\n{text[found.end():]}")


def main():
    """Adds one entry after the other to a copy, which is restored before each entry."""
    failed = False
    with tempfile.TemporaryDirectory() as folder:
        copied(folder)
        for says, table, after, line in ENTRIES:
            add(f"{folder}/tools/tables/{table}", after, line)
            said, is_written = run(folder)
            lines, files = written(folder)
            if not is_written or not files:
                print(f"{says}: `{line}` isn't written\n{said[-1000:]}")
                failed = True
            else:
                print(f"{says}: {lines:,} lines in {files} files")
    sys.exit(1 if failed else 0)


if __name__ == "__main__":
    main()
