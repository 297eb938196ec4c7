#!/usr/bin/env python3
"""Prints or compares the interface of the C library as the header declares it, one thing a line: versions, numbers, sizes and offsets,
signatures, and what the shared library exports.

    tests/callers/interface.py HEADER LIBRARY           prints it
    tests/callers/interface.py HEADER LIBRARY LIST      names what differs from LIST; the status is 1 where something differs

Callers see each change of LIST: it belongs into CHANGELOG.md, and into the version.
"""

import os
import re
import subprocess
import sys
import tempfile

TYPES = {
    "symdemangle_result": ["length", "offset", "status"],
    "symdemangle_part": ["role", "start", "length", "from", "to"],
    "symdemangle_name": ["length", "count", "offset", "status", "kind", "mangling"],
    "symdemangle_counts": ["rows", "nodes", "steps"],
    "symdemangle_tally": ["words", "replaced", "refused"],
}


def run(*words):
    return subprocess.run(words, check=True, capture_output=True, text=True).stdout


def signatures(header):
    """Each function, with its types as the compiler reads them."""
    with tempfile.TemporaryDirectory() as folder:
        told = os.path.join(folder, "told")
        run("cc", "-std=c99", "-fsyntax-only", "-aux-info", told, "-x", "c", header)
        with open(told, encoding="utf-8") as file:
            text = re.sub(r"/\*.*?\*/", "", file.read())
    return sorted(line.replace("extern ", "").strip() for line in text.splitlines() if "symdemangle_" in line)


def numbers(header):
    """Each number that the header names, and the layout of the types in memory."""
    with open(header, encoding="utf-8") as file:
        names = re.findall(r"^ +(SYMDEMANGLE_\w+) = \d+", file.read(), re.M)
    names += ["SYMDEMANGLE_VERSION", "SYMDEMANGLE_DEFAULT_LIMIT"]
    lines = [f'printf("{name} %d\\n", (int){name});' for name in names]
    for name, fields in TYPES.items():
        lines.append(f'printf("{name} %zu\\n", sizeof({name}));')
        for field in fields:
            lines.append(f'printf("{name}.{field} %zu %zu\\n", offsetof({name}, {field}), sizeof((({name} *)0)->{field}));')
    program = f'#include "{os.path.abspath(header)}"\n#include <stdio.h>\nint main(void)\n{{\n' + "\n".join(lines) + "\nreturn 0;\n}\n"
    with tempfile.TemporaryDirectory() as folder:
        source, made = os.path.join(folder, "numbers.c"), os.path.join(folder, "numbers")
        with open(source, "w", encoding="utf-8") as file:
            file.write(program)
        run("cc", "-std=c99", source, "-o", made)
        return run(made).splitlines()


def exports(library):
    """The name of the shared library, and each name that it exports."""
    name = re.search(r"SONAME +(\S+)", run("objdump", "-p", library))[1]
    return [f"soname {name}"] + sorted(f"export {line.split()[-1]}" for line in run("nm", "-D", "--defined-only", library).splitlines())


def main():
    if len(sys.argv) not in (3, 4):
        sys.exit(__doc__)
    header, library = sys.argv[1:3]
    found = numbers(header) + signatures(header) + exports(library)
    if len(sys.argv) == 3:
        print("\n".join(found))
        return
    with open(sys.argv[3], encoding="utf-8") as file:
        wanted = file.read().splitlines()
    gone, new = [line for line in wanted if line not in found], [line for line in found if line not in wanted]
    for line in gone:
        print(f"- {line}")
    for line in new:
        print(f"+ {line}")
    print(f"{len(found)} lines, {len(gone)} gone, {len(new)} new")
    sys.exit(1 if gone or new else 0)


if __name__ == "__main__":
    main()
