#!/usr/bin/env python3
"""Writes an optimised LLVM module of the kit, as text, as one file of C99:

    tools/portable/to_c.py HEAD FROM.ll TO.c

HEAD is a file that TO.c begins with. Functions keep the last part of their Rattle path with three digits of its sum; the whole
path is in a comment above each; functions with the same text are written once, with all their paths. Integers are unsigned, and
cut to their width wherever C's operation is wider; memory is read and written by the calls of prelude.c. The program stops at an
instruction, an intrinsic, a type or a table that it doesn't know.

operands.py and instructions.py read lines, functions.py a function with its order of blocks; wide.py compares bytes together;
nearer.py moves what is computed to where it is used; values.py says which values get a variable, expressions.py and computing.py
write what is computed, blocks.py where control goes, tables.py what is constant."""

import hashlib
import os
import re
import sys
import threading

from blocks import Blocks
from expressions import Structs
from functions import Function
from nearer import bring_nearer
from operands import Line
from tables import NAME, Tables
from wide import widen

# Which instance of a generic function a path is of: the digits after the function's name in C tell the instances apart.
INSTANCE = re.compile(r"::<#[0-9a-f]+>")


class Module:
    """The lines of a module by what they are."""

    def __init__(self, file):
        self.tables, self.functions, self.declarations, self.cold = [], [], [], set()
        current = None
        for line in file:
            line = re.sub(r"\s+; (?:preds|No preds).*$", "", line.rstrip("\n"))
            if current is not None:
                current.append(line)
                if line == "}":
                    self.functions.append(current)
                    current = None
            elif line.startswith("define"):
                current = [line]
            elif line.startswith("@"):
                self.tables.append(line)
            elif line.startswith("declare") and "@llvm." not in line:
                self.declarations.append(line)
            elif line.startswith("attributes") and re.search(r"\bcold\b", line):
                self.cold.add(re.match(r"attributes #(\d+)", line)[1])


def function_names(module, tables):
    """The Rattle path of each function, by its name in C. Functions of C that are called get a prefix, and so does main: port.c has
    these functions, and calls main."""
    paths = {}
    for lines in module.functions:
        of = re.search(NAME, lines[0])[0]
        path = of[1:].strip('"')
        wanted = "port_main" if path == "main" else path
        if " internal " in lines[0] or " private " in lines[0]:
            last = re.sub(r"\W", "", re.sub(r"::<.*", "", path).split("::")[-1])
            wanted = f"{last}_{hashlib.sha256(path.encode()).hexdigest()[:3]}"
        paths[tables.name(wanted, of)] = path
    for line in module.declarations:
        of = re.search(r"@[\w.$\-]+", line)[0]
        tables.name("port_" + of[1:], of)
    return paths


def prototype(line, structs, tables):
    """The declaration of a function of C that the module calls."""
    head = Line(re.sub(r"^declare ", "", line))
    head.attributes()
    result = structs.c_type(head.type())
    name = tables.names[head.next()]
    head.want("(")
    types = []
    while not head.take(")"):
        if head.take("..."):
            continue
        types.append(structs.c_type(head.type()))
        head.attributes()
        head.take(",")
    return f"{result} {name}({','.join(types) or 'void'});\n"


def needed(prelude, used):
    """The parts of the prelude that are used: what follows a line /*: NAMES */ goes with one of these names."""
    lines, keeps = [], True
    for line in prelude.split("\n"):
        names = re.match(r"/\*: (.*) \*/$", line)
        if names:
            keeps = names[1] == "all" or not used.isdisjoint(names[1].split())
        elif keeps:
            lines.append(line)
    return "\n".join(lines)


class Definition:
    """A function's text, in which the names of other functions may still change."""

    def __init__(self, written, structs, module, name, path):
        function = written.function
        self.name, self.paths, self.is_static = name, [path], function.is_static
        words = ("static " if function.is_static else "") + ("COLD " if function.attributes in module.cold else "")
        self.before = f"{words}{structs.c_type(function.result)} "
        self.after = f"({','.join(written.parameters) or 'void'})"
        lines = ["{"]
        for align, names in sorted(written.arrays.items()):
            lines.append(f"{'A16 ' if align > 1 else ''}u8 {','.join(names)};")
        for type_, names in written.variables.items():
            star = "*" if type_.endswith("*") else ""
            lines.append(f"{type_.rstrip('*')} {','.join(star + name for name in names)};")
        lines += [f"(void){name};" for name in written.unused]
        self.body = "\n".join([*lines, *written.lines, "}\n"])

    def signature(self):
        return self.before + self.name + self.after


def merged(definitions, tables):
    """The functions without those that have the text of another function, and the tables with the names of the remaining functions."""
    while True:
        kept, names = {}, {}
        for it in definitions:
            key = (it.before, it.after, it.body) if it.is_static else it.name
            if key in kept:
                names[it.name] = kept[key].name
                kept[key].paths += it.paths
            else:
                kept[key] = it
        definitions = list(kept.values())
        if not names:
            return definitions, tables
        for it in definitions:
            it.body = renamed(it.body, names)
        tables = [renamed(text, names) for text in tables]


def renamed(text, names):
    return re.sub(r"\w+", lambda it: names.get(it[0], it[0]), text)


def translate(head, source, target):
    with open(source, errors="surrogateescape") as file:
        module = Module(file)
    structs, tables = Structs(), Tables()
    paths = function_names(module, tables)
    plain, with_addresses = [], []
    for line in sorted(module.tables, key=lambda line: "ptrtoint" in line or " x ptr]" in line or "<{" in line):
        text, has_addresses = tables.table(line)
        (with_addresses if has_addresses else plain).append(text)
    definitions = []
    for lines in module.functions:
        function = Function(lines)
        widen(function)
        bring_nearer(function)
        written = Blocks(function, structs, tables).write()
        name = tables.names[written.function.name]
        definitions.append(Definition(written, structs, module, name, paths[name]))
    definitions, with_addresses = merged(definitions, with_addresses)
    prototypes = "".join(prototype(line, structs, tables) for line in module.declarations)
    with open(os.path.join(os.path.dirname(os.path.abspath(__file__)), "prelude.c")) as file:
        prelude = needed(file.read(), structs.used)
    with open(head) as file, open(target, "w", errors="surrogateescape") as to:
        to.write(file.read() + prelude + structs.zeroings())
        for type_, name in structs.names.items():
            members = "".join(f"{structs.c_type(part)} f{place};" for place, part in enumerate(type_.parts))
            to.write(f"typedef struct{{{members}}}{name};\n")
        to.write(prototypes + "\n" + "\n".join(sorted(plain)) + "\n" + "\n".join(with_addresses) + "\n")
        to.write("".join(f"{it.signature()};\n" for it in definitions))
        for it in definitions:
            paths_above = dict.fromkeys(INSTANCE.sub("", path) for path in it.paths)
            to.write("".join(f"\n/* {path} */" for path in paths_above) + f"\n{it.signature()}\n{it.body}")
    print(f"{target}: {os.path.getsize(target)} bytes, {len(definitions)} functions of {len(paths)}, {len(tables.names) - len(paths)} tables")


def main():
    if len(sys.argv) != 4:
        sys.exit(__doc__)
    try:
        translate(*sys.argv[1:])
        ended.append(0)
    except SystemExit as stopped:
        print(stopped, file=sys.stderr)


ended = []
sys.setrecursionlimit(100000)
threading.stack_size(512 << 20)  # blocks are nested within blocks
thread = threading.Thread(target=main)
thread.start()
thread.join()
sys.exit(0 if ended else 1)
