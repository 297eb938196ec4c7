"""Reads the files that the scripts take, tables and modules among them, and fills the templates of what they write."""
import importlib.util
import os
import re
import shlex
import sys
from functools import lru_cache

TABLES, TEMPLATES = (os.path.join(os.path.dirname(os.path.abspath(__file__)), folder) for folder in ("tables", "templates"))
NOTHING = object()

def read(path, otherwise=NOTHING):
    """The text of a file, or `otherwise`, if that is given and there is no such file."""
    if otherwise is not NOTHING and not os.path.exists(path):
        return otherwise
    with open(path, encoding="utf-8", errors="replace") as file:
        return file.read()

def sources(folder):
    """The path of each source below a folder. Files that checks leave in `out` are no sources."""
    for at, folders, names in os.walk(folder):
        folders[:] = [name for name in folders if name != "out"]
        yield from (os.path.join(at, name) for name in sorted(names) if name.endswith((".rt", ".antt")))

def lines_of_crates(root):
    """The line of each crate in `crates.txt`, without its comment, by the crate's name."""
    lines = (line.split("#")[0].strip() for line in read(f"{root}/crates.txt").splitlines())
    return {line.split(":")[0].split()[0]: line for line in lines if line}

def load(path):
    """The Python module at a path."""
    spec = importlib.util.spec_from_file_location(os.path.basename(path)[:-3], path)
    module = importlib.util.module_from_spec(spec)
    sys.modules[spec.name] = module
    spec.loader.exec_module(module)
    return module

@lru_cache(maxsize=None)
def sections(name):
    """The sections of a table: the head of each, and the lines that are indented below it, each with the comments above it."""
    found, above = [], []
    for line in read(f"{TABLES}/{name}").split("\n"):
        if line.lstrip().startswith("#"):
            above.append(line.strip()[2:])
            continue
        if line.startswith(" "):
            found[-1][1].append((line.strip(), above))
        elif line:
            found.append((line, []))
        above = []
    return found

def columns(line):
    """What is between the bars of a line."""
    return [column.strip() for column in re.split(r" \|(?= |$)", line)]

def entries(name):
    """The entries of a table by their first words, each with its other words. A word with a blank in it is in quotes."""
    found = {}
    for line, _ in sections(name):
        sort, *words = shlex.split(line)
        found.setdefault(sort, []).append(tuple(words))
    return found

def fill(text, /, **holes):
    """The text with each `@HOLE@` filled: by a text or a number, or by lines, which replace the line of the hole. A hole that ends in
    `_COUNT` is the number of lines. A line that begins with `@HOLE:` is written once for each item, without this front; the item's parts
    are `@0@`, `@1@`, .."""
    def filled(match):
        name = match[1].lower()
        value = holes[name] if name in holes else len(holes[name.removesuffix("_count")])
        return str(value) if isinstance(value, (str, int)) else "\n".join(map(str, value))
    def of_each(match):
        form = re.sub(r"@([A-Z_]+)@", filled, re.sub(r"^@[A-Z_]+:", "", match[0], flags=re.M))
        value = holes[match[2].lower()]
        items = (item if isinstance(item, tuple) else (item,) for item in (value.items() if isinstance(value, dict) else value))
        return "".join(re.sub(r"@(\d)@", lambda part: str(item[int(part[1])]), form) for item in items)
    return re.sub(r"@([A-Z_]+)@|(?m:^@([A-Z_]+):.*\n(?:@\2:.*\n)*)", lambda match: (filled if match[1] else of_each)(match), text)

def template(name, /, **holes):
    """The filled text of a template: a file with `.in` after its name, since the gate checks every file that ends in `.rt` or `.antt`."""
    return fill(read(f"{TEMPLATES}/{name}.in"), **holes)

def whole(path, /, **holes):
    """A file's path in the folder of the crates, and its text: the filled template with the file's name in the folder of its crate."""
    crate, *_, name = path.split("/")
    return path, template(f"{crate}/{name}", **holes)
