#!/usr/bin/env python3
"""Writes the rows of crates cpp_grammar and cpp_press_laws that compute their definitions at single symbols.
usage: rows.py REFERENCE GENERATOR CRATES
REFERENCE is a Python module with demangle(symbol, limit, brief) that answers (answer, at, text, cost), and press(symbol) that answers
the pressed spelling; GENERATOR is one with symbols(seed, count, lang, mode, size=, wild=). CRATES is the folder of the crates. The
symbols that are printed are in cpp_symbols.txt, those that are pressed in crates/check_rows/stdin."""
import os
import re
import sys

from files import load, read, sections, template

HERE = os.path.dirname(os.path.abspath(__file__))
# the comments on rows of symbols that are printed, and on rows of symbols that are pressed
SORTS = {sort: [tuple(line.split(" ", 1)) for line, _ in lines] for sort, lines in sections("rows.txt")}
REFUSED = {"BadReference": "refers_badly {0} {1}", "BadValue": "counts_badly {0} {1}", "Malformed": "has_no_shape {0}"}

def quoted(text):
    """Each byte as the character with its number, as `codes` reads them."""
    return '"' + text.decode("latin-1").replace("\\", "\\\\").replace('"', '\\"') + '"'

def row(reference, symbol, brief=False):
    """The row of a symbol, or nothing where its text is too long to be written down."""
    answer = reference.demangle(symbol, 4_000, brief)
    if answer.answer == "text":
        return f"{'briefly' if brief else 'prints'} {quoted(symbol)} {quoted(answer.text)} {answer.cost}"
    return REFUSED.get(answer.answer, "").format(quoted(symbol), answer.at)

def pressed_row(reference, symbol):
    """The row of a symbol that is pressed."""
    return f"presses {quoted(symbol)} {quoted(reference.press(symbol))}"

def chosen(symbols, most, seen):
    """The symbols among these that are new, plain and of 8 to `most` bytes."""
    for symbol in symbols:
        is_plain = all(33 <= byte < 127 or 161 <= byte and byte != 173 for byte in symbol)
        if symbol not in seen and is_plain and symbol.startswith(b"_Z") and 8 <= len(symbol) <= most:
            yield symbol

def listed(reference):
    """The rows of the symbols that are listed."""
    for words in (line.split() for line in read(f"{HERE}/cpp_symbols.txt").split("\n")):
        if words and not words[0].startswith("#"):
            text = row(reference, words[-1].encode(), words[0] == "brief")
            assert text, words
            yield text

def generated(reference, generator):
    """The rows of generated symbols, a given number of each sort."""
    seen = {}
    for seed, count, mode, size, wild, kinds, wanted in (
            (11, 4000, "valid", 8, 0.0, ("prints",), 130), (12, 4000, "valid", 14, 0.0, ("prints",), 60),
            (13, 20000, "valid", 12, 0.4, ("refers_badly", "counts_badly"), 100), (14, 4000, "mutated", 8, 0.0, ("has_no_shape",), 20)):
        before = len(seen)
        for symbol in chosen(generator.symbols(seed, count, "cpp", mode, size=size, wild=wild), 90, seen):
            if len(seen) == before + wanted:
                break
            text = row(reference, symbol)
            if text and len(text) <= 400 and text.split()[0] in kinds:
                seen[symbol] = text
    return list(seen.values())

def listed_presses(reference):
    """The short symbols that are pressed, each with the spelling that the reference gives, too. Long symbols and other names are left out."""
    with open(f"{HERE}/../crates/check_rows/stdin", "rb") as file:
        rows = [line.rstrip(b"\n").split(b"\t") for line in file]
    for words in rows:
        if words[0] == b"press" and words[1].startswith(b"_Z") and len(words[1]) <= 120:
            text = pressed_row(reference, words[1])
            assert text == f"presses {quoted(words[1])} {quoted(words[2])}", words
            yield text

def generated_presses(reference, generator):
    """Symbols that are read: a given number whose spelling changes, and a given number whose spelling stays."""
    seen = {}
    for seed, count, size, changed, same in ((21, 8000, 8, 60, 20), (22, 8000, 14, 50, 10)):
        left = {True: changed, False: same}
        for symbol in chosen(generator.symbols(seed, count, "cpp", "valid", size=size, wild=0.0), 120, seen):
            differs = row(reference, symbol).startswith("prints ") and reference.press(symbol) != symbol
            if row(reference, symbol).startswith("prints ") and left[differs]:
                left[differs] -= 1
                seen[symbol] = pressed_row(reference, symbol)
    return list(seen.values())

def names_in(crates, module, unused):
    """The definitions of a module that rows unfold."""
    text = read(f"{crates}/{module.replace('.', '/')}.antt")
    found = re.findall(r"^unfoldable pub (\S+) :", text, re.M)
    for block in re.findall(r"^unfoldable mutual\n((?:  .*\n|\n)+)", text, re.M):
        found += re.findall(r"^  pub (\S+) :", block, re.M)
    return [name for name in found if name not in unused]

def write(crates, sort, path, title, rows):
    """Writes a module of rows, forty in a group."""
    uses = [rest for word, rest in SORTS[sort] if word == "uses"]
    words, test, unfolds, modules, unused, (module,) = ([word for name, rest in SORTS[sort] if name == wanted for word in rest.split()]
                                                        for wanted in ("words", "test", "unfolds", "modules", "unused", "module"))
    known = {of: names_in(crates, of, unused) for of in modules}
    used = ["Row", *(word for word in words if any(text.startswith(word + " ") for text in rows))]
    groups = ["\n".join(f"    {text} ∷" for text in rows[first:first + 40]) for first in range(0, len(rows), 40)]
    text = template("rows/rows.antt", title=title, lines=uses, module=module, used=", ".join(used), test=test, groups=enumerate(groups),
                    names={of: ", ".join(names) for of, names in known.items() if names},
                    unfolded=" ".join([*unfolds, *(name for names in known.values() for name in names)]))
    with open(f"{crates}/{path}.antt", "w", encoding="utf-8") as file:
        file.write(text)

def main(reference, generator, crates):
    """Writes the four files."""
    write(crates, "printed", "cpp_grammar/proofs/ListedRows", "Symbols of each kind, and at the edges of the rules.", [*listed(reference)])
    write(crates, "printed", "cpp_grammar/proofs/GeneratedRows", "Symbols that a generator wrote.", generated(reference, generator))
    write(crates, "pressed", "cpp_press_laws/proofs/Rows/Listed", "Pressed spellings by each rule.", list(listed_presses(reference)))
    write(crates, "pressed", "cpp_press_laws/proofs/Rows/Generated", "Pressed spellings of symbols that a generator wrote.",
          generated_presses(reference, generator))

if __name__ == "__main__":
    main(load(sys.argv[1]), load(sys.argv[2]), sys.argv[3])
