"""Writes the table of the names that `--short` makes shorter, as code: from tools/tables/short_names.txt."""
import textwrap

from files import entries, whole
from table_code import in_rows

HOLES = {"%0": 0, "%1": 1, "std::": 2, "%t": 3}

def pattern(text):
    """The bytes of a pattern: each hole is one byte."""
    for hole, byte in HOLES.items():
        text = text.replace(hole, chr(byte))
    return text

class Texts:
    """All texts of the table, one after the other, each once."""
    def __init__(self):
        self.texts, self.places, self.end = [], {}, 0

    def place(self, text):
        """Where a text is, as code."""
        if not text:
            return "NO"
        if text not in self.places:
            self.places[text] = (f"T{len(self.texts)}", self.end, self.end + len(text))
            self.texts.append(text)
            self.end += len(text)
        return self.places[text][0]

def templates():
    """Each template with the patterns of its arguments, in the table's order."""
    for words in entries("short_names.txt")["template"]:
        colon = words.index(":")
        yield from ((name, ["" if word == "-" else pattern(word) for word in words[colon + 1:]]) for name in words[:colon])

def escaped(text):
    """A text within a byte string."""
    return "".join(c if c >= " " else f"\\x{ord(c):02x}" for c in text)

def flags(firsts):
    """For each byte 1 if it is in a set, else 0, within a byte string, 32 in a line."""
    bits = ["1" if chr(byte) in firsts else "0" for byte in range(256)]
    return ["    " + "".join(bits[k:k + 32]) + ("\\" if k < 224 else "") for k in range(0, 256, 32)]

def marks_of(groups, place):
    """For each byte a bit for each group of texts: whether a text of the group has the byte in a place; in the formatter's layout."""
    found = [sum(1 << bit for bit, group in enumerate(groups) if any(ord(text[place]) == byte for text in group)) for byte in range(256)]
    return textwrap.wrap(" ".join(f"{marks}," for marks in found), 99, initial_indent="    ", subsequent_indent="    ")

def whole_list(arguments, defaults):
    """The list of a template in `std` with the defaults after some arguments."""
    elements = [*arguments]
    for default in defaults[len(elements):]:
        for byte, text in {"\0": elements[0], "\2": "std::"}.items():
            default = default.replace(byte, text)
        elements.append(default)
    return f"<{', '.join(elements)}>"

def scoped(names, front=""):
    """These names, each as a scope."""
    return [f"{front}{name}::" for name in names]

def files(crates):
    """The path and the text of the file."""
    texts, rows, aliases, defaults_of, of = Texts(), [], [], [], {}
    listed = entries("short_names.txt")
    for alias, name, arguments in listed["alias"]:
        of.setdefault(name, []).append((alias, arguments))
    own, are_polymorphic = sorted(templates(), key=lambda entry: len(entry[0])), [name for words in listed["pmr"] for name in words]
    for name, defaults in own:
        first, first_default = len(aliases), len(defaults_of)
        aliases += [(texts.place(name), texts.place(pattern(given)), texts.place(alias), alias) for alias, given in of.pop(name, [])]
        defaults_of += [(texts.place(default), name) for default in defaults]
        polymorphic = defaults[-1].replace("\2allocator", "\2pmr::polymorphic_allocator") if name in are_polymorphic else ""
        rows.append((texts.place(name), len(defaults), first_default, texts.place(polymorphic), first, len(aliases), name))
    assert not of, of
    inlines, inners = scoped(name for sort in ("part", "whole", "other") for name in listed[sort][0]), scoped(listed["inner"][0])
    lists = {"wholes": [*scoped(listed["whole"][0], "std::"), "std::"], "parts": scoped(listed["part"][0]), "inlines": inlines,
             "inners": inners, "inner_inlines": scoped(listed["nested"][0])}
    places = {name: [(texts.place(text), text) for text in shown] for name, shown in lists.items()}
    groups, std = [inlines, *([f"{name}"] for name in listed["inner"][0])], texts.place("std::")
    sizes, all_texts = [len(name) for name, _ in own], "".join(texts.texts)
    string, string_list = next((row, whole_list(["char"], defaults)) for row, (name, defaults) in enumerate(own) if name == "basic_string")
    firsts = [sum(size < most for size in sizes) for most in range(max(sizes) + 2)]
    yield whole("short_names/src/table.rt", std=std, marks=in_rows([ord(name[0]) + 256 * ord(name[-3]) for name, _ in own], 13),
                places=list(texts.places.values()), longest=len(firsts) - 1, firsts=len(firsts), first=in_rows(firsts, 25),
                texts=escaped(all_texts), texts_length=len(all_texts), templates=rows, defaults=defaults_of, aliases=aliases,
                string_template=string, string=[alias for *_, alias in aliases].index("string"), string_size=len(string_list),
                string_list=string_list, usual_firsts=flags({alias[0] for alias, _, _ in listed["alias"]}),
                inline_firsts=marks_of(groups, 0), inline_thirds=marks_of(groups, 2), **places)
