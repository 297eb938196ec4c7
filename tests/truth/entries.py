"""Reads the lines that llvm-dwarfdump prints as the entries of the debug information, each with its attributes and its own entries."""

UNITS = {"DW_TAG_compile_unit", "DW_TAG_type_unit", "DW_TAG_partial_unit", "DW_TAG_module"}
CLASSES = {"DW_TAG_structure_type", "DW_TAG_class_type", "DW_TAG_union_type"}
NAMED_TYPES = CLASSES | {"DW_TAG_enumeration_type"}
# The attributes that are read of an entry. The others (places in the code and in the source) are passed over.
ATTRIBUTES = {
    "DW_AT_abstract_origin", "DW_AT_artificial", "DW_AT_byte_size", "DW_AT_const_value", "DW_AT_containing_type", "DW_AT_count",
    "DW_AT_GNU_template_name", "DW_AT_GNU_vector", "DW_AT_linkage_name", "DW_AT_name", "DW_AT_producer", "DW_AT_reference",
    "DW_AT_rvalue_reference", "DW_AT_specification", "DW_AT_type", "DW_AT_upper_bound",
}


class Entry:
    """An entry, with the entries in it."""

    __slots__ = ("tag", "parent", "attributes", "entries", "spelled")

    def __init__(self, tag, parent):
        self.tag, self.parent, self.attributes, self.entries = tag, parent, {}, []
        # its name, after it was spelled
        self.spelled = None

    def text(self, attribute="DW_AT_name"):
        """An attribute that is a text, without its quotes."""
        value = self.attributes.get(attribute, "")
        return value[1:-1] if value.startswith('"') else None

    def number(self, attribute):
        """An attribute that is a number, or None where it isn't one."""
        try:
            return int(self.attributes.get(attribute, ""), 0)
        except ValueError:
            return None

    def has(self, attribute):
        return attribute in self.attributes


class Entries:
    """All entries of an object file, by their places."""

    def __init__(self, lines):
        self.by_place = {}
        open_entries, entry = [], None
        for line in lines:
            if line.startswith("0x"):
                place, _, rest = line.partition(":")
                tag = rest.strip()
                depth = len(rest) - len(rest.lstrip())
                while open_entries and open_entries[-1][0] >= depth:
                    open_entries.pop()
                entry = self.add(place, tag, depth, open_entries)
            elif entry is not None:
                name, _, value = line.strip().partition("\t")
                if name in ATTRIBUTES:
                    entry.attributes[name] = value[1:-1]

    def add(self, place, tag, depth, open_entries):
        """The entry that a line begins; None for a line that ends a list, or that is a unit's head."""
        if not tag.startswith("DW_TAG_"):
            return None
        parent = open_entries[-1][1] if open_entries else None
        entry = Entry(tag, parent)
        open_entries.append((depth, entry))
        self.by_place[int(place, 16)] = entry
        if parent is not None:
            parent.entries.append(entry)
        return entry

    def __iter__(self):
        return iter(self.by_place.values())

    def at(self, entry, attribute="DW_AT_type"):
        """The entry that an attribute refers to, or None where there is no such attribute."""
        value = entry.attributes.get(attribute, "")
        return self.by_place.get(int(value.split()[0], 16)) if value.startswith("0x") else None

    def without(self, tags, entry):
        """The entry, or else the first type under it that has none of these tags."""
        while entry is not None and entry.tag in tags:
            entry = self.at(entry)
        return entry

    def declared(self, entry):
        """The declaration of an entry: a definition, or a copy, refers to its declaration."""
        seen = set()
        while id(entry) not in seen:
            seen.add(id(entry))
            entry = self.at(entry, "DW_AT_abstract_origin") or self.at(entry, "DW_AT_specification") or entry
        return entry

    def producer(self):
        """The compiler that made the debug information, as `GNU C++20 12.2.0`."""
        return next((it.text("DW_AT_producer") or "" for it in self if it.tag == "DW_TAG_compile_unit"), "")
