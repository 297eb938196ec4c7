"""The words that symbols are made of: reads tables/vocabulary.txt into lists. From these lists grammar.py, words.py and rust_grammar.py
write every table of words, in code and in definitions."""
import re

import cpp_trees
from files import entries

TABLE = entries("vocabulary.txt")

# the sort of a builtin type's literals; none where such literals aren't read
INTEGER, CHARACTER, NULL = "integer", "character", "null"
BUILTINS, WIDE_BUILTINS, OPERATORS = TABLE["builtin"], TABLE["wide_builtin"], TABLE["operator"]
ABBREVIATIONS, SPECIALS, NAMED_SPECIALS, ENDINGS = TABLE["abbreviation"], TABLE["special"], TABLE["named_special"], TABLE["ending"]
ALL_SPECIALS = SPECIALS + TABLE["wide_special"]

PLAIN_TEXTS = [(name, *text) if text else (name, cpp_trees.TEXTS[name]) for name, *text in TABLE["text"]]
PLAIN_TEXTS += [(name, text) for name, text in cpp_trees.TEXTS.items() if name not in dict(PLAIN_TEXTS)]

# Rust's basic types, and the sort of constants of each
BASIC_TYPES = TABLE["basic"]
SIGNED, UNSIGNED = "signed", "unsigned"

PRECEDENCES = list(TABLE["precedences"][0])
# how an operand without parentheses is printed
NONE, LEFT, BOTH, LIST = "nothing", "left", "both", "list"

def precedence(name):
    """The number of a precedence, or of the one after it."""
    return PRECEDENCES.index(name.removesuffix("+1")) + name.endswith("+1")

FORMS = {name: row for name, *row in TABLE["form"]}
# what an operation has after the end of its row: no text, and no operand
REST = (None, None, "", NONE, "", NONE, "")

def operation(form, *given):
    """The row of an operation: its code, precedence, text, how the left operand is printed, text, how the right one is, text."""
    row = [re.sub(r"\$(\d)", lambda place: given[int(place[1]) - 1], word) for word in FORMS[form]] if form in FORMS else given
    code, own, front, left, between, right, back = (*row, *REST[len(row):])
    left, right = (how if how in (NONE, LEFT, BOTH, LIST) else precedence(how) for how in (left, right))
    return code, precedence(own), front, left, between, right, back

OPERATIONS = [operation(*line) for line in TABLE["operation"]]
