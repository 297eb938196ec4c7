"""Writes what repeats Rust's basic types and its rules, from vocabulary.py and the table rust_grammar.txt: the code of rust_grammar's
productions and table, the texts and the letters of basic types, code and definitions."""
from string import ascii_lowercase, ascii_uppercase, digits

import vocabulary as words
from files import sections, template, whole
from notation import listed, runs
from table_code import after_each, letter_row, symbol_row

def basic_letters(*sorts):
    """The letters of basic types, or of the basic types that have such constants."""
    return "".join(letter for letter, text, constants in words.BASIC_TYPES if not sorts or constants in sorts)

BASIC, SIGNED, UNSIGNED = basic_letters(), basic_letters(words.SIGNED), basic_letters(words.UNSIGNED)
# what begins a path
PATHS = "BCMXYNI"
CLASSES = {"@BASIC": BASIC, "@SIGNED": SIGNED, "@UNSIGNED": UNSIGNED, "@PATH": PATHS, "@TYPE": PATHS + "ASTRQPOFD" + BASIC,
           "@DIGIT": digits, "@LETTER": ascii_uppercase + ascii_lowercase,
           "@SUFFIX": "$." + digits + ascii_uppercase + "_" + ascii_lowercase}

# the rules by letter, in the order of the letters: production, whether it takes its byte, symbols; the productions by number, and what each
# is; and the kinds by number: for each rule, by its letter, the bytes at which it is taken, and whether it may be empty
RULES, PRODUCTIONS, KINDS = {}, {}, {}
for head, _ in sections("rust_grammar.txt"):
    rule, said = head.split(" | ")
    sort, name, *given = rule.split()
    if sort == "rule":
        PRODUCTIONS[name] = said
        RULES[given[0]] = name, given[1] == "takes", given[2:]
    else:
        KINDS[name] = {taken[0]: CLASSES.get(taken[2:], taken[2:]) for taken in said.split()}, given == ["empty"]
RULES = dict(sorted(RULES.items()))
# for each production its letter, whether it takes its byte, and its symbols
RULE_OF = {production: (letter, takes, symbols) for letter, (production, takes, symbols) in RULES.items()}

def symbol(name):
    """A symbol in code."""
    if name[0] == "'":
        return f"Byte(b{name})"
    return {"Name": "Name", "Base62": "BASE62", "Hex": "HEX"}.get(name, f"Kind({name})")

def table():
    """The rule that a kind takes at a byte."""
    kinds = [(kind, letter_row({byte: letter.replace("\\", "\\\\") for letter, taken in rules.items() for byte in taken}))
             for kind, (rules, _) in KINDS.items()]
    empty = "        " + "\n            | ".join(f"kind::{kind}" for kind, (_, may_be_empty) in KINDS.items() if may_be_empty)
    return whole("rust_grammar/src/table.rt", kinds=kinds, count=len(RULES), empty=empty,
                 heads=[("takes" if takes else "chains", production, len(symbols), letter)
                        for letter, (production, takes, symbols) in RULES.items()],
                 symbols=[(symbol_row(map(symbol, symbols)), f"{letter}: {production}")
                          for letter, (production, _, symbols) in RULES.items()],
                 **after_each([symbols for _, _, symbols in RULES.values()]))

def files(crates):
    """What is written: each file's path in the folder of the crates, and its text."""
    ranges, texts = runs(BASIC, 1)[0], [(ord(letter), text, letter) for letter, text, _ in words.BASIC_TYPES]
    yield table()
    yield whole("rust_grammar/src/production.rt", productions=PRODUCTIONS, numbered=enumerate(PRODUCTIONS))
    yield whole("rust_grammar/specs/BasicLetters.antt", signed=SIGNED, unsigned=UNSIGNED,
                ranges=", ".join(low if low == high else f"{low} to {high}" for low, high in ranges),
                letters=listed(f"range {ord(low)} {ord(high)}" for low, high in ranges))
    # the texts of basic types, in code and in definitions, and the lemma that no byte below the letters has a text
    yield whole("rust_tree/src/basic_types.rt", texts=texts)
    yield "rust_tree/specs/BasicTypes.antt", template("rust_tree/BasicTexts.antt", texts=texts)
    facts = ", ".join(f"ne_eqb {ord(letter)} n (λ e. omega (arith, e, h))" for letter in BASIC)
    yield whole("rust_tree/proofs/BasicTypes.antt", facts=facts)
