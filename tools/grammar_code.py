"""Writes the code and the definitions that hold C++'s grammar: from the table of rules.py and its laws to the files of cpp_grammar, by the
templates of templates/cpp_grammar. grammar.py calls it, once for each of the grammars."""
from files import template, whole
from grammar_laws import klass, sym_class
from notation import listed, runs, snake
from rules import ABOVE, ALIKE, BLANK, K, NAME, P, TOKENS, defined, defined_cases, imports, variants
from table_code import after_each, letter_row, symbol_row

def on(chars, production):
    """An alternative, by the bytes at which it is taken."""
    ranges, singles = runs(chars, 3)
    if ranges:
        return f'on_ranges "{"".join(a + "-" + b for a, b in ranges)}" "{singles}" {defined(production)}'
    return f'on "{singles}" {defined(production)}'

def alternatives():
    """The alternatives of each kind, as a list."""
    return {kind: listed(on(klass(cls, production), production) for cls, production in rules) for kind, (_, rules) in K.items()}

def symbol(symbol, number, byte, part):
    """A symbol of a rule, by how a number, a byte and a part are written."""
    of = sym_class(symbol)
    if of == "token":
        return "Name" if symbol == NAME else number.format(symbol)
    return byte.format(symbol, ord(symbol[1])) if of == "byte" else part(symbol)

def letter(number):
    """A letter, as a byte string has it: the byte with this number."""
    char = chr(number)
    return "\\" + char if char in '"\\' else char if 32 < ord(char) < 127 else f"\\x{ord(char):02x}"

def base(numbers):
    """The number that a row's letters count from: the least one for which the letter of each production is a byte and isn't the blank."""
    found = next(base for base in range(len(P)) if BLANK not in (number - base for number in numbers)
                 and max(numbers, default=0) - base < 256)
    assert found <= min(numbers, default=found), f"productions of one kind have numbers too far apart: {numbers}"
    return found

def rows():
    """The row of each kind in the table: its letters, and the number that they count from."""
    numbers = {production: number for number, production in enumerate(P)}
    for kind, (_, rules) in K.items():
        taken = {byte: numbers[production] for cls, production in rules for byte in klass(cls, production)}
        first = base(taken.values())
        yield kind, letter_row({byte: letter(number - first) for byte, number in taken.items()}), first

def rust_rules(of, row, letters, number):
    """The calls that look a rule up: by a kind's row, the row's letters, and the number of a letter's production."""
    return template("cpp_grammar/rules.rt", table=of, row=row, letters=letters, number=number, count=len(P))

def table():
    """What fills the table of the ABI's grammar: the rule that a kind takes at a byte, and the rules' symbols."""
    kinds, used = list(rows()), {symbol for _, symbols in P.values() for symbol in symbols}
    assert not any(first for _, _, first in kinds), "letters don't count from 0"
    def cell(part):
        return snake(part).upper() if sym_class(part) != "byte" else f"Sym::Byte(b{part})"
    def meant(part):
        return "Sym::" + symbol(part, "Number(NumberKind::{0})", "", lambda kind: f"Kind({list(K).index(kind)})")
    names = [f"{number} {production}" for number, production in enumerate(P)]
    return {"kinds": kinds, "constants": [(cell(part), meant(part)) for part in [*filter(used.__contains__, K), *TOKENS]], "count": len(P),
            "heads": [("takes" if ate else "chains", len(symbols), name) for name, (ate, symbols) in zip(names, P.values())],
            "symbols": [(symbol_row(map(cell, symbols)), name) for name, (_, symbols) in zip(names, P.values())],
            **after_each([symbols for _, symbols in P.values()]),
            "rules": rust_rules("abi", "&LETTERS[kind as usize]", "row", "letter as usize")}

def parts(symbols):
    """The symbols of a rule, in definitions."""
    return listed(symbol(part, "Number {0}", "Byte {1}", "part Kind.{}".format) for part in symbols)

def abi_files():
    """The files of the entered grammar: its kinds and productions, its table, and the same as definitions."""
    may_be_empty = [kind for kind, (empty, _) in K.items() if empty]
    numbers = {production: number for number, production in enumerate(P)}
    yield whole("cpp_grammar/src/kind.rt", kinds=K, numbered=enumerate(K), empty=may_be_empty)
    enums = [("\n".join(f"/// {line}" for line in ABOVE[name]), name, "\n".join(f"    {own}," for own in ALIKE[name])) for name in ALIKE]
    yield whole("cpp_grammar/src/production.rt", productions=variants(P), alike=enums)
    yield whole("cpp_grammar/src/table.rt", **table())
    yield whole("cpp_grammar/specs/Grammar.antt", alike=imports(map(defined, P)), kind_numbers=enumerate(K), alternatives=alternatives(),
                parts=defined_cases({production: parts(symbols) for production, (_, symbols) in P.items()}),
                chains=defined_cases({production: "true" for production, (ate, _) in P.items() if not ate}), empty=may_be_empty,
                kinds=listed(f"Kind.{kind}" for kind in K), productions=listed(map(defined, P)), numbers=defined_cases(numbers))
    yield whole("cpp_grammar/specs/KindNumbers.antt", kind_count=len(K), production_count=len(P),
                kinds=[(number, snake(kind).upper()) for number, kind in enumerate(K)])

def wide_files(after, depth, height):
    """The files of the wide grammar: what a kind takes at a byte, what begins it and may come after it, and the bounds of its trees."""
    yield whole("cpp_grammar/src/wide_table.rt", kinds=list(rows()),
                rules=rust_rules("wide", "&WIDE_ROWS[kind as usize]", "&row.letters", "row.base as usize + letter as usize"))
    yield whole("cpp_grammar/specs/Wide.antt", alike=imports(alternatives().values()), alternatives=alternatives())
    merged = {kind: "".join(f"{low}-{high}" for low, high in runs(after[kind], 1)[0]) for kind in K}
    ranks, heights = ({kind: known[kind] for kind in K if known[kind]} for known in (depth, height))
    yield whole("cpp_grammar/specs/Follow.antt", after=merged, ranks=ranks, heights=heights)

def files_before(later, earlier):
    """The file of the kinds that begin in more ways with vector types and the like, by the alternatives of both grammars."""
    changed = {kind: earlier[kind] for kind in later if earlier[kind] != later[kind]}
    yield whole("cpp_grammar/specs/Before.antt", alike=imports(changed.values()), alternatives=changed)
