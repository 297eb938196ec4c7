"""Writes the tables of C++'s words from vocabulary.py: the definitions of cpp_grammar and cpp_layout, the code and the lists of cpp_layout
and cpp_direct, and cpp_link's tables of productions. grammar.py calls it."""
from itertools import accumulate

import vocabulary as words
from files import template, whole
from meanings import ALL_PARTS
from notation import braced, quoted
from rules import ALIKE, CLASSES, coded, defined_cases

# as the ABI has them: const volatile restrict
QUALIFIERS = [[word for bit, word in ((4, "const"), (2, "volatile"), (1, "restrict")) if number & bit] for number in range(8)]
SUFFIXES = ["".join(f" {word}" for word in [*qualifiers, *mark, *end])
            for end in ([], ["noexcept"]) for mark in ([], ["&"], ["&&"]) for qualifiers in QUALIFIERS]
BLANKED = ["".join(f"{word} " for word in qualifiers) for qualifiers in QUALIFIERS[1:]]
# the builtin types of both grammars
BUILTINS = [(code, text) for code, text, literal in words.BUILTINS] + words.WIDE_BUILTINS
# the special names that belong to a name and have a code without T
OTHER_FRONTS = [code for code, _ in words.NAMED_SPECIALS if code[0] != "T"]
# the tables of codes and their texts, by their names in definitions
NAMINGS = {"builtin_texts": BUILTINS, "operator_texts": words.OPERATORS, "abbreviation_texts": words.ABBREVIATIONS,
           "special_texts": words.ALL_SPECIALS, "named_special_texts": [(code[-1], text) for code, text in words.NAMED_SPECIALS],
           "literal_endings": words.ENDINGS}

# ## Definitions

def ended(rows):
    """The rows of a list, each with the text after it: after the last row, the end of the list."""
    return [(*row, "" if number < len(rows) else " []") for number, row in enumerate(rows, 1)]

def grammar_texts():
    """The texts that codes have, as definitions."""
    front = str(ord("T"))
    for code in reversed(OTHER_FRONTS):
        front = f"cond (nat_eq letter {ord(code[1])}) {ord(code[0])} {braced(front)}"
    return whole("cpp_grammar/specs/Texts.antt", special_front=front, **{name: ended(rows) for name, rows in NAMINGS.items()})

# how an operand is printed, in code and in the definitions
HOW = {words.NONE: "NotPrinted", words.LEFT: "AsItIs", words.BOTH: "AsType", words.LIST: "AsList"}

def operations():
    """How operations are printed, as definitions."""
    def operand(how):
        return f"(Operand.From {words.PRECEDENCES[how]})" if isinstance(how, int) else f"Operand.{HOW[how]}"
    rows = [(code, words.PRECEDENCES[own], front, operand(left), between, operand(right), back)
            for code, own, front, left, between, right, back in words.OPERATIONS]
    return whole("cpp_grammar/specs/Operations.antt", precedences=enumerate(words.PRECEDENCES), operations=ended(rows))

# the texts of operations, each once
OPERATION_TEXTS = list(dict.fromkeys(text for row in words.OPERATIONS for text in row[2::2] if text))

# ## cpp_layout's texts

ABBREVIATIONS = [text for _, text in words.ABBREVIATIONS]
# the texts in groups, in the order of their numbers: a new operator, at the end of the last group, renumbers no text
GROUPS = {
    "PLAIN": [text for _, text in words.PLAIN_TEXTS], "SUFFIX": SUFFIXES, "BUILTIN": [text for _, text in BUILTINS],
    "ABBREVIATION": ABBREVIATIONS, "LAST_OF_ABBREVIATION": [text.removeprefix("std::") for text in ABBREVIATIONS],
    "SPECIAL": [text for _, text in words.ALL_SPECIALS], "NAMED_SPECIAL": [text for _, text in words.NAMED_SPECIALS],
    "ENDING": [text for _, text in words.ENDINGS], "BLANKED": BLANKED, "OPERATOR_ALONE": ["operator"],
    "OPERATION": OPERATION_TEXTS, "OPERATOR": ["operator" + text for _, text in words.OPERATORS], "COUNT": [],
}
BEGINS = dict(zip(GROUPS, accumulate([0, *map(len, GROUPS.values())])))
# the functions of texts, each with its groups, in their order: each leaves numbers past its own texts to the next function
TEXT_FUNCTIONS = {name: groups for name, *groups in words.TABLE["function"]}

def text_lists():
    """The texts that no code has, as definitions."""
    return whole("cpp_layout/specs/TextLists.antt", **{name.lower(): ended([(quoted(text),) for text in GROUPS[name]])
                                                       for name in ("PLAIN", "SUFFIX", "BLANKED", "OPERATION")})

def text_arms(group):
    """The arms of the texts of a group: by number, or by the names of the constants."""
    named = {"PLAIN": [name for name, _ in words.PLAIN_TEXTS], "OPERATOR_ALONE": ["OPERATOR_ALONE"]}
    numbers = named.get(group, range(BEGINS[group], BEGINS[group] + len(GROUPS[group])))
    return [(number if text else "NONE", quoted(text)) for number, text in zip(numbers, GROUPS[group])]

def layout_texts():
    """The texts by their numbers, in code."""
    # BLANKED is the number before that of the first text that is blanked
    begins = {name.lower(): str(number - (name == "BLANKED")) for name, number in BEGINS.items()}
    return whole("cpp_layout/src/texts.rt", **begins, operators=len(words.OPERATORS),
                 constants=enumerate(name for name, _ in words.PLAIN_TEXTS),
                 **{function: [arm for group in groups for arm in text_arms(group)] for function, groups in TEXT_FUNCTIONS.items()})

def text_answers():
    """The answers of the functions of texts: past the last text there is none. The prover finds the answer of `remaining_text`."""
    for name, after in zip(TEXT_FUNCTIONS, [*list(TEXT_FUNCTIONS)[1:], None]):
        past = f"omega (arith, {'' if name == 'fixed_text' else 'c.requires, '}c.in_default)"
        goal, value = (f"{after}-requires", past) if after else ("returns-in_default", f"past_last c.args.number ({past})")
        uses = [] if after else ["Rattle.cpp_layout.proofs.Coding.{past_last}"]
        if name != "remaining_text":
            text = template("cpp_layout/text.antt", name=name, uses=uses, goal=goal, value=value)
            yield f"cpp_layout/proofs/texts/{name}/Answers.antt", text

# ## cpp_layout's numbers of codes

class Coded:
    """A function from a letter to the number of a group's text: what it looks up, its rows, its letters, its list and its lemma."""
    def __init__(self, name, letters, table, code, says):
        self.name, self.says, self.dropped = name, says, name.startswith("last_of")
        self.letters, self.lemma, looked_up = f"{letters}_letters", f"no_{letters}", f"look_up ({code}) {table}"
        self.shown = f"drop 5 ({looked_up})" if self.dropped else looked_up
        group = name.removesuffix("_with_d").upper()
        self.rows = [(own[-1], group + (f" + {place}" if place else ""), text.removeprefix("std::" if self.dropped else "").strip())
                     for place, (own, text) in enumerate(NAMINGS[table]) if len(own) == code.count("∷")]
        self.codes = "".join(letter for letter, _, _ in self.rows)

CODED = [Coded(*row) for row in words.TABLE["coded"]]

def layout_codes():
    """The numbers of the texts by their codes, in code."""
    functions = [template("cpp_layout/number_of.rt", says=of.says, name=of.name, shown=of.shown, arms=of.rows) for of in CODED]
    return whole("cpp_layout/src/numbered.rt", functions=[function.rstrip("\n") for function in functions], fronts=map(tuple, OTHER_FRONTS),
                 operators=[(number, *code, text) for number, (code, text) in enumerate(words.OPERATORS)])

def layout_operations():
    """How operations are printed, in code."""
    def text(shown):
        return f"OPERATION + {OPERATION_TEXTS.index(shown)}" if shown else "NONE"
    def how(operand):
        return f"Operand::From({operand})" if isinstance(operand, int) else f"Operand::{HOW[operand]}"
    # the precedences that the code names
    ends = [(name, what, words.PRECEDENCES.index(name))
            for name, what in (("PRIMARY", "operand that needs no parentheses"), ("UNARY", "operator before its operand"))]
    rows = [(f"{own} => {text(front)}, {how(left)}, {text(between)}, {how(right)}, {text(back)}", code.rstrip())
            for code, own, front, left, between, right, back in [*words.OPERATIONS, ("no operation", 0, *words.REST[2:])]]
    return whole("cpp_layout/src/operation_rows.rt", ends=ends, rows=rows, count=len(rows),
                 places=[(place, number, row[0].rstrip()) for place, (row, number) in enumerate(zip(words.OPERATIONS, NUMBERS))])

# the codes of the operations, each as one number
NUMBERS = [ord(code[0]) * 256 + ord(code[1]) for code, *_ in words.OPERATIONS]

def not_among(argument, numbers):
    """The facts that an argument is none of these numbers."""
    return ", ".join(f"ne_eqb c.args.{argument} {number} (omega (arith, c.in_default))" for number in numbers)

def code_answers():
    """The answers of the functions of codes, and the answer that each arm's place is the place of its code in the table."""
    for of in CODED:
        letters, is_builtin = [ord(letter) for letter in of.codes], of.name == "builtin"
        uses = [f"Rattle.cpp_grammar.specs.Texts.{{{', '.join(['look_up', 'same_bytes', *NAMINGS])}}}"] if is_builtin else []
        uses += ["Rattle.std.specs.Prelude.{drop}"] if of.dropped else []
        text = template("cpp_layout/number_of.antt", name=of.name, letters=of.letters, lemma=of.lemma, ap="ap, " if of.dropped else "",
                        front="ap (λ l. drop 5 l) (" if of.dropped else "", back=")" if of.dropped else "", uses=uses,
                        others=not_among("letter", letters), arms=letters if is_builtin else [])
        yield f"cpp_layout/proofs/numbered/{of.name}/Answers.antt", text
    places = template("cpp_layout/place_of.antt", arms=NUMBERS, others=not_among("code", NUMBERS))
    yield "cpp_layout/proofs/operation_rows/place_of/Answers.antt", places

# ## cpp_link's tables

def link_tables(productions, rows, skips):
    """The symbols of each production, and its row, by the production's name; and what is known of each production, as definitions."""
    known = [(name, coded(name), len(parts), str(name in skips).lower(), rows[name].quiet()) for name, parts in productions.items()]
    yield whole("cpp_link/src/tables.rt", enums=", ".join(sorted([*ALIKE, "Production"])), count=len(known), productions=known,
                **{name.lower(): list(productions).index(name) for name in ("Lambda", "Unnamed")})
    yield whole("cpp_link/specs/Tables.antt", skips=defined_cases(dict.fromkeys(skips, True)),
                quiet=defined_cases({name: row.quiet() for name, row in rows.items() if row.quiet() < ALL_PARTS}))

def files(productions, rows, skips):
    """The files, by their paths in the folder of the crates."""
    classes = {name[1:].lower(): letters for name, letters in CLASSES.items()}
    yield from (grammar_texts(), operations(), whole("cpp_grammar/src/operand.rt", how=HOW.values()))
    yield from (layout_operations(), text_lists(), layout_texts(), layout_codes())
    yield whole("cpp_layout/proofs/CodeLetters.antt", **{of.letters: of.codes for of in CODED})
    yield from text_answers()
    yield from code_answers()
    yield whole("cpp_direct/specs/Letters.antt", **classes)
    yield whole("cpp_direct/src/letters.rt", **classes)
    yield from link_tables(productions, rows, skips)
