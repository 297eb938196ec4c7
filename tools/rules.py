"""The rules of C++'s grammar. From the tables cpp_names.txt, cpp_types.txt, cpp_arguments.txt, cpp_wide_forms.txt and cpp_expressions.txt
it makes the productions with their symbols and rows, the kinds with their alternatives, and the names of productions in code and
definitions. cpp_names.txt says how a rule is written."""
import re

import cpp_trees
import vocabulary as words
from files import sections

LETTERS = "abcdefghijklmnopqrstuvwxyzABCDEFGHIJKLMNOPQRSTUVWXYZ"
DIG = "0123456789"
NAME, DECIMAL, SEQ36, DIGITS = "Name", "Decimal", "Seq36", "Digits"
# the tokens, each with the bytes that may begin it
TOKENS = {NAME: DIG, DECIMAL: DIG + "_", SEQ36: DIG + "ABCDEFGHIJKLMNOPQRSTUVWXYZ_", DIGITS: DIG}
FILES = ("cpp_names.txt", "cpp_types.txt", "cpp_arguments.txt", "cpp_wide_forms.txt", "cpp_expressions.txt")
# productions: name -> (eats, symbols); and what each does: name -> its row
P, ROWS = {}, {}
# kinds: name -> (may be empty, [(class, production)]). The ABI's grammar is the wide one less the alternatives that are marked here
K, MARKED = {}, []         # (kind, class, production)
# productions that mean the same and differ in what may come in them, by an enum of their own: name -> its productions
ALIKE = {}
# the family of each production, and its place among the family's arms; and the common productions with code before their parts
FAMILY, WITH_CODE_BEFORE, MOST_ARMS = {}, set(), 256
# the lemma of what a production's bytes pay for, if the lemma's name isn't that of the production: in one kind, or in any
PAYS = {}
# the ABI's lines above a production, and the comment on productions that mean the same
ABOVE = {}
# the number of the production that no row of letters has, since its byte is the blank
BLANK = ord(" ")

def letters_of(literals, after_d):
    """The letters of builtin types with a code of one letter, or after D, whose literals are of these sorts."""
    return "".join(code[-1] for code, text, literal in words.BUILTINS if (len(code) == 2) == after_d and literal in literals)

ANY = {literal for _, _, literal in words.BUILTINS}
CLASSES = {
    "@WORD": LETTERS + DIG + "_.$", "@DIGIT": DIG, "@HEX": DIG + "abcdef",
    "@BUILTIN": letters_of(ANY, False), "@BUILTIN_WITH_D": letters_of(ANY, True),
    "@WIDE_BUILTIN": "".join(code[1] for code, _ in words.WIDE_BUILTINS), "@INTEGER_TYPE": letters_of({words.INTEGER}, False),
    "@NULL_TYPE": letters_of({words.NULL}, True), "@CHARACTER_TYPE": letters_of({words.CHARACTER}, True),
    "@ABBREVIATION": "".join(letter for letter, _ in words.ABBREVIATIONS), "@SPECIAL": "".join(letter for letter, _ in words.SPECIALS),
    # the letters for names that come after a T
    "@NAMED_SPECIAL": "".join(code[1] for code, _ in words.NAMED_SPECIALS if code[0] == "T"),
}
for code, _ in words.OPERATORS:
    CLASSES["@OPERATOR_" + code[0].upper()] = CLASSES.get("@OPERATOR_" + code[0].upper(), "") + code[1]

def production(name, eats, symbols, row):
    """Enters a production. It may be entered again unchanged."""
    entered = (eats, symbols)
    assert not symbols or P.get(name, entered) == entered, f"{name} is entered with other symbols"
    assert not row or ROWS.get(name, row) == row, f"{name} is entered with another row"
    P.setdefault(name, entered)
    if row:
        ROWS[name] = row

def row_of(texts):
    """A row, from its words."""
    row = dict(text.split(" ", 1) for text in texts if text.split()[0] not in ("family", "pays"))
    return {**row, "nodes": int(row["nodes"])} if "nodes" in row else row

def enter_aside(name, texts):
    """Enters what a production has apart from its row: its family, in which productions without a place come after those with one, and the
    lemma of what its bytes pay for, in each kind or in one."""
    for word, rest in (text.split(" ", 1) for text in texts):
        if word == "family":
            family, *place = rest.split()
            FAMILY[name] = family, int(place[0]) if place else MOST_ARMS
            WITH_CODE_BEFORE.update({name} if "before" in place else ())
        if word == "pays":
            PAYS.update({(*kind.split(), name): lemma for kind, _, lemma in (said.rpartition(": ") for said in rest.split("; "))})

def families():
    """The productions of each family, in the order of their arms."""
    if not FAMILY:
        build()
    rare = [line.split(": ")[0] for _, lines in sections("cpp_families.txt") for line, _ in lines]
    found = {family: [] for family in [*rare, "Common"]}
    for name, (family, _) in sorted(FAMILY.items(), key=lambda entry: entry[1][1]):
        found[family].append(name)
    return found

class Reader:
    """The names that rules refer to: groups, and the first rule of each production."""
    def __init__(self, extended):
        self.extended, self.groups, self.first = extended, {}, {}

    def rule(self, line, above):
        """The rule of a line, entered: the bytes at which it is taken, or nothing, and its production."""
        rule, *row = line.split(" | ")
        taken, name, *symbols = rule.split()
        taken = None if taken == "-" else CLASSES.get(taken, taken)
        production(name, taken is not None, symbols, row_of(row))
        enter_aside(name, row)
        if above:
            ABOVE.setdefault(name, above)
        self.first.setdefault(name, (taken, name))
        return taken, name

    def wrappers(self):
        """The rules of the wrappers."""
        for tree, name, letter in cpp_trees.WRAPPERS if self.extended else []:
            yield self.rule(f"{letter} {name} Type | means {tree}(t0) | family CompoundType 0", [f"<type> ::= {letter} <type>"])

    def named(self, text):
        """The rules of groups and of productions, except one."""
        names, _, but = text.partition(" but ")
        for name in names.split():
            assert name == "wrappers" or name in self.groups or name in self.first, f"no rule {name}"
            rules = self.wrappers() if name == "wrappers" else self.groups.get(name) or [self.first[name]]
            yield from (rule for rule in rules if rule[1] != but)

    def rules(self, line, above):
        """The rules of a line."""
        first, _, rest = line.partition(" ")
        if first == "later":
            return self.rules(rest, above) if self.extended else []
        if first == "wide":
            return [(*rule[:2], "wide") for rule in self.rules(rest, above)]
        if first == "=":
            return list(self.named(rest))
        return [self.rule(f"{rest} Mark" if first == "mark" else line, above)]

def build(extended=True, widened=False):
    """Enters one of the grammars: with vector types and the like or without them, and the wide one."""
    for table in (P, ROWS, K, MARKED, ALIKE):
        table.clear()
    reader = Reader(extended)
    for head, lines in (section for name in FILES for section in sections(name)):
        sort, *names = head.split()
        if sort == "alike":
            ALIKE[names[0]] = [production for line, above in lines for production in line.split()]
            ABOVE[names[0]] = [comment for line, above in lines for comment in above]
            continue
        rules = [rule for line, above in lines for rule in reader.rules(line, above)]
        if sort == "group":
            assert names[0] not in reader.groups, f"two groups {names[0]}"
            reader.groups[names[0]] = rules
        elif sort == "kind":
            MARKED.extend((names[0], *rule[:2]) for rule in rules if len(rule) == 3)
            K[names[0]] = ("empty" in names, [rule[:2] for rule in rules if len(rule) == 2 or widened])
    for name, members in ALIKE.items():
        meant = [(P[member][0], ROWS[member]) for member in members if member in P]
        assert all(one == meant[0] for one in meant), f"productions of {name} that don't mean the same"
    put_in_order()

def put_in_order():
    """Puts the productions in the order of their numbers. Those of the ABI's grammar come first, since the letters of its rows are these
    numbers. The last of them have the numbers of control bytes, and one of the wide grammar's own productions has the number of the blank."""
    common = {rule[1] for kind, (_, rules) in K.items() for rule in rules if (kind, *rule) not in MARKED}
    first, own = ([(name, P[name]) for name in P if (name in common) == there] for there in (True, False))
    own.reverse()
    P.clear()
    P.update(first[-BLANK:] + own[-1:] + first[:-BLANK] + own[:-1])

# ## How productions are named: those that mean the same are an enum of their own, within one variant of the others', so that what is known
# of a production by its meaning has one case for all of them

# an enum has no more
MOST_VARIANTS = 256

def group_of(production):
    """The name of the productions that mean the same as this one, if there are several."""
    return next((name for name, members in ALIKE.items() if production in members), None)

def defined(production):
    """A production in definitions."""
    group = group_of(production)
    return f"(Production.{group} {group}.{production})" if group else f"Production.{production}"

def coded(production):
    """A production in code, after the name of the enum."""
    group = group_of(production)
    return f"{group}({group}::{production})" if group else production

def met(values):
    """Each case of what is known of productions, with the value: a production, or the name of several with the same value."""
    groups = {name: {values.get(member, "none") for member in members} for name, members in ALIKE.items()}
    for production, value in values.items():
        group = group_of(production)
        if not group or len(groups[group]) > 1:
            yield production, value
        elif production == ALIKE[group][0]:
            yield group, value

def defined_cases(values):
    """The cases in definitions: the pattern of each, and the value."""
    return [(f"(Production.{case} _)" if case in ALIKE else defined(case), value) for case, value in met(values)]

def coded_cases(values):
    """The cases in code: the name of each, its pattern after the name of the enum, and the value."""
    return [(case, f"{case}(_)" if case in ALIKE else coded(case), value) for case, value in met(values)]

def imports(lines):
    """The lines by which definitions import productions that mean the same, if these lines name them. Each import begins a new line."""
    named = [name for name in ALIKE if re.search(rf"(?<!Production\.)\b{name}\b", "\n".join(lines))]
    return "".join(f"\nuse Rattle.cpp_grammar.specs.declared.production.{name}.{{{name}}}" for name in named)

def variants(productions):
    """The variants of the enum: the productions, and one variant for all productions that mean the same."""
    groups = {members[0]: f"{name}({name})" for name, members in ALIKE.items()}
    found = [groups.get(production, production) for production in productions if not group_of(production) or production in groups]
    assert len(found) <= MOST_VARIANTS, "more productions than variants: some that mean the same may be an enum of their own"
    return found
