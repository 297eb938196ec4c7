"""What each production does, by its row and by cpp_words.txt, the table of the words of rows. From these the script makes definitions
of cpp_grammar, the number of nodes that a production makes, and the code that makes them. grammar.py calls it; cpp_names.txt says what
the words of a row mean."""
import re

import cpp_trees
from cpp_trees import NAMED, NUMBER, TREES, called
from files import columns, sections, whole
from node_code import nodes
from notation import applied, braced, camel, listed
from rules import ABOVE, ALIKE, defined, defined_cases
from rust_layout import split

# ## The table of words

# the name of a part in a step
PARTS = ["first", "second", "third"]
HOLES = {"$1": r"(?P<hole_1>\d)", "$2": r"(?P<hole_2>\d)", "$c": "(?P<hole_c>.)",
         **{f"${inner}": f"(?P<hole_{inner}>.*)" for inner in "mwqabd"}}
TABLE = {head: [columns(line) for line, _ in lines] for head, lines in sections("cpp_words.txt")}

class Word:
    """A word with numbers of parts, and its forms: in definitions, in code, and in code of a step. A form that is written by
    hand is empty here."""
    def __init__(self, word, *forms):
        pattern = re.escape(word)
        for hole, group in HOLES.items():
            pattern = pattern.replace(re.escape(hole), group)
        self.pattern, self.forms = re.compile(pattern), [*forms, "", ""]

    def said(self, text, form, nodes_made):
        """What a text means if it is this word, with parts, letters and how many nodes are made."""
        found = self.pattern.fullmatch(text) if self.forms[form] else None
        if not found:
            return ""
        holes = {name[-1]: value for name, value in found.groupdict().items()}
        inner = {name: INNER[name](value, form) for name, value in holes.items() if name in INNER}
        if not all(inner.values()):
            return ""
        part = PARTS[min(int(holes.get("1", 0)), 2)]
        holes |= {**inner, "n": str(nodes_made), "o": str(ord(holes["c"])) if "c" in holes else "", "p": part}
        return re.sub(r"\$([12cnopmwqabd])", lambda hole: holes[hole[1]], self.forms[form])

DEFINITION, CODE, STEP = 0, 1, 2
WORDS = {section: [Word(*line) for line in TABLE[section]] for section in ("means", "made", "arguments", "places", "steps")}

def said(section, text, form=DEFINITION, nodes_made=0):
    """What a text means, if it is made of a section's words; otherwise nothing."""
    return next(filter(None, (word.said(text, form, nodes_made) for word in WORDS[section])), "")

# ## What is made

def filled(path, names, given):
    """A node or a piece with its arguments: with their names, if there are several."""
    if len(names) > 1:
        return f"{path} {{ {', '.join(f'{name}: {part}' for name, part in zip(names, given))} }}"
    return f"{path}({', '.join(given)})" if given else path

def made(text, form=DEFINITION, is_piece=False):
    """A tree or a piece of a name that is made. In code, a piece whose arguments are all numbers has no field names."""
    known, of = said("made", text, form), re.fullmatch(r"(\w+)\((.*)\)", text)
    if known or not of:
        return known or ("only " if form == DEFINITION else "") + argument(text, form)
    name, given = of[1], [said("arguments", one, form) for one in split(of[2])]
    if form == DEFINITION:
        return f"of new_{name} {braced(listed(given))}"
    if name == "builtin":
        return f"Node::Builtin{'WithD' if 'D' in text else ''}(byte)"
    if not is_piece:
        node = next(node for node in nodes() if node.tree == name)
        return filled(f"Node::{node.name}", [field for field, _, _ in node.fields], given)
    arguments = next(arguments for tree, *arguments in TREES if tree == name)
    is_named = any(sort != NUMBER for _, sort in arguments)
    return filled(f"Piece::{camel(name)}", [called(NAMED, name, one) for one, _ in arguments if is_named], given)

def argument(text, form=DEFINITION, section="arguments"):
    """An argument of a tree."""
    return braced(said(section, text, form)) if form == DEFINITION else said(section, text, form)

INNER = {"m": made, "w": lambda text, form: made(text, form, True), "q": lambda text, form: argument(text, form, "places"),
         **dict.fromkeys("abd", argument)}

def pair(means):
    """The letter and the trees of a pair."""
    letter, left, right = split(re.fullmatch(r"pair\((.*)\)", means)[1])
    return said("arguments", letter), made(left), made(right)

def form(text, nodes):
    """What a production denotes."""
    return "a_pair " + " ".join(map(braced, pair(text))) if text.startswith("pair(") else said("means", text, nodes_made=nodes)

def gain(text):
    """What becomes a candidate."""
    if text in ("", "itself"):
        return text or "nothing"
    word, part = text.split()
    return f"{word}_of {part}"

class Step:
    """What is done before a part: as a row says it, and as definitions have it; and the tree that the first part becomes, if it becomes one."""
    def __init__(self, text=""):
        self.text, self.made, self.is_name = text, "", text.startswith("name = ")
        self.definition = said("steps", text) if text else "quiet"
        if not self.definition:
            self.made, *marks = split(text.removeprefix("name = "))
            self.is_listed, self.is_candidate = bool(marks) and "unlisted" not in marks, "candidate" in marks
            marked = [str(mark).lower() for mark in (self.is_listed, self.is_name, self.is_candidate)]
            self.definition = " ".join([f"becomes ({made(self.made)})", *marked])

    def made_before(self):
        """How many nodes are made at most."""
        word = self.definition.split()[0]
        return most_made(self.definition[len("becomes "):]) if word == "becomes" else int(word in ("tests", "holds"))

def steps(text):
    """What is done before each part that the row names by its number, and before the others."""
    at, others = {}, Step()
    for part in text.split("; ") if text else []:
        where, what = part.split(": ")
        if where.isdigit():
            at[int(where)] = Step(what)
        else:
            others = Step(what)
            if m := re.fullmatch(r"rest after (\d)", where):
                at.setdefault(int(m[1]), Step())
    return [at.get(i, Step()) for i in range(max(at) + 1)] if at else [], others

class Row:
    """What a production does."""
    def __init__(self, means, before="", candidate="", packs="", tests="", nodes=0):
        self.means, (self.steps, self.others) = means, steps(before)
        self.before, self.onward = [step.definition for step in self.steps], self.others.definition
        self.form, self.gain = form(means, nodes), gain(candidate)
        self.restores_packs, self.tests_number = packs == "own", tests == "number"

    def step(self, part):
        """What is done before a part."""
        return self.steps[part] if part < len(self.steps) else self.others

    def definition(self):
        """The row as definitions have it: what its parts become, within constructors for what this row does and most rows don't."""
        form, before, onward = named(self.form), listed(map(named, self.before)), named(self.onward)
        row = f"plain {braced(form)}"
        if self.before and self.onward != "quiet":
            row = f"after_first ({before}) {braced(onward)} {braced(form)}"
        elif self.before:
            row = f"after_steps ({before}) {braced(form)}"
        elif self.onward != "quiet":
            row = f"throughout {braced(onward)} {braced(form)}"
        if self.gain != "nothing":
            row = f"gains {braced(self.gain)} ({row})"
        if self.restores_packs:
            row = f"with_own_packs ({row})"
        return f"with_number_tested ({row})" if self.tests_number else row

    def quiet(self):
        """How many parts come before the first part before which something is done; five, the most that a row has, if there is no such
        part."""
        loud = [part for part, before in enumerate(self.before) if before != "quiet"]
        return loud[0] if loud else ALL_PARTS if self.onward == "quiet" else len(self.before)

    def made_before(self):
        """How many nodes are made at most before each part, up to the last part before which some are made."""
        assert not self.others.made_before()
        counts = [step.made_before() for step in self.steps]
        while counts and not counts[-1]:
            counts.pop()
        return counts

    def made_at_end(self):
        """How many nodes are made at most once the row's parts are read."""
        word, *others = self.form.split()
        if word == "makes":
            return most_made(self.form[len("makes "):])
        if word == "own":
            return int(others[1])
        if word == "a_pair":
            return sum(most_made(braced(tree)) for tree in pair(self.means)[1:])
        return int(word in ("cell", "item", "a_name", "in_place"))

# patterns of a row's definition without argument names, and what each becomes with the names
NAMES = [(re.compile(old), new) for old, new in TABLE["named"]]

def named(text):
    """A text of definitions with the names of its arguments."""
    for old, new in NAMES:
        text = old.sub(new, text)
    return text

ALL_PARTS = 5

def most_made(tree):
    """How many nodes are made at most for a tree."""
    return int(not tree.startswith("(only "))

def rows(texts):
    """The rows, from their words."""
    return {production: Row(**row) for production, row in texts.items()}

# ## Definitions

# the arguments of trees: what reads each, its constructor, its type, and the value for another constructor; and what reads a sort
ARGUMENTS = [given for _, _, *given in (line for line in TABLE["sorts"] if line[2:])]
READERS = {sort: reader for _, sort, reader, *_ in (line for line in TABLE["sorts"] if line[2:])}

def makers(table):
    """The trees that some row makes."""
    used = set(re.findall(r"new_(\w+)", " ".join(" ".join([row.form, row.onward, *row.before]) for row in table.values())))
    return [tree for tree in cpp_trees.TREES if tree[0] in used]

def antt_builders(table):
    """What these makers make of their arguments, as definitions."""
    trees, built = makers(table), {}
    for name, *arguments in trees:
        given = [f"({READERS.get(sort, 'tree_in')} (argument xs {place}))" for place, (_, sort) in enumerate(arguments)]
        built[name] = applied(name, given)
    used = {"tree_in", "number_in", *(READERS.get(sort, "tree_in") for tree in trees for _, sort in tree[1:])}
    return whole("cpp_grammar/specs/Builders.antt", trees=", ".join(built), makers=", ".join(f"new_{tree}" for tree in built),
                 arguments=[tuple(argument) for argument in ARGUMENTS if argument[0] in used], built=built)

def antt_rows(table):
    """The rows, as definitions."""
    above = {defined(production): ABOVE[production] for production in table}
    above.update({f"(Production.{name} _)": ABOVE[name] for name in ALIKE})
    rows_of = defined_cases({production: row.definition() for production, row in table.items()})
    lines = [line for case, row in rows_of for line in (*(f"-- {says}" for says in above[case]), f"row_of {case} = {row}")]
    own = ", ".join(sorted({word for word in re.findall(r"own (\w+) \(nodes", "\n".join(lines))}))
    return whole("cpp_grammar/specs/Rows.antt", makers=", ".join("new_" + tree[0] for tree in makers(table)), own=own, rows=lines)

def files(table):
    """What is written of these rows: each file's path in the folder of the crates, and its text."""
    return whole("cpp_grammar/specs/Makers.antt", trees=makers(table)), antt_builders(table), antt_rows(table)
