"""Sorts of the values of C++'s parts and of the arguments of its trees: checks that each row fits the parts of its production, and writes
the definition's table for the same check. grammar.py calls it. What each maker takes is in cpp_trees.txt; cpp_words.txt says what other
words take and give, and what a row with its own code gives."""
import re
from itertools import groupby

import cpp_trees
import meanings
from files import whole
from notation import listed
from meanings import TABLE
from rules import TOKENS

# the sorts; the sorts of arguments, by their words in cpp_trees.txt; and the sorts of what a row with its own code gives
ALL = [sort for sort, *_ in TABLE["sorts"]]
OF_ARGUMENT = {own[0]: sort for sort, *own in TABLE["sorts"] if own}
OWN = {word: sorts.split() for word, sorts, *_ in TABLE["own"]}
# what each word gives and takes; and for each maker the sorts of its tree and of its arguments
WORDS = {word: takes for word, *takes in TABLE["takes"]}
WORDS.update({line[1].split()[0]: [line[4], *([f"part {line[5]}".replace(" any", "")] if line[5] else [])]
              for line in TABLE["arguments"] if line[4:]})
MAKERS = {tree: ["pieces" if tree in cpp_trees.PIECES else "trees", *(OF_ARGUMENT.get(sort, "trees") for _, sort in arguments)]
          for tree, *arguments in cpp_trees.TREES}
# after these steps the first part is a tree
TURNING, READ_ALONE = ("becomes", "tests", "holds"), ("first", "second")

def parsed(text):
    """A text of definitions as words and the contents of parentheses; a list as its items."""
    stack = [[]]
    for word in re.findall(r"[()∷]|[^\s()∷]+", text):
        if word == "(":
            stack.append([])
        elif word == ")":
            inner = stack.pop()
            items = [list(item) for is_sign, item in groupby(inner, lambda one: one == "∷") if not is_sign]
            stack[-1].append(items[:-1] if "∷" in inner else inner)
        else:
            stack[-1].append(word)
    return stack[0]

class Fitting:
    """A production with the sorts that its parts may have as far as they are read, and the faults of its row."""
    def __init__(self, production, known):
        self.production, self.known = production, known

    def want(self, is_so, says):
        """Checks a condition on the row."""
        assert is_so, f"the row of {self.production}: {says}"

    def part(self, number, sorts):
        """A part that is read as one of these sorts, or as any."""
        place = int(number)
        self.want(place < len(self.known), f"part {number} isn't read before")
        self.want(not sorts or self.known[place] & set(sorts), f"part {number} is {self.known[place:place + 1]} and none of {sorts}")

    def words(self, said, wanted):
        """Checks that words give this, and checks their arguments."""
        while len(said) == 1 and isinstance(said[0], list):
            said = said[0]
        word, *given = [said] if isinstance(said, str) else said
        gives, *takes = [wanted, wanted] if word == "only" else WORDS.get(word, [wanted])
        if word == "of":
            (gives, *takes), given = MAKERS[given[0].removeprefix("new_")], [] if given[1] == "[]" else given[1]
            self.want(len(given) == len(takes), f"{said[1]} has {len(given)} arguments, and takes {len(takes)}")
        self.want(gives == wanted or wanted == "form", f"{said} gives {gives}, and {wanted} is wanted")
        given = iter(given)
        for what, *sorts in map(str.split, takes):
            if what in READ_ALONE:
                self.part(READ_ALONE.index(what), sorts)
            elif what == "part":
                self.part(next(given), sorts)
            else:
                self.words(next(given, []), what)

    def gives(self, text):
        """The sorts of what the production denotes."""
        word, *rest = parsed(text)
        if word == "handed":
            return self.known[int(rest[0])]
        if word == "either":
            return (self.known[int(rest[0])] - {"none_read"}) | self.known[int(rest[1])]
        return set(OWN.get(rest[0], ["trees"])) if word == "own" else {WORDS[word][0]}

def of_part(symbol, kinds, known):
    """The sorts that a part of this symbol may have, by what is known of kinds."""
    if symbol in TOKENS:
        return {"texts"}
    return {"none_read"} if symbol not in kinds else known[symbol] | ({"none_read"} if kinds[symbol][0] else set())

def fitted(production, row, parts, is_checked):
    """A production once its parts are read, with each step before them."""
    fitting = Fitting(production, [])
    for i, part in enumerate(parts):
        step = row.step(i).definition
        if is_checked:
            fitting.words(parsed(step), "step")
        if fitting.known and step.split()[0] in TURNING:
            fitting.known[0] = {"trees"}
        fitting.known.append(part)
    return fitting

def is_numbered(form):
    """Whether the number of a lambda or an unnamed type is read."""
    return "number_at" in form or form.startswith("own closure")

def kind_sorts(kinds, productions, table):
    """The sorts of what each kind's productions denote."""
    found, before = {kind: set() for kind in kinds}, None
    while before != found:
        before = {kind: set(sorts) for kind, sorts in found.items()}
        for kind, (_, rules) in kinds.items():
            for _, production in rules:
                parts = [of_part(symbol, kinds, found) for symbol in productions[production][1]]
                found[kind] |= fitted(production, table[production], parts, False).gives(table[production].form)
    return found

def check(kinds, productions, table):
    """Checks each row against the parts of its production; returns the sorts of kinds."""
    found = kind_sorts(kinds, productions, table)
    for production, row in table.items():
        parts = [of_part(symbol, kinds, found) for symbol in productions[production][1]]
        fitting = fitted(production, row, parts, True)
        fitting.words(parsed(row.form), "form")
        fitting.words(parsed(row.gain), "gain")
        fitting.want(len(row.before) <= len(parts), "a step is before a part that it hasn't")
        fitting.want(row.tests_number == is_numbered(row.form), "a number is tested where it is read")
    return found

def given(found):
    """The sorts of each kind whose values aren't only trees."""
    return {name: listed(sorted(sorts, key=ALL.index)) for name, sorts in found.items() if set(sorts) != {"trees"}}

def files(kinds, productions, table):
    """What is written: the file's path in the folder of the crates, and its text."""
    trees = [tree[0] for tree in meanings.makers(table)]
    yield whole("cpp_grammar/specs/Sorts.antt", makers=", ".join(f"new_{tree}" for tree in trees), sorts=list(enumerate(ALL)),
                own=", ".join(sorted({"closure", *(word for word, sorts in OWN.items() if sorts != ["trees"])})),
                takes={tree: listed(MAKERS[tree][1:]) for tree in trees}, made=[tree for tree in trees if MAKERS[tree][0] == "pieces"],
                own_gives=given(OWN), kind_gives=given(check(kinds, productions, table)))
