"""C++'s trees: from the tables cpp_trees.txt and cpp_sorts.txt to the lists of trees, spellings and names that the other scripts read."""
import shlex
from collections import defaultdict

from files import sections
from notation import camel

# what an argument is
OWN, OUTSIDE, INSIDE, SIGNATURE, TREE, PIECE = "own", "outside", "inside", "signature", "tree", "piece"
BYTES, NUMBER, TRUTH, QUALIFIERS, MARK = "bytes", "number", "truth", "qualifiers", "mark"
SIGNED, DISCRIMINATOR = "signed", "discriminator"

# the texts for arguments of a sort, by the word that requests them
SORTS = defaultdict(dict)
for sort, lines in sections("cpp_sorts.txt"):
    for word, _, text in (line.partition(" ") for line, _ in lines):
        SORTS[word][sort] = text

# Each tree with its arguments: (name, (argument, what it is), ..). Clauses that follow from a tree's arguments alone are written from these.
# An alias has a node, but isn't among the trees: its node denotes another tree.
TREES, ALIASES = [], []
# how each tree is pressed: the sort of its spelling, and its parts
SPELLED = {}
COMPONENTS, ENCODINGS = [], []
# the lines below a tree in the table, by their first word: for most words a text; for some the texts of all lines with the word
BELOW = defaultdict(dict)
OF_LINES = ("fits", "from", "node", "before", "by_hand", "unfolding")
# for each definition or law, by tree: the right side of a clause that doesn't follow from the tree's arguments, or None if the tree has no
# clause; and whole clauses
CLAUSES, CASES = defaultdict(dict), defaultdict(dict)
# <type> ::= <letter> <type>: tree, production, letter; the text after the type; and the comment on the constant with the tree's number
WRAPPERS, TEXTS, NUMBERED = [], {}, {}
# names of arguments in other places, by place: of a tree's argument, or of all arguments with this name
NAMES = defaultdict(dict)

def enter(name, arguments, sort="", *spelling):
    """Enters a tree."""
    (ALIASES if sort == "alias" else TREES).append((name, *(tuple(argument.split(":")) for argument in arguments)))
    if sort == "component":
        COMPONENTS.append(name)
    if sort.endswith("encoding"):
        ENCODINGS.append(name)
    if spelling or sort.startswith("nowhere"):
        SPELLED[name] = (sort, *spelling)

def enter_below(name, line):
    """Enters a line below a tree."""
    word, _, rest = line.partition(" ")
    of, _, right = rest.partition(" ")
    if word == "clause":
        CLAUSES[of][name] = right or None
    elif word == "clause_below":
        CLAUSES[of][name] = f"{CLAUSES[of].get(name, '')}\n    {right}"
    elif word == "case":
        CASES[of].setdefault(name, []).append(rest)
    elif word == "names":
        NAMES[of].update({(name, argument): called for argument, called in (pair.split("=") for pair in right.split())})
    elif word in OF_LINES:
        BELOW[word].setdefault(name, []).extend([rest] if rest else [])
    else:
        BELOW[word][name] = rest

def enter_wrapper(name, letter, text, numbered):
    """Enters a component that is a letter before a type, and that is printed as this type with a text after it."""
    enter(name, ["t:tree"], "component", f'codes "{letter}"', "type.as_type")
    enter_below(name, "fits takes_all slot ≡ true")
    WRAPPERS.append((name, camel(name), letter))
    TEXTS[name.upper()] = text
    NUMBERED[name.upper()] = numbered

for head, below in sections("cpp_trees.txt"):
    if head.startswith("names "):
        NAMES[head.split()[1]].update(pair.split("=") for line, _ in below for pair in line.split())
    elif head.startswith("wrapper "):
        enter_wrapper(*shlex.split(head)[1:])
    else:
        own, *rest = head.split(" | ")
        tree, *given = own.split()
        enter(tree, given, *rest)
        for line, _ in below:
            enter_below(tree, line)
PRESSED, SCOPES, VIEWED, NAMED = (NAMES[where] for where in ("pressed", "scopes", "viewed", "code"))
# the trees that are pieces of names
PIECES = [tree for tree, (sort, *_) in SPELLED.items() if sort.split()[-1:] == ["piece"]]

def called(names, tree, argument):
    """The name of a tree's argument, by these names."""
    return names.get((tree, argument), names.get(argument, argument))

def named(names, first=(), last=()):
    """The trees with these names of arguments; some trees come first, and some last."""
    def place(row):
        if row[0] in first:
            return first.index(row[0])
        return len(first) + (1 + last.index(row[0]) if row[0] in last else 0)
    trees = [(tree, *((called(names, tree, name), sort) for name, sort in arguments)) for tree, *arguments in TREES]
    return sorted(trees, key=place)
