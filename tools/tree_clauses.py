"""The clauses of definitions and laws that follow from the arguments of C++'s trees: from the rows of cpp_trees.py, and from cpp_folds.txt.
Where the table has a clause for a tree, this clause is written."""
import re

import cpp_trees
from cpp_trees import (
    BELOW, CASES, CLAUSES, COMPONENTS, ENCODINGS, INSIDE, NUMBER, OUTSIDE, OWN, PIECE, PRESSED, SCOPES, SIGNATURE, SORTS, TREE, TREES,
    named,
)
from files import columns, sections
from notation import alone_or, applied, braced, rewritten, together
from sameness import equal_clause, itself, same_clause

SUBTREES = (OWN, OUTSIDE, INSIDE, SIGNATURE, TREE, PIECE)
# what is under another scope than the tree itself
APART = (OWN, OUTSIDE, SIGNATURE)
SCOPED = (TREE, PIECE)

def pattern(tree):
    """A tree as it is matched."""
    return braced(applied(tree[0], [name for name, sort in tree[1:]]))

def arguments(tree, *sorts):
    """The arguments of these sorts."""
    return [(name, sort) for name, sort in tree[1:] if sort in sorts]

def names(tree, *sorts):
    """The names of these arguments."""
    return [name for name, sort in arguments(tree, *sorts)]

def cases(function, before, after, right, others=None, trees=TREES, crate=""):
    """A clause for each tree for which there is a right side."""
    own, whole, lines = CLAUSES.get(crate + function, {}), CASES.get(function, {}), []
    for tree in trees:
        value = own[tree[0]] if tree[0] in own else right(tree)
        if tree[0] in whole:
            lines += whole[tree[0]]
        elif value is not None:
            lines.append(applied(function, [*before, pattern(tree), *after]) + f" ={'' if value[0] == chr(10) else ' '}{value}")
    return [*lines, applied(function, [*before, "_", *after]) + f" = {others}"] if others is not None else lines

def carried(lines):
    """The clauses for trees whose parameters carry their arguments."""
    return [line.replace("(parameter k)", "(parameter k argument)") for line in lines]

# ## Trees by what is computed of their subtrees

def again(tree, parts, said):
    """The tree, built again over what its subtrees become."""
    return applied(said.get("made", "") + tree[0], [f"({parts[name]})" if name in parts else name for name, _ in tree[1:]])

def equal(tree, facts, said):
    """The proof that a tree equals another one, since their subtrees are equal: the constructor over these facts."""
    of = dict(zip(facts, said.get("letters", "xy")))
    given = [of.get(name) or (f"({said['apart']} {name})" if "apart" in said and sort in APART else name) for name, sort in tree[1:]]
    letters = list(of.values())
    while "reduced" in said and letters and given[-1] == letters[-1]:
        given, letters = given[:-1], letters[:-1]
    own = applied(said.get("made", "") + tree[0], given)
    constructor = f"(λ {' '.join(letters)}. {own})" if letters else braced(own)
    return applied("ap" if len(facts) == 1 else "both", [constructor, *(f"({fact})" for fact in facts.values())])

# how the values that are computed from subtrees are joined to the value of the tree; and how facts are joined
OF_TREES = {"again": again, "equal": equal}
JOINED = {"rewritten": rewritten, "rewritten alone": lambda facts: alone_or(facts, rewritten), "together": together}

def joined_by(text):
    """How facts are joined, by a text of a table: in a special way, with a text between them, or by a lemma."""
    if text in JOINED:
        return JOINED[text]
    if "{" in text:
        return lambda facts: re.sub(r"{(.*)}", lambda hole: hole[1].join(facts), text)
    lemma, of, then = re.fullmatch(r"by (.*?)(?: of (\S+))?(?: then (.*))?", text).groups()
    def joined(facts):
        computed = [f"({of} {fact.split()[-1]})" for fact in facts] if of else []
        return " ".join(filter(None, [lemma, *computed, then, *(f"({fact})" for fact in facts)]))
    return lambda facts: alone_or(facts, joined)

def computed(function, before, tree, said):
    """What is computed of each subtree, by its name."""
    subtrees, closed = names(tree, *(SCOPED if "scoped" in said else SUBTREES)), said.get("closed", before)
    given = {**dict.fromkeys(APART, closed), SIGNATURE: said.get("signature", closed)}
    facts = said["halves"].split("; ") if "halves" in said and len(subtrees) > 1 else [said.get("after", "")] * len(subtrees)
    return {name: " ".join(filter(None, [function, given.get(dict(tree[1:])[name], before), name, fact.format(*subtrees)]))
            for name, fact in zip(subtrees, facts)}

def fold(function, before, joined, none, said):
    """A clause for each tree, by a row of cpp_folds.txt."""
    def right(tree):
        if "of" in said:
            return joined if tree[0] in {"components": COMPONENTS, "encodings": ENCODINGS}[said["of"]] else None
        parts = computed(function, before, tree, said)
        if not parts and "all" not in said:
            return None
        return OF_TREES[joined](tree, parts, said) if joined in OF_TREES else joined_by(joined)(list(parts.values()))
    trees = {"own": TREES, "scopes": named(SCOPES, ["parameter"]), "pressed": named(PRESSED), "first": named({("list", "e"): "first"})}
    lines = cases(function, before.split(), said.get("after", "").split(), right, none or None, trees[said.get("names", "own")],
                  said.get("crate", ""))
    return [*(carried(lines) if "carried" in said else lines), *([said["rest"]] if "rest" in said else [])]

def folds():
    """The path and the name of each fold, and the lines."""
    for line, below in sections("cpp_folds.txt"):
        path, name, before, joined, none, *words = columns(line)
        said = dict(word.partition(" ")[::2] for word in [*words, *(word for word, _ in below)])
        yield path, name, fold(name, before, joined, none, said)

# ## Sameness

SAME = SORTS["same"]

def same_tree():
    """Whether two trees are the same: by their constructors, and argument by argument."""
    def tests(tree):
        return ["nat_eq {0} {1}" if sort == NUMBER else f"same_{SAME[sort]} {{0}} {{1}}" for name, sort in tree[1:]]
    return [*[same_clause("same_tree", tree[0], tests(tree)) for tree in TREES], "same_tree _ _ = false"]

def equal_tree():
    """The lemma that two trees are equal if `same_tree` finds them the same."""
    lines = []
    for name, *given in TREES:
        facts = {1: ["h"], 2: ["(both h).0", "(both h).1"]}.get(len(given), [f"p.{i}" for i in range(len(given))])
        first = [f"    let p = both_{len(given)} h in"] if len(given) > 2 else []
        laws = ["eqb-true" if sort == NUMBER else "equal-" + SAME[sort] for _, sort in given]
        lines += equal_clause("equal-tree", name, laws, facts, first)
    return [*lines, "equal-tree _ _ h = absurd (never h)"]

def tree_itself():
    """The lemma that `same_tree` finds each tree the same as itself."""
    def fact(name, sort):
        return f"eq-eqb {name} {name} refl" if sort == NUMBER else f"{SAME[sort]}-itself {name}"
    return cases("tree-itself", [], [], lambda tree: itself([fact(*argument) for argument in tree[1:]]))

# ## Laws of their own

def shut_parts(subtrees):
    """The facts that subtrees are closed, joined into one fact."""
    return f"(or_parts {' '.join(f'(is_open {name})' for name in subtrees)} closed)"

def closed_packs():
    """The lemma that a closed tree names no packs."""
    def right(tree):
        subtrees = names(tree, *SCOPED)
        if len(subtrees) < 2:
            return f"closed-packs scope {subtrees[0]} closed" if subtrees else None
        first, second = (f"(closed-packs scope {name} {shut_parts(subtrees)}.{i})" for i, name in enumerate(subtrees))
        return "\n    " + " ".join(["first-none", *(f"(pack_length scope {name})" for name in subtrees), first]) + f"\n    {second}"
    return cases("closed-packs", ["scope"], ["closed"], right, "refl", named(PRESSED))

def reads():
    """The lemma that each tree is read, by its arguments and by what is known of its subtrees."""
    def right(tree):
        if cpp_trees.SPELLED.get(tree[0], ("",))[0].startswith("nowhere"):
            return f"reads-nowhere {pattern(tree)} _"
        known = [f"(reads c {name})" for name in names(tree, *SUBTREES)]
        return applied(f"reads-{tree[0].replace('_', '-')}", [*(name for name, sort in tree[1:]), *known])
    return cases("reads", ["c"], [], right, None, named(PRESSED))

# ## What is inside

def itself_as(tree, name):
    """How a subtree may be a component itself: lists, pieces and names without their tags are no components."""
    said = dict(pair.split("=") for pair in BELOW["itself"].get(tree[0], "").split())
    return said.get(name, "" if dict(tree[1:])[name] == PIECE else "Itself")

def inside_shut():
    """The lemma that what is inside a closed tree is closed."""
    def right(tree, name, closed):
        kind, below = itself_as(tree, name), f"inside-shut {name} x {closed}"
        return f"{kind.lower()}-shut {name} x (Inside {name} x) {closed} ({below}) i" if kind else f"{below} i"
    lines = []
    for tree in named(PRESSED):
        subtrees, left = names(tree, *SUBTREES), f"inside-shut {pattern(tree)} x closed"
        lines += CASES["inside-shut"].get(tree[0], [])
        if len(subtrees) == 1 and not names(tree, *APART):
            lines.append(f"{left} i = {right(tree, subtrees[0], 'closed')}")
        elif subtrees and not names(tree, *APART):
            lines += [f"{left} ({side} i) =\n    {right(tree, name, f'{shut_parts(subtrees)}.{i}')}"
                      for i, (name, side) in enumerate(zip(subtrees, ("inl", "inr")))]
    return [*lines, "inside-shut _ x closed i = first_of (assumption i, search i)"]

def inside():
    """What is inside a tree, as a component or within one."""
    def part(tree, name, sort):
        if sort in APART:
            return f"Shut (Inside {name} x) x"
        kind = itself_as(tree, name)
        return f"{kind}Or {name} (Inside {name} x) x" if kind else f"Inside {name} x"
    def right(tree):
        return " ⊎ ".join(part(tree, *argument) for argument in arguments(tree, *SUBTREES)) or None
    return cases("Inside", [], ["x"], right, "⊥", named(PRESSED))

# ## Declarations

def declarations():
    """The path and the name of each declaration, and the lines of its clauses."""
    yield from folds()
    laws = {"specs/Same": {"same_tree": same_tree}, "proofs/Components/Sameness": {"equal-tree": equal_tree, "tree-itself": tree_itself},
            "proofs/Components/Parts": {"Inside": inside}, "proofs/Components/Complete": {"inside-shut": inside_shut},
            "proofs/EveryWay/Law": {"reads": reads}, "proofs/Fits/Packs": {"closed-packs": closed_packs}}
    for path, names_in in laws.items():
        yield from ((f"cpp_press_laws/{path}.antt", name, lines()) for name, lines in names_in.items())
