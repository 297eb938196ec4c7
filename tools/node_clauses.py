"""The clauses of cpp_tree's definitions and laws that follow from the arguments of C++'s nodes: from the rows of cpp_trees.py. Where the
table has a clause for a node's tree, this clause is written."""
import re

from cpp_trees import BELOW, BYTES, CLAUSES, ENCODINGS, NAMES, PIECES, SIGNED, SORTS, VIEWED, called, named
from files import columns, sections
from node_code import nodes, placed
from notation import alone_or, applied, braced, listed, rewritten
from tree_clauses import SCOPED, SUBTREES, arguments, cases, joined_by

# the types of a node's arguments, and for some types the letters of arguments in lemmas that tell nodes apart
TYPES = {sort: re.fullmatch(r"(.*?)(?: ([a-z]+))?", text).groups() for sort, text in SORTS["type"].items()}

# ## Nodes

def node_pattern(node, given):
    """A node as it is matched."""
    return braced(applied(f"Node.{node.name}", [name for name, _ in given]))

def node_cases(function, before, after, right, others=None, names=NAMES["none"]):
    """A clause for each node for which there is a right side, by the names of its arguments."""
    lines = []
    for node in nodes():
        given = [(called(names, node.tree, name), sort) for name, sort in node.arguments]
        own = next((CLAUSES[of] for of in (f"{function}.{node.name}", function) if node.tree in CLAUSES.get(of, {})), None)
        value = own[node.tree] if own else right(node, given)
        if value is not None:
            lines.append(applied(function, [*before, node_pattern(node, given), *after]) + f" = {value}")
    return [*lines, applied(function, [*before, "_", *after]) + f" = {others}"] if others is not None else lines

def tree_of():
    """The tree of a node."""
    def right(node, given):
        return applied("term." + node.tree, [SORTS["denotes"].get(sort, "").format(name) for name, sort in given])
    return node_cases("tree_of", ["s", "us", "ts"], [], right)

def views():
    """The trees that are viewed: pieces aren't, names come last, and a thunk comes after the other special names."""
    first = ["absent", "nil", "list", "symbol", "function", "object", "special", "of_name", "thunk"]
    return [tree for tree in named(VIEWED, first, ["alone", "in_std", "within"]) if tree[0] not in PIECES]

def fields_of():
    """What is seen of a tree: production, two numbers, a text, parts."""
    numbers = SORTS["seen"]
    def right(tree):
        told = [numbers[sort].format(name) for name, sort in tree[1:] if sort in numbers]
        texts = [name if sort == BYTES else f"{name}.digits" for name, sort in arguments(tree, BYTES, SIGNED)]
        parts = braced(listed(name for name, sort in arguments(tree, *SUBTREES)))
        general = ["fields", tree[0].upper(), *(told + ["0", "0"])[:2], (texts or ["[]"])[0], parts]
        return BELOW["fields"].get(tree[0]) or " ".join(general)
    lines = [*cases("fields_of", [], [], right, None, views()), "fields_of t = no_node t"]
    return [line if len(line) <= 160 else line.replace(" = ", " =\n    ") for line in lines]

def tree_from():
    """A tree from its fields, by its production."""
    rows = []
    for tree in views():
        parts, numbers = iter(range(len(tree))), iter(range(len(tree)))
        forms = [f"(part_in given {next(parts)})" if sort in SUBTREES else SORTS["back"].get(sort, "") for _, sort in tree[1:]]
        given = [form.format(next(numbers)) if "{0}" in form else form for form in forms]
        rows += [row.split(" ", 1) for row in BELOW["from"].get(tree[0], [f"{tree[0].upper()} {applied(tree[0], given)}"])]
    lines = [f"    {'∷ ' if i else ''}({production}, {tree})" for i, (production, tree) in enumerate(rows)]
    pieces = [("ALONE", "0", "alone"), ("IN_STD", "0", "in_std"), ("NESTED", "1", "(within (part_in given 0))")]
    names = " ++ ".join(f"names_in {name} given (part_in given {piece}) {tree}" for name, piece, tree in pieces)
    return ["narrow_tree_from given = tree_at given.production (", *lines, "    ∷ (NO_NODE, part_in given 0)", f"    ∷ {names}", "    )"]

# ## Folds

def product(facts):
    """Several facts as one."""
    return alone_or(facts, lambda several: " × ".join(f"({fact})" if " < " in fact else fact for fact in several))

def both_are(facts):
    """The proof of what is free in a node of two parts: what is free in each part, and then the facts of both. The fact of a node of one
    part is that part's."""
    noted = [f"({'free_at' if fact.startswith('at ') else 'piece_frees'} y.nodes {fact.split()[1]})" for fact in facts]
    return alone_or(facts, lambda several: applied("both-are", [*noted, *[f"({fact})" for fact in several]]))

def depending(parts):
    """The fact of a node that depends on another argument, by the facts of the node's parts."""
    if len(parts) == 2:
        return applied("joined", [f"({part})" for part in parts])
    return parts[0] if parts[0].startswith("piece") else f"passed ({parts[0]})"

def passed(facts):
    """The clause of a node by the facts of its parts: several facts are rewritten; a node of one part has the fact of this part."""
    if len(facts) > 1:
        return rewritten(facts)
    return facts[0] if facts[0].startswith("piece") else f"ap passed ({facts[0]})"

JOINED = {"product": product, "both_are": both_are, "depending": depending, "passed": passed}

def of_arguments(said, joined, none):
    """The clause of a node, by what the table says of its arguments."""
    is_scoped = ";" in said
    forms = dict(zip(SCOPED, said.split("; "))) if is_scoped else SORTS[said]
    def right(node, given):
        sorts = node.sorts if is_scoped else [sort for _, sort in given]
        facts = [forms[sort].format(name, fact) for (name, _, fact), sort in zip(placed(given), sorts) if sort in forms]
        return joined(facts) if facts else none
    return right

def folds():
    """The declarations that are folds of nodes: path, name, and the lines."""
    for path, name, before, after, said, joined, none, others, names in (columns(line) for line, _ in sections("cpp_node_folds.txt")):
        right = of_arguments(said, JOINED.get(joined) or joined_by(joined), none or None)
        yield path, name, node_cases(name, before.split(), after.split(), right, others or None, NAMES[names])

# ## What is noted

def noted_nodes():
    """The nodes with a note, each with its name, and its arguments with their types: numbers of nodes are i and j here."""
    for node in nodes():
        if node.tree in ("nil", "parameter", "again") or set(node.sorts) & set(SCOPED):
            letters = {sort: iter(own or "") for sort, (_, own) in TYPES.items()}
            others = iter("ij")
            yield node.name, [(next(letters[sort] if TYPES[sort][1] else others), TYPES[sort][0]) for _, sort in node.arguments]

def without(node, given):
    """The fact that n isn't a node with these arguments: the field for this, the node as it is matched, and the proof."""
    field, own = f"not_{node.lower()}", applied(f"Node.{node}", [name for name, _ in given])
    premise = "".join(f"({name} : {type}) " for name, type in given) + "→ " if given else ""
    refuted = applied(f"other.{field}", [name for name, _ in given])
    return f"  pub {field} : {premise}n ≡ {own} → ⊥", braced(own), f"absurd ({refuted} refl)"

def declarations():
    """The path and the name of each declaration, and the lines of its clauses."""
    encodings = node_cases("is_encoding", [], [], lambda node, given: "true" if node.tree in ENCODINGS else None, "false")
    # what is known of a node without a note: it is none of the nodes with a note, and nothing is noted of it
    others = [without(*noted) for noted in noted_nodes()]
    nothing = [f"other-node ns {own} other = {refuted}" for _, own, refuted in others]
    found = {"specs/Nodes": {"tree_of": tree_of(), "is_encoding": encodings},
             "specs/Fields": {"fields_of": fields_of(), "narrow_tree_from": tree_from()},
             "proofs/Compacting": {"IsOther": [field for field, _, _ in others], "other-node": [*nothing, "other-node ns _ other = refl"]}}
    for path, names in found.items():
        yield from ((f"cpp_tree/{path}.antt", name, lines) for name, lines in names.items())
    yield from folds()
