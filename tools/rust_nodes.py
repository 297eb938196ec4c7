"""Makes what follows from the arguments of Rust's nodes. By the templates of templates/rust_tree, the nodes that productions make
(rust_parts.py) give the clauses of rust_tree, the answers for the views of nodes, and the code that shows lists with its answers and
lemmas."""
import textwrap

from files import template
from notation import Steps, answer, greatest, listed, rewritten, together
from rust_parts import BY_NAME, NODES, WRITTEN
from rust_spelled import names_of
from rust_trees import FAMILIES, MUTUAL, NUMERIC

# the families whose nodes have texts
TEXTUAL = ("path", "type", "bindings")
SUBTREES = (*MUTUAL, "constant")
NAMED = ("name", "identifier")
# the sorts of parts that a condition has to hold of
HELD = (*SUBTREES, *NAMED, "abi", "binder")

# ## What goes through nodes by their arguments alone

def node_pattern(made):
    """A node as it is matched."""
    fields = ["name disambiguator" if part.name == "identifier" else field for field, part in made.pairs]
    return f"({made.sort}.{made.variant} {' '.join(fields)})"

def broken(front, value, indent=""):
    """A clause, in two lines if it is long."""
    return f"{front} {value}" if len(f"{indent}{front} {value}") <= 120 else f"{front}\n    {value}"

def unwrapped(text, count):
    """A text that is the only one, without its parentheses; other texts as they are."""
    return text[1:-1] if count == 1 and text[0] == "(" else text

def by_node(clause, indent="", without=()):
    """For each family a run of clauses, one for each node that a production makes."""
    for of in MUTUAL:
        clauses = [clause(of, made) for made in NODES if made.of == of and made.production not in without]
        yield ["\n".join(indent + line for line in "\n".join([f"-- {WRITTEN}", *clauses]).split("\n"))]

def node_tree(of, made):
    """The tree of a node."""
    own = {"identifier": "(identifier_of s name disambiguator)", "name": "(name_of s name)", "abi": "(abi_of s abi)"}
    values = [own.get(part.name, f"({part.name}_in (slice_get all {field}))" if part.name in SUBTREES else field)
              for field, part in made.pairs]
    return broken(f"{of}_of {'s ' if of in TEXTUAL else ''}all {node_pattern(made)} =", f"tree.{made.tree} {' '.join(values)}")

def conditions(made):
    """The parts of a node that a condition has to hold of, each with its field, and with its fact, where h has the facts of all parts."""
    held = [(part.name, field) for field, part in made.pairs if part.name in HELD]
    return [(name, field, f"h.{place}" if len(held) > 1 else "h") for place, (name, field) in enumerate(held)]

def node_parts(of, made):
    """What has to hold of the parts of a node."""
    others = {"abi": "HasAbi s text abi", "binder": "(binder ≤ most_bound)", **dict.fromkeys(NAMED, "HasName s text name")}
    held = conditions(made)
    facts = [others.get(part) or f"(({name} : tree.{FAMILIES[part]}) × Is{part.capitalize()} all {field} {name})"
             for (part, field, _), name in zip(held, names_of([part for part, _, _ in held]))]
    front = f"Has{of.capitalize()}Parts {'s text ' if of in TEXTUAL else ''}all {node_pattern(made)} ="
    return broken(front, unwrapped(" × ".join(facts), len(facts)))

def node_need(of, made):
    """How many lifetimes a node needs."""
    needed = [f"need_at nodes {field}" if part.name in MUTUAL else field
              for field, part in made.pairs if part.name in (*MUTUAL, "lifetime", "some_lifetime")]
    return broken(f"{of}_need{'s' if of in ('path', 'type') else ''} nodes {node_pattern(made)} =", greatest(needed) or "0")

def tree_grown(of, made):
    """The law that a node's tree stays the same as nodes are added."""
    same = rewritten([f"{part}-same {field} {fact}" for part, field, fact in conditions(made) if part in SUBTREES])
    return f"{of}_of-grown {'s text ' if of in TEXTUAL else ''}{node_pattern(made)} h = {same}"

def need_grown(of, made):
    """The law that a node's need stays the same."""
    same = rewritten([f"{part}-need {field} {fact}" for part, field, fact in conditions(made) if part in MUTUAL])
    return f"{of}-needs {node_pattern(made)} h = {same}"

def parts_grown(of, made):
    """The law that what holds of a node's parts still holds."""
    forms = {"abi": "HasAbi-grown abi {1}", "binder": "{1}", **dict.fromkeys(NAMED, "HasName-grown name {1}")}
    held = [forms.get(part, f"{part}-grown all more {{0}} {{1}}").format(field, fact) for part, field, fact in conditions(made)]
    return broken(f"{of}_parts-grown {node_pattern(made)} h =", together(held), "  ")

def node_view(of, made):
    """The view of a node: its production, its numbers, its name and its parts."""
    name = next((field for field, part in made.pairs if part.name in NAMED), None)
    numbers = ["disambiguator" if part.name == "identifier" else field for field, part in made.pairs
               if part.name in (*NUMERIC, "identifier")]
    parts = [field for field, part in made.pairs if part.name in SUBTREES]
    own = f"production.{made.tree.upper()}"
    if name:
        own = f"(named name {own} production.PUNYCODE_{made.tree.upper()})"
    if name or len(numbers) > 1:
        own, text = f"seen_of {own}", f"({listed([*numbers, '0', '0'][:2])}) {'name.bytes' if name else 'no_text'}"
    else:
        own, text = f"seen_by {own}", numbers[0] if numbers else "0"
    return broken(f"view_of_{of} {node_pattern(made)} =", f"{own} {text} {len(parts)} ({listed([*parts, '0', '0', '0'][:3])})")

def node_seen(of, made):
    """The law that a node's view is its tree's."""
    held = conditions(made)
    parts = [(part, field, fact) for part, field, fact in held if part in SUBTREES]
    named = next((fact for part, _, fact in held if part in NAMED), None)
    shown = [f"({'type_part-is all bare' if part == 'type' else f'{part}-part all'} {field} {fact})" for part, field, fact in parts]
    count = ["no", "one", "two", "three"][len(parts)]
    lemma = f"{count}-part{'s' if len(parts) > 1 else ''}" if named or len(parts) == 3 else f"plain-{count}"
    seen = [lemma, "s all _ _ _", *(["name.bytes"] if named else []), *(field for _, field, _ in parts), *("_" for _ in parts),
            *([f"{named}.0"] if named else []), *shown]
    if named and not parts:
        seen = [f"no-parts s all _ _ _ name.bytes (bytes_at s name.bytes) {named}.0 refl"]
    return broken(f"{of}-seen {node_pattern(made)} h =", " ".join(seen), "  ")

UNTYPED = [of for of in SUBTREES if of != "type"]

def filled(name, of, **holes):
    """A template for a family of nodes, without the newline at its end."""
    called, need = "c" if of == "constant" else BY_NAME[of].called, "need" if of == "path" else f"need_of_{of}"
    return template(f"rust_tree/{name}", of=of, own=of.capitalize(), family=FAMILIES[of], name=called, need=need, **holes).rstrip("\n")

def of_subtrees(name, families=UNTYPED):
    """The clauses for a node of each family except types, which may be paths, too."""
    return [filled(f"{name}.antt", of) for of in families]

# ## Views of nodes, by the arms of the code

def view_answers(of):
    """The answers that each arm of a family's view shows its node, by the arm's call."""
    own, step, lines = "ty" if of == "type" else of, Steps(), []
    leaves = [(leaf, []) for leaf in {"path": [], "type": ["Basic"]}.get(of, ["None"])]
    for arm, parts in [*leaves, *((made.variant, [part.name for part in made.parts]) for made in NODES if made.of == of)]:
        lemma, seen = f"{of}-by s text all bare", ""
        if arm == "Function":
            lemma, seen = "type-is s text all", "(c.view_of_function.ensures.seen s text all bare)"
        elif set(parts) & set(NAMED):
            seen = f"(production-by c.{step('view_of', arm)}.ensures c.{step('by_name-by', arm)}.ensures)"
        else:
            call = "view_of" if arm == "Dyn" else ["leaf", "one", "two", "three"][sum(part in SUBTREES for part in parts)]
            seen = f"c.{step(call, arm)}.ensures"
        shown = f" {lemma} _ c.args.{own} _ c.in-{arm}.is {seen} h"
        lines += ["", *answer(f"returns-in-{arm}-clause-seen", shown, given="c s text all bare h")]
    lemmas = [f"{of}-by", *(["type-is"] if of == "type" else []), *(["production-by"] if "by_name-by" in step.arms else [])]
    return "\n".join([f"-- {WRITTEN}", f"use Rattle.rust_tree.proofs.Viewing.{{{', '.join(lemmas)}}}",
                      f"use Rattle.rust_tree.proofs.view.view_of_{of}.Goals as goal", *lines]) + "\n"

# ## Lists

# the lists: what separates their items, and whether their code is inlined
LISTS = {"arguments": (", ", True), "types": (", ", True), "bounds": (" + ", False), "bindings": (", ", False)}

def list_filled(name, of):
    """A template for a list."""
    (separator, is_fast), is_textual = LISTS[of], of in TEXTUAL
    # bounds are told apart by their first path
    shapes = [f"(tree.more_bounds {path} x r)" for path in ("(tree.generic p a)", "_")] if of == "bounds" else ["_"]
    return filled(name, of, one=of.capitalize()[:-1], separator=separator, variants=[made.variant for made in NODES if made.of == of],
                  shapes=shapes, inline="#[inline(always)]\n" if is_fast else "", bytes="self.now.bytes " if is_textual else "",
                  text="self.now.bytes self.now.table.text " if is_textual else "")

def in_lists():
    """For each list, the test whether there are items, and then, within a block, the code that adds them."""
    return [textwrap.indent(list_filled(name, of), "    ") for name in ("any_list.rt", "push_list.rt") for of in LISTS]

def list_answers():
    """The path and the text of each list's answers."""
    for of in LISTS:
        for path, name in ((f"push_{of}", "push_list.antt"), (of, "found_list.antt")):
            yield f"rust_tree/proofs/symbol/Symbol/{path}/Answers.antt", list_filled(name, of) + "\n"
