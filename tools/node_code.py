"""The code of cpp_tree that follows from the arguments of its nodes: the nodes, what is noted of each, and the view of each; and the
answers of the functions that have an arm for each node. trees.py writes it, from the table of cpp_trees.py."""
import re
from functools import lru_cache

from cpp_trees import ALIASES, BELOW, INSIDE, NAMED, NAMES, OUTSIDE, OWN, PIECES, SIGNATURE, SORTS, TREE, TREES, called
from files import TEMPLATES, fill, read, template
from notation import Steps, answer, camel, together
from rust_layout import arm

class Node:
    """A node: its name, its tree's name, its arguments, the sorts of the tree's arguments, and its fields (each with its name in code, its
    sort and its type)."""
    def __init__(self, words, tree, *given):
        others = [tuple(word.split(":")) for word in words if ":" in word]
        self.name = next((word for word in words if ":" not in word), camel(tree))
        self.tree, self.arguments, self.sorts = tree, others or list(given), [sort for _, sort in given]
        types = {name: NAMES["types"].get((tree, name), SORTS["code"].get(sort, "u32")) for name, sort in self.arguments}
        self.fields = [(called(NAMED, tree, name), sort, types[name]) for name, sort in self.arguments]

    def said(self, word):
        """What the table says below a word: for this node, or for all nodes of its tree."""
        return BELOW[f"{word}.{self.name}"].get(self.tree) or BELOW[word].get(self.tree)

    def parts(self, *sorts):
        """The fields of trees of these sorts."""
        return [name for (name, _, _), sort in zip(self.fields, self.sorts) if sort in sorts]

    def known(self):
        """The fact that is known of each field, by the field's name: a part of `b` where there are several facts."""
        return {field: fact for (field, _, _), (_, _, fact) in zip(self.fields, placed(self.arguments)) if fact}

    def view(self):
        """The view of a node that shows only its numbers, its texts and its parts: the code of each of these."""
        numbers = [SORTS["number"][sort].format(name) for name, sort, _ in self.fields if sort in SORTS["number"]]
        said = self.said("numbers")
        texts = [SORTS["text"][sort].format(name) for name, sort, _ in self.fields if sort in SORTS["text"]]
        return said.split(" | ") if said else numbers, texts, self.parts(OWN, OUTSIDE, INSIDE, SIGNATURE, TREE)

@lru_cache(maxsize=None)
def nodes():
    """The nodes."""
    rows = {tree: row for tree, *row in [*TREES, *ALIASES]}
    front, back = ["absent", "nil"], ["list", "symbol", *(tree for tree, *_ in ALIASES)]
    others = [tree for tree in rows if tree not in (*front, *back, *PIECES)]
    return [Node(words.split(), tree, *rows[tree]) for tree in [*front, *others, *back] for words in BELOW["node"].get(tree, [""])]

def placed(arguments, over=tuple(SORTS["bound"])):
    """The arguments, each with the fact of its bound if its sort is one of these: a part of `b` where there are several bounds."""
    bounds = [name for name, sort in arguments if sort in SORTS["bound"]]
    facts = {name: "b" if len(bounds) == 1 else f"b.{place}" for place, name in enumerate(bounds)}
    return [(name, sort, facts[name] if sort in over else "") for name, sort in arguments]

def variants():
    """The nodes."""
    for node in nodes():
        if node.said("says"):
            yield f"    /// {node.said('says')}"
        if len(node.fields) < 2:
            yield f"    {node.name}{''.join(f'({type})' for _, _, type in node.fields)},"
            continue
        field, _, says = (node.said("field") or "").partition(" ")
        yield f"    {node.name} {{"
        for name, _, type in node.fields:
            yield from [f"        /// {says}"] if name == field else []
            yield f"        {name}: {type},"
        yield "    },"

def pattern(path, node, given, indent):
    """A node with some of its fields, in one line if there are few."""
    names = [name for name, _, _ in node.fields]
    if len(names) < 2:
        return f"{path}{node.name}{''.join(f'({name if name in given else chr(95)})' for name in names)}"
    shown = [*(name for name in names if name in given), *([".."] if set(names) - set(given) else [])]
    if len(", ".join(shown)) <= 18:
        return f"{path}{node.name} {{ {', '.join(shown)} }}"
    lines = [f"{indent}    {name}{'' if name == '..' else ','}" for name in shown]
    return "\n".join([f"{path}{node.name} {{", *lines, f"{indent}}}"])

def arms(path, indent, of):
    """An arm for each node that there is something to say about."""
    for node, right in ((node, of(node)) for node in nodes()):
        if right:
            given = [name for name, _, _ in node.fields if re.search(rf"(?<![\w.:]){name}(?!\w)", right)]
            yield from arm(pattern(path, node, given, indent), right, indent)

def noting(node):
    """What is noted of a node, by its parts that aren't under a scope of their own."""
    parts = node.parts(TREE)
    general = f"self.noted_type{'s' if len(parts) == 2 else ''}(node, {', '.join(parts)}, TypeHead::{node.said('head') or 'Plain'})"
    return node.said("noted") or (general if parts else None)

def noted():
    """The arms of what is noted."""
    return list(arms("Node::", "            ", noting))

def seeing(node):
    """The view of a node: its production, numbers, text and parts."""
    numbers, texts, parts = node.view()
    own, told = node.tree.upper(), f"[{', '.join([*numbers, '0'][:2])}]" if numbers else "none"
    if not parts and not texts:
        general = f"leaf({own}, {numbers[0] if numbers else '0'})"
    elif len(parts) in (1, 2):
        general = f"{('one', 'two')[len(parts) - 1]}({own}, {told}, {texts[0] if texts else 'NO_TEXT'}, {', '.join(parts)})"
    else:
        shown = f"[{texts[0]}, NO_TEXT]" if texts else "[NO_TEXT; 2]"
        general = f"seen({own}, {told}, {shown}, {len(parts)}, [{', '.join(parts) or '0; 3'}])"
    return node.said("seen") or general

def seen():
    """The arms of what is seen."""
    return list(arms("node::Node::", "        ", seeing))

# ## Answers

NOTES = " ".join(re.findall(r"^use \S+\.(?:Notes|Compact)\.\{(.*)\}$", read(f"{TEMPLATES}/cpp_tree/noted.antt.in"), re.M)).replace(",", "")
BELOW_AS = ("let b = below-as (over c.args.symbol.now c.args.self.now) (length c.args.self.now.nodes) c.in-{0}.is c.requires.below in "
            "{1}").format
TABLE, HELD = "(over c.args.symbol.now c.args.nodes.now)", "(length c.args.nodes.now.nodes)"
UNFOLDING = "fields_of erase tree_of"

def required(contract, given, known):
    """What a call requires, from its arguments or from what its caller requires."""
    taken, facts = dict(zip(re.findall(r"(\w+): ", contract[1]), given.split(", "))), []
    for name, text in re.findall(r"requires (?:(\w+) )?{ (.*) }", contract[2]):
        of = next((word for word in re.findall(r"(?<![\w.])\w+", text) if word in taken and word != "symbol"), None)
        facts.append((name, known[taken[of]] if of else f"c.requires.{name}"))
    return f"record {{ {'; '.join(f'{name} = {fact}' for name, fact in facts)} }}" if facts[0][0] else facts[0][1]

def noted_answers(crates, others):
    """The answers that each arm notes what there is to note. The function that the arm calls requires the arguments to be earlier nodes."""
    code, step, lines = read(f"{crates}/cpp_tree/src/notes.rt"), Steps(), []
    for node, right in ((node, noting(node)) for node in nodes()):
        if not right:
            continue
        call, given = re.fullmatch(r"(?:self\.)?(\w+)\((.*)\)", right).groups()
        behind = step(call, node.name).removeprefix(call)
        contract = re.search(rf" fn {call}\((.*?)\)(.*?)\n    {{", code, re.S)
        if contract:
            asked = BELOW_AS(node.name, required(contract, given, node.known()))
            lines += ["", *answer(f"{call}-requires{behind}", f" {asked}")]
        lines += ["", *answer(f"returns-in-{node.name}", f" c.{call}{behind}.ensures ∙ rw c.in-{node.name}.is refl", NOTES)]
    none = [f"      not_{node.lower()} = c.in_default.not-{node};" for node in others]
    bare = ["", "    c.bare-in_default.ensures", "    ∙ other-node c.args.self.now.nodes c.args.node (record {", *none, "    })"]
    return template("cpp_tree/noted.antt", answers=[*lines, "", *answer("returns-in_default", "\n".join(bare))])

def told(node, shown, step):
    """The answers for a node whose view another call completes: by which lemma, from which facts, and where this call requires a bound."""
    lemma, fields, others, *bound = node.said("told").split(" | ")
    call = node.said("seen").partition("(")[0]
    own = step(call, node.name)
    if bound:
        asked, _, part = bound[0].partition(" ")
        yield answer(own.replace(call, f"{call}-requires", 1),
                     f" record {{ {asked} = {f'(below-as {shown}){part}' if part else f'below-as {shown}'} }}")
    yield answer(f"returns-in-{node.name}", "\n    ".join([
        "", "let y = over c.args.symbol.now c.args.nodes.now in", f"let told = c.{own}.ensures in",
        f"{lemma} y c.in-{node.name}.is {fields} told.texts {others}"]), UNFOLDING)

def viewed(node, shown, step):
    """The answer for a node that shows no more than its numbers, a text and its parts."""
    def fact_of(number):
        call = re.search(r"(\w+)\(", number)
        return f"c.{step(call[1], node.name)}.ensures{'' if call[1] == 'linkage_number' else '.is'}" if call else "refl"
    numbers, texts, parts = node.view()
    facts = [*map(fact_of, numbers), "refl", "refl"][:2]
    count, known = ["none", "one", "two", "three"][len(parts)], node.known()
    call = "leaf" if not parts and not texts else count if len(parts) in (1, 2) else "seen"
    within = [known[texts[0].removesuffix(".digits")] if texts else "none-within c.args.symbol.now", *(known[part] for part in parts)]
    fields = fill(node.said("view") or "refl", table=TABLE)
    value = " ".join([f" seen-{count} {shown}", f"c.{step(call, node.name)}.ensures", *facts, fields, f"(λ k b. {together(within)})"])
    yield answer(f"returns-in-{node.name}", value, UNFOLDING if fields == "refl" else None)

def seen_answers():
    """The answers that each arm of a node's view shows the node, by the calls that the arm makes."""
    step, lines = Steps(), []
    for node in nodes():
        shown = f"{TABLE} {HELD} c.in-{node.name}.is c.requires.node"
        of = told if node.said("told") else viewed
        if node.tree not in (tree for tree, *_ in ALIASES):
            lines += [line for shown_by in of(node, shown, step) for line in ["", *shown_by]]
    return template("cpp_tree/seen.antt", answers=lines)
