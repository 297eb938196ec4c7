"""Writes the answers of cpp_layout's functions that have arms for some nodes; the arms are read in the code. For the nodes without an
arm a lemma in proofs/Others.antt says what their parts are. For a node with an arm the answer says that the arm's call adds the parts of
the node's tree."""
import os
import re

from cpp_trees import BELOW
from files import columns, read, sections, template, whole
from node_clauses import TYPES, node_pattern, without
from node_code import nodes
from notation import Steps, answer, camel
from printing import imports
from splicing import rewritten, with_declarations

STORED, SHOWN = "c.stored.result c.stored.ensures.own _ c.stored.ensures.tree", "c.args.self.now c.args.ctx.detail"
CONTEXT, DETAIL = "(context_of c.args.ctx)", "c.args.ctx.detail"
BINDERS = {"d": "(d : Detail) ", "c": "(c : items.Context) "}
SAID = {"d": DETAIL, "c": CONTEXT}
ARMS = {section: [columns(line) for line, _ in lines] for section, lines in sections("cpp_arms.txt")}
# the functions that add parts: the lemma of other nodes, its variables, what these nodes show, what the tree shows, and a definition to unfold
WHOLE = [(*f"{names} ".split(" ")[:3], *shown, *[""] * (3 - len(shown))) for names, *shown in ARMS["whole"]]
# the functions that have arms for the pieces of names, and what the tree shows
PIECES = ARMS["pieces"]
# the functions that add no parts, and answer what they find
VALUES = ("ends_in_angle", "precedence")
# the left parts are added by three functions, each for the nodes that the one before has no arms for
LEFT = ["fill_left", "fill_left_type", "fill_left_argument"]

def filled(text, none=""):
    """A text of a table, with its words replaced by what they mean."""
    for word, meant in {"CONTEXT": CONTEXT, "DETAIL": DETAIL, "SYMBOL": "c.args.self.now c.args.ctx", "SHOWN": SHOWN, "NONE": none}.items():
        text = re.sub(rf"\b{word}\b", meant, text)
    return text

def said_of_arms(word):
    """What the table of trees says about arms below a word, by function and node."""
    lines = [(line.partition(" "), node.name) for node in nodes() for line in BELOW[word].get(node.tree, [])]
    return {(function, node): filled(said) for (function, _, said), node in lines}

BEFORE, BY_HAND, UNFOLDING = map(said_of_arms, ("before", "by_hand", "unfolding"))

# ## The arms of the code

def bodies(text):
    """The text of each function of a file, by its name."""
    for function in re.finditer(r"^( *)(?:pub(?:\(crate\))? )?fn (\w+)[^\n]*\n.*?^\1\{\n(.*?)^\1\}\n", text, re.M | re.S):
        yield function[2], function[3]

def arms(body, begins="Node|Piece"):
    """The patterns of a match, and the text of each arm."""
    starts = [*re.finditer(rf"^ +(?:(?:\w+::)*(?:{begins})::(\w+)|\w+ =>)", body, re.M)]
    return [(start[1], body[start.end():after.start() if after else None]) for start, after in zip(starts, [*starts[1:], None]) if start[1]]

def calls(body, begins="Node|Piece"):
    """For each arm, the function that is called last, and the step of this call."""
    step = Steps()
    return {node: (call, step(call, node)) for node, text in arms(body, begins) for call in re.findall(r"(?:self\.|=> )(\w+)\(", text)}

# ## What is shown

def applied_to(text, tree):
    """What is shown, applied to a tree."""
    if text in ("[]", "0") or text.startswith("fixed"):
        return text
    return text.replace(" t)", f" {tree})") if " t)" in text else f"{text} {tree}"

def record_of(function):
    """The name of the record of facts about a node for which a function has no arm."""
    return "IsOther" + camel(function.removeprefix("fill_"))

# the types of a node's arguments
ARGUMENTS = {node.name: [TYPES[sort][0] for _, sort in node.arguments] for node in nodes()}

class Function:
    """A function with arms: their nodes, the call and the step of each arm, and the call that gives a text which the arm may add."""
    def __init__(self, name, body):
        self.name, self.steps = name, calls(body)
        self.nodes = [node for node, _ in arms(body)]
        texts = {node: re.search(r"push_some\(parts, (\w+)\(", text) for node, text in arms(body)}
        self.texts = {node: f"ap (λ t. text t ∷ []) c.{found[1]}.ensures.text" for node, found in texts.items() if found}
        self.others = [without(node, [(f"x{place}", type) for place, type in enumerate(ARGUMENTS.get(node, []))]) for node in self.nodes]

    def none(self):
        """The fact that a node is none of those with an arm."""
        return "(record { " + "; ".join(f"not_{node.lower()} = c.in_default.not-{node}" for node in self.nodes) + " })"

    def record(self):
        """The record of facts about a node for which there is no arm."""
        return template("cpp_layout/other_record.antt", function=self.name, record=record_of(self.name), nodes=self.others).rstrip("\n")

    def lemma(self, lemma, variables, of_others, of_tree, by):
        """The lemma that the tree of such a node has no parts of its own."""
        says = f"{applied_to(of_others, '{0}')} ≡ {applied_to(of_tree, '{0}')}"
        return template("cpp_layout/other_lemma.antt", record_of_them=self.record(), lemma=lemma, record=record_of(self.name),
                        binders="".join(BINDERS[variable] for variable in variables), variables="".join(f"{v} " for v in variables),
                        says=says.format("t"), says_of_u=says.format("u"), says_of_tree=says.format("(reargued given (tree_of s us ts n))"),
                        unfolded=" ".join(filter(None, [of_tree.split()[0], by])), nodes=self.others).rstrip("\n")

    def answer(self, node, facts, unfolded):
        """An arm's answer: that the last part was added, and what the list then shows."""
        call, step = self.steps[node]
        room = " _ _" if call in ("push_item", "push_list") else " _ _ _"
        added = f"(c.{step}.ensures.shows{room} (starts {SHOWN} _))" if call.startswith("push_") else f"c.{step}.ensures.shows"
        return answer(f"returns-in-{node}-clause-shows", f" fills {SHOWN} _ _ _ {added} ({' ∙ '.join(facts)})", unfolded, "g c")

    def of_pieces(self, parts):
        """Each arm's answer, for the pieces of names."""
        told = parts.replace(" prefix", " (printed_tree c.args.self.now c.args.ctx c.args.prefix)").replace(" c", f" {CONTEXT}", 1)
        for piece in self.nodes:
            text = [self.texts[piece]] if piece in self.texts else []
            fact = f"ap (λ p. {told} (piece_shown c.args.self.now c.args.ctx p)) (sym c.in-{piece}.is)"
            yield self.answer(piece, [*text, fact], f"piece_of {parts.split()[0]} reargued")

    def answers(self, parts, by):
        """Each arm's answer."""
        unfolded = " ".join(filter(None, ["tree_of", parts.split()[0], by, "reargued"]))
        told = re.sub(r"\bd\b", DETAIL, re.sub(r"\bc\b", CONTEXT, parts))
        for node in (node for node in self.nodes if (self.name, node) not in BY_HAND):
            facts = [BEFORE.get((self.name, node)), self.texts.get(node) if self.steps[node][0] == "push_some" else None]
            if self.name in LEFT:
                facts.append(f"ap (λ n. {told} (node_shown c.args.self.now c.args.ctx n)) (sym c.in-{node}.is)")
                facts.append(f"ap (λ t. {told} t) (sym c.stored-stored.ensures.tree)" if self.name == LEFT[0] else None)
            else:
                facts.append(f"ap (λ t. {applied_to(told, 't')}) (sym c.in-{node}.ensures.tree)")
            yield self.answer(node, filter(None, facts), UNFOLDING.get((self.name, node), unfolded))

    def default(self, lemma, variables, of_others):
        """The answer for other nodes."""
        fact = " ".join([lemma, "_ _ _ _", *(SAID[variable] for variable in variables), STORED, self.none()])
        if self.name in VALUES:
            last = " ∙ ap opening_text c.entities.invariant.last" if self.name == "ends_in_angle" else ""
            return answer("returns-in_default", f" {fact}{last}")
        call = "fill_full" if self.name == "fill_bare_of" else "fill_as_left"
        parts = f"(starts {SHOWN} _)" if of_others == "[]" else f"c.{call}.ensures.shows"
        return answer("returns-in_default-clause-shows", f" fills {SHOWN} _ _ _ {parts} ({fact})", given="g c")

def others(found):
    """proofs/Others.antt."""
    name, type_, argument = (found[function].others for function in LEFT)
    return whole("cpp_layout/proofs/Others.antt", whole="\n\n".join(found[function].lemma(*row) for function, *row in WHOLE),
                 left="\n\n".join(found[function].record() for function in LEFT), no_name=name, no_type=type_, no_argument=argument,
                 full=found["fill_full"].others)

def whole_file(function, shown):
    """The file of answers of a function that has no hand-written answers."""
    body = "\n\n".join("\n".join(lines) for lines in shown)
    return template("cpp_layout/answers.antt", script="tools/trees.py", uses=imports(dict(ARMS["names"]), body, "use"), function=function,
                    answers=body)

def edits(crates):
    """The path of each file with such answers, how its text changes, and which script changes it."""
    folder, wanted = f"{crates}/cpp_layout/src", [*LEFT, *(row[0] for row in [*WHOLE, *PIECES])]
    found = {name: Function(name, body) for file in sorted(os.listdir(folder)) for name, body in bodies(read(f"{folder}/{file}"))
             if name in wanted}
    written = {function: list(found[function].answers("left_parts d c", "")) for function in LEFT}
    for function, lemma, variables, of_others, of_tree, by in WHOLE:
        shown = [] if function in VALUES else found[function].answers(of_tree, by)
        written[function] = [*shown, found[function].default(lemma, variables, of_others)]
    written.update({function: list(found[function].of_pieces(parts)) for function, parts in PIECES})
    for function, goal, shown in ARMS["others"]:
        written[function].append(answer(goal, f" {filled(shown, found[function].none())}", given="g c"))
    by_hand, path = [*VALUES, *(function for function, _ in [*PIECES, *BY_HAND])], "cpp_layout/proofs/symbol/Symbol/{}/Answers.antt".format
    for function, shown in written.items():
        if function in by_hand:
            yield from ((path(function), with_declarations, [["\n".join(lines)]]) for lines in shown)
        else:
            yield path(function), lambda text, own: own, [whole_file(function, shown)]
    file, text = others(found)
    yield file, lambda before, own: own, [text]
    # false for the nodes for which functions have arms
    for name, functions in (("IsNoName", LEFT[:1]), ("IsNoType", LEFT[:2])):
        matched = [node for function in functions for node in found[function].nodes] + ["Reargued"]
        own = sorted((node for node in nodes() if node.name in matched), key=lambda node: matched.index(node.name))
        clauses = [*(f"{name} {node_pattern(node, node.arguments)} = ⊥" for node in own), f"{name} _ = Unit {{0}}"]
        yield "cpp_layout/specs/Layout.antt", rewritten, [name, clauses]
