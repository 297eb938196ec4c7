"""The code of cpp_link for what is done before the parts of a production, the facts that functions are called with, and the answers of
the functions that forward productions without an arm. All follow from the rows of grammar.py; trees.py writes them."""
import re

import grammar
from files import template
from meanings import ALL_PARTS, CODE, STEP, TABLE, made, said
from notation import Steps, applied, camel, snake
from rules import TOKENS
from rust_layout import arm, split

FILE = "cpp_link/src/row_steps.rt"
ITS_TYPES = template("cpp_link/its_types.rt").rstrip("\n")

def made_step(step):
    """The first part becomes a tree."""
    node, is_extended = made(step.made, STEP), step.made.startswith(("name + ", "tagged("))
    if " applied to " in step.made:
        return node
    if is_extended or "(" in step.made and step.is_name and not step.is_candidate and not step.made.startswith("operation("):
        return f"self.{'listed_name' if step.is_listed else 'named'}({node})"
    marks = f"listed: {str(step.is_listed).lower()}, is_name: {str(step.is_name).lower()}"
    if "(" not in step.made:
        return f"Step::Named {{ node: {node}, {marks} }}"
    return f"Step::Made {{ node: {node}, {marks}, is_candidate: {str(step.is_candidate).lower()}, packs: self.packs }}"

def code(step):
    """What is done, in code."""
    return ITS_TYPES if step.text == "in its types" else said("steps", step.text, CODE) or made_step(step)

# steps with hand-written code: tests, packs, an M, and steps that the ABI's grammar doesn't have
def is_by_hand(step):
    """Whether a step has hand-written code."""
    return step.definition.split()[0] in ("tests", "holds", "unread", "quiet") or "packed(" in step.made

def is_piece(step):
    """Whether a step puts a piece after the name so far."""
    return step.is_name and step.made.startswith("name + ") and not step.is_listed and not step.is_candidate

def steps():
    """What is done before each of the five parts, by production."""
    return {production: [row.step(part) for part in range(ALL_PARTS)] for production, row in grammar.wide()[2].items()}

def of_function(found):
    """The productions of each function, each with what is done."""
    def at(part, test=lambda step: True):
        return {production: own[part] for production, own in found.items() if not is_by_hand(own[part]) and test(own[part])}
    return {
        "step_first": at(0), "step_second": at(1, lambda step: not step.is_name),
        "step_second_of_name": at(1, lambda step: step.is_name and not is_piece(step)), "step_second_of_piece": at(1, is_piece),
        "step_third": at(2), "step_fourth": at(3), "step_later": at(4),
    }

def arms():
    """Each function, and the arms of its match."""
    for function, done in of_function(steps()).items():
        lines = []
        for production, step in done.items():
            shown = code(step)
            lines += [f"            Production::{production} => {shown}"] if shown == ITS_TYPES else arm(f"Production::{production}", shown)
        yield FILE, function, lines

# the functions that are called in turn, each for the productions that the one before it has no arm for
ASKED = ["step_second", "step_second_of_name", "step_second_of_piece"]

def others_than(function, found, functions):
    """The productions that a function is never called with, since its caller has arms for them."""
    by_hand = [production for production, own in found.items() if own[1].text and is_by_hand(own[1])]
    return by_hand + [production for before in ASKED[:ASKED.index(function)] for production in functions[before]]

def asked():
    """Each function that is called for other functions' remaining productions, and the facts that those functions have no arm for the
    production."""
    found = steps()
    for function in ASKED:
        others = others_than(function, found, of_function(found))
        yield FILE, function, [f"        requires {snake(name)} {{ production ≡ productions.{name} → ⊥ }}" for name in others]

# ## Answers

def passed_on(caller, callee, found, functions):
    """The answers that a forwarding call's requirements are met, and that it ensures what its caller has to ensure: each as one record."""
    others = [f"  {snake(name)} = c.{f'in_default.not-{name}' if name in functions[caller] else f'requires.{snake(name)}'};"
              for name in others_than(callee, found, functions)]
    return template("cpp_link/passed_on.antt", caller=caller, callee=callee, others=others)

def shown_piece(text):
    """A piece of a name as a tree and in code, by what is read from the first part; the call that reads it; and the proof that both agree."""
    if "(" not in text:
        return "values.piece_of v", "{0}.result", "piece_in", "{0}.ensures.is"
    name, inside = re.fullmatch(r"(\w+)\((.*)\)", text).groups()
    *front, part = split(inside)
    known = [{"yes": "true", "no": "false"}.get(given) or str(ord(given[1])) for given in front]
    tree, piece = applied(f"term.{name}", known), applied(f"Piece.{camel(name)}", known)
    read, reads, fact = {"x0": ("text_in", "text_of", "{0}.ensures.is"),
                         "l0": ("letter_of", "letter_of", "({0}.ensures c.args.symbol.now ts)")}[part]
    return f"{tree} (values.{reads} v)", f"({piece} {{0}}.result)", read, f"(ap (λ x. {tree} x) {fact})"

def pieces(done):
    """Each arm by which a piece comes after the name so far, as one record."""
    steps = Steps()
    for production, step in done.items():
        tree, piece, read, same = shown_piece(step.made.removeprefix("name + "))
        *calls, part = (f"c.{steps(name, production)}" for name in ("named", "extended", "prefix", read))
        yield template("cpp_link/piece.antt", production=production, piece=piece.format(part), tree=tree, same=same.format(part),
                       **dict(zip(("named", "extended", "prefix"), calls)))

def answers():
    """The answers of each function that forwards, and of the function that makes a name from a piece: their files, and their texts."""
    found = steps()
    functions, path = of_function(found), "cpp_link/proofs/linked/Linked/{}/Answers.antt".format
    for caller, callee in zip(ASKED, ASKED[1:]):
        yield path(caller), passed_on(caller, callee, found, functions)
    yield path("step_second_of_piece"), template("cpp_link/pieces.antt") + "".join(pieces(functions["step_second_of_piece"]))

# ## The candidates of a production

def symbol(part):
    """A symbol of a rule, in definitions."""
    return part if part in TOKENS else f"(OfKind {snake(part).upper()})"

FLOWS = [(re.compile(r" \| ".join(said)), lemma) for *said, lemma in TABLE["flows"]]

def flow(production, row, parts):
    """How the candidates of a production flow, by its row: the lemma, with what it requires; nothing if the clause is written by
    hand, or is that of most productions."""
    before = row.before[1] if len(row.before) == 2 and row.before[0] == "quiet" and row.onward == "quiet" else ""
    first, second = [*parts, "", ""][:2]
    lemma = next((lemma for pattern, lemma in FLOWS if pattern.fullmatch(f"{before} | {row.form} | {row.gain}")), "")
    return lemma.format(name=f"Production.{production} refl around place", production=production, first=symbol(first),
                        second=symbol(second), kind=snake(second).upper(), after=dict(TABLE["after_names"]).get(second, ""))

def flows():
    """How candidates flow, for each production with a row that says it."""
    _, productions, rows = grammar.wide()
    found = {name: flow(name, row, productions[name][1]) for name, row in rows.items()}
    return [f"flows Production.{name} around place = {lemma}" for name, lemma in found.items() if lemma]
