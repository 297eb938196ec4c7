"""Writes parts of the proofs that a symbol's bytes pay for its pressed spelling (Short of cpp_press_laws). They are lists of productions
that have the same proof, from the clauses that prove them, and for each kind the lemma of each of its productions, from the grammar."""
import re

import grammar
from files import read
from notation import braced, dashed
from rules import PAYS

FOLDER = "cpp_press_laws/proofs/Short"
# the lists, each with its file: clauses are read from the lemma `pays`, and the lemma `gains` is used
LISTS = {"type": "Types", "free": "Lists", "idle": "Lists", "qualified": "Qualified", "name": "Names", "further": "Names"}
def listed(text, function, lemma):
    """The productions of a list, by class if it has any."""
    found = {}
    for class_, production in re.findall(rf"^{lemma} (?:(\w+) )?Production\.(\w+) is =", text, re.M):
        found.setdefault(class_, []).append(production)
    lines = [f"{function}{' ' + class_ if class_ else ''} = {''.join(f'Production.{name} ∷ ' for name in productions)}[]"
             for class_, productions in found.items()]
    return found, lines + ([f"{function} _ = []"] if "" not in found else [])

def declarations(crates):
    """The path and the name of each declaration, and the lines of its clauses."""
    texts = {file: read(f"{crates}/{FOLDER}/{file}.antt") for file in ("Types", "Lists", "Qualified", "Names", "Gains")}
    rows = []
    for sort, file in LISTS.items():
        found, lines = listed(texts[file], f"{sort}_rows", f"{sort}-pays")
        rows += [(f"{sort}-gains", class_, set(productions)) for class_, productions in found.items()]
        yield f"{FOLDER}/{file}.antt", f"{sort}_rows", lines
    signatures = {name: (class_, int(granted or 0)) for text in texts.values()
                  for name, class_, granted in re.findall(r"^pub ([\w-]+) : (?:Free|Idle) Production\.\w+ (\w+)(?: (\d+))?$", text, re.M)}
    classes = dict(re.findall(r"^class_of Kind\.(\w+) = (\w+)$", texts["Gains"], re.M))
    grants = dict(re.findall(r"^grant Kind\.(\w+) = (\d+)$", texts["Gains"], re.M))
    def lemma(kind, production):
        of = classes[kind]
        for used, class_, productions in rows:
            own = {"type-gains": "type", "name-gains": "name", "further-gains": "further"}.get(used, class_)
            if production in productions and (own == of or used == "name-gains" and of == "type"):
                return f"{used}{' ' + class_ if class_ else ''} Production.{production} refl", own, 0
        name = PAYS.get((kind, production)) or PAYS.get((production,)) or dashed(production)
        if name not in signatures and f"{name}-gains" in signatures or re.search(rf"^pub {re.escape(name)}-gains : ",
                "".join(texts.values()), re.M):
            name += "-gains"
        return name, *signatures.get(name, (of, None))
    def term(kind, production):
        text, own, granted = lemma(kind, production)
        if own == "further" and classes[kind] in ("name", "type"):
            text, own = f"as-name {text}", "name"
        if own == "name" and classes[kind] == "type":
            return f"named {braced(text)}"
        if kind in grants and granted == 0:
            return f"granting{'-type' if classes[kind] == 'type' else ''} {grants[kind]} {braced(text)}"
        return text
    def pairs(terms):
        return "tt" if not terms else terms[0] if len(terms) == 1 else f"({terms[0]}, {pairs(terms[1:])})"
    grammar.build()
    lines = [f"arms Kind.{kind} is = {pairs([term(kind, name) for _, name in alternatives])}"
             for kind, (empty, alternatives) in grammar.K.items() if kind in classes]
    yield f"{FOLDER}/Every.antt", "arms", [*lines, "arms _ is = absurd (false≢true is)"]
