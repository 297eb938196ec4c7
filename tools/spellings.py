"""The clauses of each tree whose spelling is a row of cpp_trees.py: its definition, and the laws that are shown spelling by spelling.
Each is at the end of a declaration of cpp_press_laws or cpp_spelling whose first clauses are written by hand: trees.py writes them
there."""
import re

from cpp_trees import BELOW, BYTES, QUALIFIERS, SPELLED
from files import sections, template
from notation import braced, camel
from tree_clauses import pattern

# the ways of parts that are an encoding of their own
OF_THEIR_OWN = ("as_encoding", "as_signature")
NO_FACT, CODES = "(omega arith)", r'codes "\w+"'

class Part:
    """A part of a spelling: bytes, or a subtree with its way. If there are two subtrees, the part says which one it is."""
    def __init__(self, text):
        tree = re.fullmatch(r"(\w+)\.(as_\w+|under_qualifiers)", text)
        self.text, self.tree, self.way = text, tree and tree.group(1), tree and tree.group(2)
        self.side = ""

    def spelled(self, here, says=False):
        """How the part is spelled."""
        # the parameters of a lambda with parameters of its own are an encoding of their own
        if self.way == "as_signature":
            return f"begun (λ here. (ways_of here {self.tree}).as_parameters)"
        if self.tree:
            return f"(ways_of {here} {self.tree}).{self.way}"
        return f"says {self.text[6:]}" if says and re.fullmatch(CODES, self.text) else f"text {braced(self.text)}"

    def size(self):
        """The length of the part: a number, and what is added to it."""
        if self.tree:
            own = f"{self.tree} (size {self.tree})"
            forms = {**dict.fromkeys(("as_type", "as_prefix"), f"part_of {own}"), "under_qualifiers": f"bare_of {own}",
                     **dict.fromkeys(("as_parameters", "as_signature"), f"with_void {own}")}
            return 0, [forms.get(self.way, f"size {self.tree}")]
        number, others = 0, []
        for term in self.text.split(" ++ "):
            found = re.fullmatch(r'codes "(\w+)"|(?:(?:\w+ ∷ )+\[\])|cond \w+ \(codes "(\w+)"\) (?:\[\]|\(.*\))', term)
            if found:
                number += len(found[1] or found[2] or "") or term.count("∷")
            else:
                others.append(f"length {braced(term)}")
        return number, others

    def facts(self):
        """What arithmetic needs to know of the length of these bytes."""
        if self.tree:
            return [f"front-part {self.tree} (size {self.tree})"] if self.way == "as_prefix" else []
        condition = re.match(r"cond (\w+)", self.text)
        if condition:
            return [{"internal": "internal-short internal name", "truth": "truth-short truth"}[condition[1]]]
        terms = self.text.split(" ++ ")
        return [f"length-append {braced(term)} {braced(' ++ '.join(terms[i:]))}" for i, term in enumerate(terms[:-1], 1)
                if not term.startswith("codes")]

    def side_of(self, fact):
        """The fact of this subtree, from the fact of either one."""
        return f"(λ x w. {fact} x ({self.side} w))" if self.side else fact

    def onto(self):
        """The part before what follows it."""
        if self.tree:
            return f"in_way n Way.{camel(self.way.removeprefix('as_'))} {self.tree}"
        return f"fixed {self.text[6:]}" if re.fullmatch(CODES, self.text) else f"written {braced(self.text)}"

def spelled(parts, here, says=False):
    """How these parts are spelled."""
    return " and ".join(part.spelled(here, says) for part in parts)

def total(parts):
    """The length of a spelling: a number, and what is added to it."""
    sizes = [part.size() for part in parts]
    number, others = sum(size for size, _ in sizes), [term for _, terms in sizes for term in terms]
    return " + ".join(([str(number)] if number or not others else []) + others)

def arithmetic(*parts):
    """Arithmetic with the facts that it needs about these parts."""
    facts = [fact for part in parts for fact in part.facts()]
    return f"(omega ({', '.join(['arith', *facts])}))" if facts else NO_FACT

class Spelling:
    """How a tree is spelled: the tree and its pattern, the sort of its spelling, its parts, where it is, and whether it fits nowhere."""
    def __init__(self, tree):
        head, *parts = SPELLED[tree[0]]
        self.tree, self.name, self.shape, self.parts = tree, tree[0], pattern(tree), list(map(Part, parts))
        self.nowhere, self.sort = head.startswith("nowhere"), head.split()[-1] if parts else "none"
        self.here = "here" if self.sort == "encoding" else "n"
        self.subtrees = [part for part in self.parts if part.tree]
        for part, side in zip(self.subtrees, ("inl", "inr")):
            part.side = side if len(self.subtrees) > 1 else ""
        front = ["nowhere"] if self.nowhere else ["tested"] if self.name in BELOW["fits"] else []
        of_component = ["compound" if self.subtrees else "leaf"] if self.sort == "component" else []
        self.sorts = [*front, f"{'several' if len(self.parts) > 1 else 'single'} {self.sort}", *of_component, self.sort, "others"]

def spellings(trees):
    """The spellings of the trees that have one."""
    return [Spelling(tree) for tree in trees if tree[0] in SPELLED]

def size(of):
    """How long a tree's spelling is."""
    least = f"{BELOW['least'][of.name]} + " if of.name in BELOW["least"] else ""
    return f"{least}{total(of.parts)}" if of.parts else None

def keeping(of):
    """The law that components stay, where the components of a closed subtree are kept apart from others."""
    known, fact = "⊥ here (OrOpen R)" if of.sort == "encoding" else "open_ n R", "(λ x w. h x (inr w))" if of.sort == "prefix" else "h"
    def law(part, *rest):
        known_of = f"{known} {braced(part.spelled(of.here) if part.tree else part.text)}"
        own = f"keeps {part.tree} {known} way.{part.way} {part.side_of(fact)}" if part.tree else f"text-keeps {known_of}"
        if not rest:
            return own
        if part.way == "as_signature":
            own = f"signature-keeps {known} {part.tree} (λ here. keeps {part.tree} ⊥ here (OrOpen R)) {fact}"
        if part.tree:
            lemma, given = f"{'behind-' if part.way in OF_THEIR_OWN else ''}and-keeps", f" ({own})"
        elif rest[0].way in OF_THEIR_OWN:
            lemma, given = "behind-bytes-keeps", f" {BELOW['some'].get(of.name, NO_FACT)}"
        else:
            lemma, given = "behind-text-keeps", ""
        return f"{lemma} {known_of} ({spelled(rest, of.here)}){given} ({law(*rest)})"
    raw = [f"{'Whole' if part.way == 'as_type' else 'Inside'} {part.tree}" for part in of.subtrees]
    either = f"({raw[0]})" if len(raw) == 1 else f"(λ x. {' ⊎ '.join(fact + ' x' for fact in raw)})"
    if of.subtrees and of.subtrees[0].way == "as_encoding":
        sides = f"(λ x. Shut ({raw[0]} x) x) (λ x s. s.1)"
    else:
        sides = f"{either} (λ x s. s)" if raw else ""
    if of.sort == "encoding":
        return f"{sides} (λ here h. {law(*of.parts)})"
    return law(*of.parts)

def growing(of):
    """The law that components grow as a tree is spelled."""
    def law(part, *rest):
        if not part.tree:
            return f"front {braced(part.text)} ({law(*rest)})" if rest else f"text-grows {braced(part.text)}"
        fact = f"more-grows (ways-grow whole {part.tree} {part.side_of('in_whole')} {of.here} way.{part.way}) (omega arith)"
        if part.way == "as_signature":
            fact = f"begun-grows (λ here. more-grows (ways-grow whole {part.tree} in_whole here way.as_parameters) (omega arith))"
        if not rest:
            return fact
        is_last = len(rest) == 1 and not rest[0].tree
        return f"back ({fact}) {braced(rest[0].text)}" if is_last else f"and-grows ({fact}) ({law(*rest)})"
    return law(*of.parts)

def short(of):
    """The law that a spelling is no longer than its size."""
    whole = braced(total(of.parts)) if of.sort == "type" else f"(size {of.shape})"
    def law(bound, part, *rest):
        here, text = of.here, braced(part.text)
        fact = f"all-short {part.tree} {here} way.{part.way}" if part.tree else f"bytes-short {bound} {text} {arithmetic(part)}"
        if part.way == "as_signature":
            fact = f"begun-short {braced(total([part]))} _ (λ here. all-short {part.tree} here way.as_parameters)"
        if not rest:
            return fact
        left, after = braced(total(rest)), f"({law(braced(total(rest)), *rest)})"
        if not part.tree:
            return f"behind-text {left} {bound} {text} {braced(spelled(rest, here))} {arithmetic(part)} {after}"
        own = braced(part.spelled(here)) if part.way == "as_signature" else part.spelled(here)
        length = f"(front_of {part.tree} (size {part.tree}))" if part.way == "as_prefix" else braced(total([part]))
        if len(rest) == 1 and not rest[0].tree:
            return f"before-text {length} {bound} {own} {braced(rest[0].text)} {arithmetic(part, *rest)} ({fact})"
        return f"and-within {length} {left} {bound} {own} {braced(spelled(rest, here))} (omega arith) ({fact}) {after}"
    if of.sort == "type":
        return f"{braced(spelled(of.parts, 'n'))} {whole} ({law(whole, *of.parts)})"
    return law(whole, *of.parts)

def needed(of):
    """What a tree needs so that it fits, and the slot of the type in the tree."""
    return BELOW["fits"].get(of.name), BELOW["slot"].get(of.name, "any_type")

def fitting(of):
    """Where a type fits, by its tests."""
    tests, slot = needed(of)
    inner = f"behind_bytes {braced(of.parts[0].text)} ((fits_of {of.parts[1].tree}).as_type {slot}) around allowed place cs"
    return " × ".join([*(f"({test})" if "≡" in test else test for test in tests), inner])

def adding(of):
    """The law that a type adds its components where it fits."""
    tests, slot = needed(of)
    text, fits = braced(of.parts[0].text), f"fits.{len(tests)}" if tests else "fits"
    inner = f"(adds {of.parts[1].tree}).at fit.as_type {slot} around allowed (place + length {text}) cs {fits}"
    return f"after-bytes 1 2 {text} {BELOW['long'].get(of.name, NO_FACT)} ({inner})"

# ## Spelled onto what follows

def onto(of):
    """A tree before what follows it, part by part."""
    return f"{' onto '.join(part.onto() for part in of.parts)} onto rest"

def joined(of, rest):
    """The law that a tree's parts, one after the other, are the tree before what follows."""
    parts = [part.spelled(of.here) if part.tree and part.way != "as_signature" else f"({part.spelled(of.here)})" for part in of.parts]
    return " ".join([["refl", "two", "three", "four"][len(parts) - 1], *([*parts, rest] if len(parts) > 1 else [])])

# ## Types with bytes before them

TYPES = {BYTES: "List ℕ", QUALIFIERS: "Qualifiers"}

def lemmas(trees):
    """The path and the lemma of each type with bytes before it."""
    for of in spellings(trees):
        tests, slot = needed(of)
        if not tests or slot != "any_type":
            continue
        text, inner = braced(of.parts[0].text), of.parts[1].tree
        given = [(name, TYPES[sort]) for name, sort in of.tree[1:] if name != inner]
        premises = [f"({tests[0]})", *tests[1:], f"(fits_of type).as_type any_type inner allowed (place + length {text}) cs"]
        lemma = template("cpp_press_laws/fits.antt", own=of.name.replace("_", "-"), shape=of.shape, bytes=text,
                         binders="".join(f"({name} : {type}) " for name, type in given), given="".join(f"{name} " for name, _ in given),
                         known="".join(f"{test} → " for test in tests[1:]), digit="digit " * len(tests[1:]),
                         premises=" × ".join(premises), facts=", ".join(["take", *["digit"] * len(tests[1:]), "fits"]))
        yield "cpp_press_laws/proofs/Fits/Types.antt", lemma.rstrip("\n").split("\n")

# ## Declarations

# the clauses of a spelling, by the words of cpp_spellings.txt
LAWS = {"said": lambda of: spelled(of.parts, of.here, True), "spelled": lambda of: spelled(of.parts, of.here), "onto": onto,
        "joined": joined, "fitting": fitting, "short": short, "keeping": keeping, "growing": growing, "adding": adding, "size": size}

def clauses(said, of):
    """The clauses of a spelling by its sort, if there are any."""
    form, (law, *given) = next((said[sort] for sort in of.sorts if sort in said), ""), said.get("law", "none").split()
    own = LAWS[law](of, *given) if "{law}" in form else ""
    return form.format(own=of.shape, sort=of.sort, law=own) if form and own is not None else None

def declarations(trees):
    """Path, name, and the lines at its end."""
    for head, lines in sections("cpp_spellings.txt"):
        path, name = head.split()
        said = dict(re.match(r"((?:several |single )?\S+) ?(.*)", line).groups() for line, _ in lines)
        values = [(of, clauses(said, of)) for of in spellings(trees) if name not in BELOW["by_hand"].get(of.name, [])]
        yield path, name, [*(f"{name} {said['left'].format(own=of.shape)} = {value}" for of, value in values if value is not None),
                           *([f"{name} {said['rest']}"] if "rest" in said else [])]
