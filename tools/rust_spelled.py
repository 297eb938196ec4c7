"""What is proved for each of Rust's productions. From the sorts of their parts it makes the sorts of their values, the proof that trees
which are read can be spelled, and the proof that what is pressed is read as the same tree."""
from itertools import product
from types import SimpleNamespace

import rust_grammar
from files import sections, template
from notation import braced, dashed, greatest, listed, together
from rust_parts import BY_NAME, WRITTEN, parts_of

# ## Sorts of values

VALUES, KIND_SORTS = ([line.split() for line, _ in lines] for _, lines in sections("rust_sorts.txt"))

def slot(part):
    """What a production requires of this part."""
    return part.slot or f"{'maybe' if part.missing else 'one'} {part.name}"

def production_sort(letter):
    """The sort of what the rule of a letter makes: the sort of a kind with this rule, and for a name the narrowest such sort."""
    kind = next(kind for kind in ("NAME", *rust_grammar.KINDS) if letter in rust_grammar.KINDS[kind][0])
    return dict(KIND_SORTS).get(kind, kind.lower())

def sorts():
    """Runs of declarations: the sorts, and the sort of a value; the place of each sort among them; what productions require and make."""
    asked = {production: listed(map(slot, parts_of(production))) for production in rust_grammar.RULE_OF if parts_of(production)}
    values = [(number, sort, f"value.{own}" if alone else f"(value.{own} _)") for number, (sort, own, *alone) in enumerate(VALUES)]
    made = {production: production_sort(letter) for production, (letter, _, _) in rust_grammar.RULE_OF.items()}
    of_values, of_value, places, *of_productions = template("rust_v0/sorts.antt", sorts=values, asked=asked,
                                                            made=made).rstrip("\n").split("\n\n")
    return [[of_values, of_value], [places], of_productions]

def slot_then(part):
    """The lemma that a required part exists, and is of its sort."""
    name, is_filled = part.name, "(record { is = fill.is })"
    fronts = [f"{name}_then make slots ({front.valued.replace('value.', '')} ∷ rest) f fill each = each ({front.tree}, rest) {is_filled}"
              for front in part.fronts]
    last = f"each ({part.missing[2]}, parts) {is_filled}" if part.missing else "absurd (false≢true fill.is)"
    return template("rust_v0/slot_then.antt", name=name, tree=part.tree.replace("value.", ""), fronts=fronts, last=last,
                    asked=" ".join(f"sorts.{word}" for word in slot(part).split())).rstrip("\n")

def made_of_slots(made):
    """The lemma that a production makes a value of its sort from the parts that it requires."""
    lines, rest = [f"made rules.{made.production} at parts fill ="], "parts"
    for k, part in enumerate(made.parts):
        lines.append(f"    {part.name}_then sorts.{made.of} _ {rest} _ fill (λ x{k} fill.")
        rest = f"x{k}.1"
    return "\n".join([*lines[:-1], lines[-1] + " refl" + ")" * len(made.parts)])

# ## What is read can be spelled

# the clauses of productions that bind lifetimes are written by hand
BINDERS = ("Function", "Dyn")
# what needs nothing to be spelled
FREE = ("unsafe", "truth")

def good_then(part):
    """The lemma that a part can be spelled if all parts can."""
    lemma, taken = f"{dashed(part.name)}-then", part.lifetimes and part.lifetimes.replace("@", "x")
    whole = f"({part.good} × ({taken} ≤ b))" if taken else part.good
    fronts = [f"unfolding {taken.split()[0]}"] if part.name in ("type", "arguments", "bindings") else []
    fronts += [f"{lemma} p b Q ({front.valued} ∷ rest) f good more = more {braced(front.tree)} rest {fact} good.1"
               for front, fact in zip(part.fronts, part.good_fronts)]
    last = f"more {part.missing[2]} parts {part.good_missing} good" if part.missing else "tt"
    return template("rust_press/good_then.antt", lemma=lemma, tree=part.tree, whole=whole, name=part.name, fronts=fronts,
                    last=last).rstrip("\n")

def made_good(made):
    """The lemma that what a production makes can be spelled if its parts can."""
    lines, rest, good = [f"made rules.{made.production} at parts inner byte good endings ="], "parts", "good"
    for k, part in enumerate(made.parts):
        lines.append(f"    {dashed(part.name)}-then rules.{made.production} at.bound _ {rest} _ {good} (λ x{k} r{k} x{k}-is g{k}.")
        rest, good = f"r{k}", f"g{k}"
    goods = [(f"x{k}-is", part) for k, part in enumerate(made.parts)]
    spelled = [f"{fact}.0" if part.lifetimes else fact for fact, part in goods if part.name not in FREE]
    spelled = together(spelled)
    needed = ["arith"] + [f"{fact}.1" for fact, part in goods if part.lifetimes]
    own = spelled if made.of == "constant" else f"({spelled}, omega {'arith' if len(needed) == 1 else '(' + ', '.join(needed) + ')'})"
    ends = f"({spelled}, endings)" if made.of in ("path", "type", "constant") else "endings"
    return "\n".join([*lines, f"    (λ q. {own}, {ends})" + ")" * len(made.parts)])

# ## What is pressed is read again

NUMBERS = list(rust_grammar.KINDS)

class Kept:
    """The rule of a production that makes a tree, as it is pressed: parts, names, how many lifetimes these need, tree, value,
    kinds, and where it is taken."""
    def __init__(self, made):
        self.made, self.ends = made, made.of in ("path", "type")
        self.parts, self.names = made.parts, names_of([part.name for part in made.parts])
        self.pairs = list(zip(self.parts, self.names))
        self.need = greatest([part.lifetimes.replace("@", name) for part, name in self.pairs if part.lifetimes])
        self.tree = f"(tree.{made.tree} {' '.join(self.names)})"
        self.value = f"(value.{BY_NAME[made.of].fronts[-1].value} {self.tree})"
        self.means = f"{dashed(made.tree)}-means"
        letter, self.takes, symbols = rust_grammar.RULE_OF[made.production]
        self.bytes = [ord(symbol[1]) for symbol in symbols if symbol[0] == "'"]
        self.kinds = [f"Byte {ord(symbol[1])}" if symbol[0] == "'" else f"Kind {NUMBERS.index(symbol)}" for symbol in symbols]
        self.rule = f"({'taking' if self.takes else 'chaining'} rules.{made.production} {self.kinds_from(0)})"
        kind = made.of.upper()
        self.kind, self.byte = "kind" if made.of == "path" else str(NUMBERS.index(kind)), str(ord(rust_grammar.KINDS[kind][0][letter][0]))
    def kinds_from(self, first):
        """The kinds of the parts from one on."""
        return f"({listed(self.kinds[first:])})"
    def press_from(self, first):
        """The pressing of the parts from one on."""
        press = [part.press.replace("@", name) for part, name in self.pairs] + [f"letter {byte}" for byte in self.bytes]
        return f"({' and '.join(press[first:])})"
    def fact(self):
        """The fact of what the values of the parts have to mean."""
        if self.takes:
            return f"({'Ends' if self.ends else 'Makes'} {self.rule} {self.byte} c {self.value})"
        return f"(λ values. (at : At) → at.bound ≡ c → meaning_of (production_of {self.rule}.number) at values ≡ plain at {self.value})"

def means(kept):
    """What the values of the parts mean together, by their forms: a type has one of two forms."""
    typed = next((name for part, name in kept.pairs if not part.values), None)
    arguments = " ".join("(d : ℕ) (m : tree.Name)" if name == "i" else f"({name} : {part.tree})" for part, name in kept.pairs)
    values = [(part.values or "vs").replace("@.disambiguator", "d").replace("@.name", "m").replace("@", name) for part, name in kept.pairs]
    known = f"({values[0]})"
    for value in [*values[1:], *["[]" for byte in kept.bytes]]:
        known = f"({known} ++ ({value}))"
    made = kept.value.replace(" i)", " (record { disambiguator = d; name = m }))")
    given = f" (vs : List Value) → IsTypeValue {typed} vs" if typed else ""
    lines = [f"-- {WRITTEN}", f"pub {kept.means} : {arguments}{given} → (at : At) → meaning rules.{kept.made.production} at "
             f"{known} ≡ {'ends' if kept.ends else 'plain'} at {made}"]
    ends = ["vs (inl e) at = rw e refl", "vs (inr e) at = rw (e.1, e.2) refl"] if typed else ["at = refl"]
    forms = product(*([form.replace("@", name) for form in part.forms] for part, name in kept.pairs))
    return "\n".join([*lines, *(f"{kept.means} {' '.join(form)} {end}" for form in forms for end in ends)])

def kept_parts(kept):
    """The parts of a clause, one after the other: each is pressed and read as its values, which the later parts know."""
    taken, at = ("({} ∷ [])".format(kept.byte), "at there same") if kept.takes else ("[]", "at same")
    conditions = [k for k, part in enumerate(kept.made.parts) if part.name not in FREE]
    lines, known, front, facts = [], "[]", "(", ["i.disambiguator i.name" if name == "i" else name for name in kept.names]
    for k, kind in enumerate(kept.kinds):
        part = (kept.parts[k] if k < len(kept.parts) else SimpleNamespace(press=f"letter {kept.bytes[-1]}", values="[]",
                why=f"byte-presses s c _ _ {kept.bytes[-1]}"))
        name, last = [*kept.names, ""][k], k + 1 == len(kept.kinds)
        values = part.values.replace("@", name) if part.values else None
        good = f"good.{conditions.index(k)}" if k in conditions and len(conditions) > 1 else "good"
        lemma, rest, after = ("last-presses", "", "") if last else ("and-presses", " " + kept.kinds_from(k + 1),
                " " + kept.press_from(k + 1))
        read_as = f"(λ values. values ≡ ({values}))" if values else "(IsTypeValue t)"
        lines.append(f"{front}{lemma} s {kept.rule} {taken} c ({kind}){rest} {known} ({part.press.replace('@', name)}){after} {read_as} "
                     f"{kept.fact()}")
        lines.append(f"({part.why.replace('@', name).replace('GOOD', good)})")
        now = f"({values})" if values else f"v{k}"
        known = now if known == "[]" else f"({known} ++ {now})"
        front = f"(λ v{k} h{k}. rw h{k} (" if values else f"(λ v{k} h{k}. ("
        if not values:
            facts.append(f"v{k} h{k}")
    own = f"λ {at}. {kept.means} {' '.join(facts)} at"
    # each part opens two parentheses: one for its lemma, and one for what is known after it
    return [*lines, (front + own + ")" if values else front[:-1] + own) + ")" * (2 * len(kept.kinds)), f"(λ {at} values r. r {at})"]

def kept_clause(kept):
    """The proof that the pressed spelling of the production's tree is read as this tree."""
    made = kept.made
    front = f"{made.of}-kept s c fits inside minus{' kind has' if made.of == 'path' else ''} {kept.tree} good closed ="
    takes = "takes-ends" if kept.ends else "takes-plain" if kept.takes else "chains-plain"
    own = f"(of_{made.of} {kept.tree})" if kept.ends else kept.value
    found = f"has.{made.tree}" if made.of == "path" else "refl"
    lines = [f"let need_is : {kept.need} ≤ c = closed in"] if kept.need else []
    rule = [f"{takes} s c inside minus {kept.kind} {kept.byte} {kept.rule} {kept.press_from(0)} {kept.fact()} {own} (omega arith) {found} "
            "refl", *kept_parts(kept)]
    # a type may be a reference to an earlier one
    if made.of == "type":
        rule = [f"own-type-presses s c inside minus {kept.tree} (spell_type {kept.tree}) fits closed", "(" + rule[0], *rule[1:-1],
                rule[-1] + ")"]
    return "\n".join([f"  {front}", *[f"      {line}" for line in lines + rule]])

def names_of(parts):
    """The names of the arguments of a tree, by their sorts."""
    names = []
    for part in parts:
        names.append("q" if part == "path" and "p" in names else BY_NAME[part].called)
    return names
