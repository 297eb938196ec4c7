"""Makes from the grammar's rows the clauses of cpp_grammar, cpp_term and cpp_link that each of C++'s productions has by its row, by its
family, or because the production is common."""
import re

import grammar
from cpp_trees import BYTES, DISCRIMINATOR, MARK, NUMBER, OUTSIDE, OWN, QUALIFIERS, SIGNED, TRUTH
from files import read, template, whole
from meanings import TABLE, makers
from notation import applied, listed, snake, together
from rules import ALIKE, coded_cases, defined_cases, families, imports
from tree_clauses import SCOPED, SUBTREES

# what reads an argument of a sort: a tree with arguments in its parameters is annotated
READ = {sort: sort for sort in (BYTES, NUMBER, TRUTH, QUALIFIERS, MARK, SIGNED, DISCRIMINATOR)}
# what is read from arguments and from values of parts: for each name, the function that reads it, and the holes of its clause
READ_OF = (
    ({name: f"is_{name}" if name in ("listed", "there") else f"{name}_of" for name in (
        "tree", "piece", "listed", "qualifiers", "ref", "letter", "there", "mark", "text", "signed", "adjustment")},
     {"module": "value_", "sort": "Value", "one": "part", "noted": "noted_value", "listed": "noted_values", "whole": "part_noted",
      "first": "(leaf_.tree t listed)", "public": "pub "}),
    ({f"{name}_in": f"{name}_in" for name in ("tree", *READ)},
     {"module": "builder_", "sort": "Argument", "one": "argument", "noted": "noted_argument", "listed": "noted_arguments",
      "whole": "argument_noted", "first": "(a_tree x)", "public": ""}))

def read_noted():
    """The lemma that a value read from an annotated tree is the annotated value, and the same for an element of a list."""
    for names, holes in READ_OF:
        for name, function in names.items():
            front, back, unfolded = ("annotate s (", ")", " annotate") if name.split("_")[0] in ("tree", "piece") else ("", "", "")
            there = name.replace("_in", "_there") if name.endswith("_in") else f"{name}_part"
            yield from template("cpp_term/read_noted.antt", name=name, function=function, there=there, front=front, back=back,
                                unfolded=unfolded, **holes).rstrip("\n").split("\n\n")

# ## Productions

def by_production(function, values, others):
    """A clause for each production that has a value, and one for the others."""
    return [f"{function} {case} = {value}" for case, value in defined_cases(values)] + [f"{function} _ = {others}"]

# The most nodes of a kind, less those that its bytes pay for: two for each byte.
SLACK_BASE = 10

def slack():
    """For each kind, the least slack that its productions allow: cpp_link's Bound proves that this suffices."""
    kinds, productions, rows = grammar.wide()
    def needed(production, least):
        eats, symbols = productions[production]
        parts = (least[symbol] - SLACK_BASE if symbol in kinds else -4 if symbol == grammar.NAME else -2 for symbol in symbols)
        row = rows[production]
        return SLACK_BASE + sum(row.made_before()) + row.made_at_end() + sum(parts) - (2 if eats else 0)
    least, before = {kind: SLACK_BASE if empty else 0 for kind, (empty, _) in kinds.items()}, None
    while before != least:
        before = least
        least = {kind: max([before[kind], *(needed(name, before) for _, name in rules)]) for kind, (_, rules) in kinds.items()}
        assert max(least.values()) <= 2 * SLACK_BASE, "a production makes more than its bytes pay for"
    return [f"slack = {listed(least.values())}"]

# ## What rows make

def by_maker(left, value, others=None):
    """A clause for each maker that has a value; the left side has a hole for the maker."""
    clauses = [(left.format(f"new_{tree[0]}"), value(tree)) for tree in makers(grammar.rows())]
    return [f"{case} = {own}" for case, own in [*clauses, (left.format("_"), others)] if own]

def encodings_in(tree):
    """The places of a tree's arguments that have a scope of their own."""
    return [place for place, (_, sort) in enumerate(tree[1:]) if sort in (OWN, OUTSIDE)]

def built_good():
    """The lemma that what a row makes is closed if its arguments are."""
    def value(tree):
        scoped = [f"(all {i}).closed" for i, (_, sort) in enumerate(tree[1:]) if sort in SCOPED]
        scopes = [f"(all {i}).scopes n" for i, (_, sort) in enumerate(tree[1:]) if sort in SUBTREES]
        closed = scoped[0] if len(scoped) == 1 else f"λ h. {applied('or_no _ _', [f'({fact} h)' for fact in scoped])}"
        return f"record {{ closed = {closed if scoped else 'λ h. refl'}; scopes = λ n. {together(scopes)} }}"
    return by_maker("built_good s {} xs all", value)

def are_shut():
    """Which arguments of a maker have to be closed."""
    def value(tree):
        facts = [f"is_open (tree_in (argument xs {place})) ≡ false" for place in encodings_in(tree)]
        return facts[0] if len(facts) == 1 else " × ".join(f"({fact})" for fact in facts)
    return by_maker("AreShut {} xs", value, "Unit {0}")

def built_noted():
    """The lemma that makers give the annotated tree for annotated arguments."""
    def value(tree):
        apart = encodings_in(tree)
        shut = {place: "h" if len(apart) == 1 else f"h.{number}" for number, place in enumerate(apart)}
        facts = [f"(shut_there s xs {place} {shut[place]})" if place in shut else f"({READ.get(sort, 'tree')}_there s xs {place})"
                 for place, (_, sort) in enumerate(tree[1:])]
        return applied(["ap", "both", "three", "four", "five"][len(facts) - 1], [f"term_.{tree[0]}", *facts]) if facts else "refl"
    return by_maker("built_noted s {} xs h", value)

# ## Families of productions

def common():
    """The common productions."""
    return families()["Common"]

def family_specs():
    """The family of each production."""
    of_each = {production: family for family, productions in families().items() for production in productions}
    return whole("cpp_link/specs/Families.antt", clauses=defined_cases(of_each))

def family_code():
    """The family of each production in code, as arms."""
    return [f"        Production::{pattern} => Family::{family}," for family, productions in families().items()
            for _, pattern, _ in coded_cases(dict.fromkeys(productions))]

def arms_of(productions):
    """The arms of a match over a family's productions: productions that mean the same have one arm."""
    return [case for case, _, _ in coded_cases(dict.fromkeys(productions))]

def isnt(case):
    """The fact that a production isn't this one, or is none of those that mean the same."""
    return f"((one : {case}) → p ≡ Production.{case} one → ⊥)" if case in ALIKE else f"(p ≡ Production.{case} → ⊥)"

def family_law(family, productions):
    """The lemma that the function of a family has an arm for each of its productions, and that a production of the family Common isn't rare."""
    is_common, cases = family == "Common", arms_of(productions)
    others = ["rare"] if is_common else [f"n{place}" for place in range(len(cases))]
    premises = " → IsRare p" if is_common else "".join(f"\n    → {isnt(case)}" for case in cases) + "\n   "
    clauses = [(f"(Production.{case} one)", f"{other} one refl") if case in ALIKE else
               (f"Production.{case}", other if is_common else f"{other} refl") for case, other in zip(cases, others * len(cases))]
    return template("cpp_link/family_law.antt", family=family, name=snake(family), premises=premises, others=" ".join(others),
                    clauses=clauses).rstrip("\n")

def family_laws():
    """The lemmas of `family_law`, for each family."""
    laws = [family_law(*family) for family in families().items()]
    return whole("cpp_link/proofs/FamilyArms.antt", alike=imports(laws), laws=laws)

def family_answers(family, productions):
    """The answer that a family's function has an arm for each of its productions."""
    others = [f"    c.in_default.not-{case}" for case in arms_of(productions)]
    return template("cpp_link/unreachable.antt", name=snake(family), others=others)

def common_answers():
    """The names and the answers of the functions with an arm for each common production. Other productions are rare, or are forwarded."""
    others = [f"  not_{snake(name)} = c.in_default.not-{name};" for name in common()]
    handed = [template("cpp_link/handed.antt", production=name, at="" if name == common()[0] else f"-in-{name}").rstrip("\n")
              for name in common()]
    yield "outcome", template("cpp_link/outcome.antt", others=others)
    yield "finish_rule", template("cpp_link/finish_rule.antt", others=others, handed=handed)

def arms(function, productions):
    """The arms of a match that forward these productions to a function, as rt fmt lays them out."""
    for name in productions:
        line = f"            Production::{name} => self.{function}(symbol, Production::{name}, frame, parts),"
        given = [f"                {one}," for one in ("symbol", f"Production::{name}", "frame", "parts")]
        yield from [line] if len(line) <= 100 else [f"            Production::{name} => self.{function}(", *given, "            ),"]

def arms_within(field, function, productions):
    """Likewise, for a function of a field."""
    for name in productions:
        yield from (f"            Production::{name} => self", f"                .{field}",
                    f"                .{function}(symbol, Production::{name}, frame, parts),")

def may_leave(crates):
    """The productions that may leave a tree that is no candidate yet: those of kinds whose trees become candidates later, except for names."""
    text = read(f"{crates}/cpp_link/proofs/CandidatesFew.antt")
    kinds = set(re.findall(r"nat_eq k (\w+)", re.search(r"^becomes_candidate k =\n((?:    .*\n)+)", text, re.M)[1]))
    names = set(re.findall(r"^makes_name Production\.(\w+) = true$", text, re.M))
    rules, productions, _ = grammar.wide()
    begun = {name for kind, (_, alternatives) in rules.items() if snake(kind).upper() in kinds for _, name in alternatives} - names
    return by_production("may_leave", {name: "true" for name in productions if name in begun}, "false")

def makes_at_end():
    """How many nodes a production makes at its end, by the values of its parts."""
    own = {word: counted[0] for word, _, *counted in TABLE["own"] if counted}
    def value(form):
        if form == "in_place" or form.startswith("a_name "):
            return "name_at_end known"
        return own.get(form.split()[1]) if form.startswith("own ") else None
    found = {production: value(row.form) for production, row in grammar.rows().items()}
    cases = defined_cases({production: counted for production, counted in found.items() if counted})
    return [*(f"makes_at_end {case} known = {counted}" for case, counted in cases), "makes_at_end p known = made_at_end p"]

def declarations(crates):
    """The path and the name of each declaration, and the lines of its clauses."""
    rows = grammar.rows()
    before = {production: listed(row.made_before()) for production, row in rows.items() if row.made_before()}
    at_end = {production: row.made_at_end() for production, row in rows.items() if row.made_at_end()}
    yield "cpp_grammar/proofs/ClosedValues.antt", "built_good", built_good()
    # whether a maker takes encodings, and the lemma that a maker that takes encodings isn't one that takes none
    takes = by_maker("takes_encodings {}", lambda tree: encodings_in(tree) and "true", "false")
    none = by_maker("none_are_taken {} xs h", lambda tree: encodings_in(tree) and "absurd (true≢false h)", "tt")
    yield from (("cpp_term/proofs/MeaningNoted.antt", name, lines) for name, lines in (
        ("takes_encodings", takes), ("AreShut", are_shut()), ("none_are_taken", none), ("built_noted", built_noted())))
    yield "cpp_link/specs/Owed.antt", "made_before", by_production("made_before", before, "[]")
    yield "cpp_link/specs/Owed.antt", "made_at_end", by_production("made_at_end", at_end, 0)
    yield "cpp_link/specs/Owed.antt", "slack", slack()
    yield "cpp_link/specs/NodeCount.antt", "makes_at_end", makes_at_end()
    yield "cpp_link/specs/Making.antt", "IsRare", by_production("IsRare", dict.fromkeys(common(), "⊥"), "Unit {0}")
    not_common = [f"  pub not_{snake(name)} : p ≡ Production.{name} → ⊥" for name in common()]
    yield "cpp_link/proofs/Making.antt", "IsNoneOfThem", not_common
    rare = [f"is_rare Production.{name} other = absurd (other.not_{snake(name)} refl)" for name in common()]
    yield "cpp_link/proofs/Making.antt", "is_rare", [*rare, "is_rare _ other = tt"]
    yield "cpp_link/proofs/CandidatesFew.antt", "may_leave", may_leave(crates)
