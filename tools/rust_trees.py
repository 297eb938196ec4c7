"""The clauses of rust_press that follow from the arguments of Rust's trees: from the trees that productions make (rust_parts.py)."""
import sameness
from rust_parts import NODES, WRITTEN
from rust_spelled import names_of

# the trees of each family, by constructor, each with the sorts of its arguments; trees that no production makes of parts are written by
# hand
FAMILIES = {"path": "Path", "arguments": "Arguments", "type": "Ty", "types": "Tys", "bounds": "Bounds", "bindings": "Bindings",
            "constant": "Constant"}
LEAVES = {"arguments": {"no_arguments": []}, "type": {"basic": ["letter"], "path_type": ["path"]}, "types": {"no_types": []},
          "bounds": {"no_bounds": []}, "bindings": {"no_bindings": []}, "constant": {"integer": ["letter", "truth", "letter"]}}
TREES = {of: {**LEAVES.get(of, {}), **{made.tree: [part.name for part in made.parts] for made in NODES if made.of == of}}
         for of in FAMILIES}
TREES["constant"] |= {"character": ["letter"], "placeholder": []}
MUTUAL = [of for of in FAMILIES if of != "constant"]
NUMERIC = ("letter", "lifetime", "some_lifetime", "disambiguator", "binder")

def by_family(families, indent, signature, clauses, others=""):
    """A declaration for each family: its signature, its clauses by constructor, and the clause for other trees. `@` is the family."""
    found = []
    for of in families:
        lines = [f"-- {WRITTEN}", signature, *[clauses(of, constructor, sorts) for constructor, sorts in TREES[of].items()], others]
        text = "\n".join(filter(None, lines)).replace("@@", FAMILIES[of]).replace("@", of)
        found.append("\n".join(indent + line for line in text.split("\n")))
    return found

def of_sort(sort, numeric, others):
    """The text for an argument, by its sort."""
    return numeric if sort in NUMERIC else others.format("truth" if sort == "unsafe" else sort)

def same(families, indent):
    """Whether two trees are the same, by family."""
    def clause(of, constructor, sorts):
        tests = [of_sort(sort, "({0} == {1})", "same_{0} {{0}} {{1}}") for sort in sorts]
        return sameness.same_clause("same_@", constructor, tests)
    return by_family(families, indent, f"{'' if indent else 'abbrev '}pub same_@ : @@ → @@ → Bool", clause, "same_@ _ _ = false")

def equal(families, indent):
    """The lemma that two trees are equal if they are found to be the same."""
    def fact(place, count):
        whole = "h"
        for _ in range(count - 1 - max(place, 1)):
            whole = f"(both {whole}).0"
        return whole if count == 1 else f"(both {whole}).{min(place, 1)}"
    def clause(of, constructor, sorts):
        lemmas = [of_sort(sort, "eqb-true", "equal-{0}") for sort in sorts]
        facts = [fact(place, len(sorts)) for place in range(len(sorts))]
        return "\n".join(sameness.equal_clause("equal-@", constructor, lemmas, facts))
    return by_family(families, indent, "pub equal-@ : (a b : @@) → same_@ a b ≡ true → a ≡ b", clause, "equal-@ _ _ h = cc")

def itself(families, indent):
    """The lemma that each tree is found to be the same as itself."""
    def clause(of, constructor, sorts):
        facts = [of_sort(sort, f"eq-eqb a{i} a{i} refl", f"{{0}}-itself a{i}") for i, sort in enumerate(sorts)]
        return f"@-itself {sameness.numbered(constructor, len(sorts))} = {sameness.itself(facts)}"
    return by_family(families, indent, "pub @-itself : (a : @@) → same_@ a a ≡ true", clause)

def summed(function, public, sum_of):
    """A number of each tree, by the numbers of its subtrees."""
    def name(of):
        return function if of == "path" else f"{function}_of_{of}"
    def clause(of, constructor, sorts):
        names = names_of(sorts)
        pattern = f"(tree.{constructor} {' '.join(names)})" if sorts else f"tree.{constructor}"
        parts = [f"{name(sort)} {own}" for own, sort in zip(names, sorts) if sort in MUTUAL]
        return f"{name(of)} {pattern} = {sum_of(constructor, parts, sorts.count('constant'))}"
    return [text for of in MUTUAL for text in by_family([of], "  ", f"{public}{name(of)} : tree.@@ → ℕ", clause)]

def weight(constructor, parts, constants):
    """What a tree weighs."""
    return " + ".join([str(3 + 3 * constants), *parts])

def size(constructor, parts, constants):
    """How large a tree is."""
    return parts[0] if constructor == "path_type" else " + ".join([str(2 + constants if parts else 1), *parts])
