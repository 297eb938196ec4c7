"""The test whether trees are the same, by their constructors and argument by argument, in both languages: from a constructor with the sorts
of its arguments to the clauses of the test, of its soundness and of its reflexivity."""

def numbered(constructor, count, letter="a"):
    """A constructor with arguments of its own."""
    return f"({' '.join([constructor, *[f'{letter}{i}' for i in range(count)]])})" if count else constructor

def same_clause(function, constructor, tests):
    """Whether two trees are the same, where a test is a form of the two arguments."""
    own = " && ".join(test.format(f"a{i}", f"b{i}") for i, test in enumerate(tests))
    return f"{function} {numbered(constructor, len(tests))} {numbered(constructor, len(tests), 'b')} = {own or 'true'}"

def equal_clause(function, constructor, lemmas, facts, first=()):
    """The clause that trees of a constructor are equal, by a lemma and a fact of each argument."""
    lines = [f"{function} {numbered(constructor, len(lemmas))} {numbered(constructor, len(lemmas), 'b')} h =", *first]
    lines += [f"    let e{i} : a{i} ≡ b{i} = {lemma} a{i} b{i} {fact} in" for i, (lemma, fact) in enumerate(zip(lemmas, facts))]
    return [*lines[:-1], lines[-1] + (" cc" if lemmas else " refl")]

def itself(facts):
    """The clause that a tree is the same as itself, by the facts of its arguments."""
    whole = facts[0] if facts else "refl"
    for fact in facts[1:]:
        whole = f"all ({whole}) ({fact})"
    return whole
