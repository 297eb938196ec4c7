"""Writes the code of cpp_link that links rare productions, a function for each family of productions, from the productions' rows in
grammar.py."""
import re

import grammar
from files import sections, template
from notation import alone_or, snake
from rules import ABOVE, coded_cases, families
from meanings import CODE, TABLE, made, said
from rust_layout import arm, split

# each file, its first comment, and its families, each with its comment
FILES = [(*head.split(": ", 1), [line.split(": ", 1) for line, _ in lines]) for head, lines in sections("cpp_families.txt")]

# ## What a row means

def outcome(means):
    """What a row means, in code. Only one tree of a pair may be made, if the left one exists already or there is no right one."""
    if not means.startswith("pair("):
        return said("means", means, CODE)
    letter, left, right = split(re.fullmatch(r"pair\((.*)\)", means)[1])
    of = said("arguments", letter, CODE)
    if "(" in left + right:
        there, node = (f"Some({made(left, CODE)})", right) if "(" in right else ("None", left)
        return f"Outcome::MadeOperand {{ letter: {of}, left: {there}, node: {made(node, CODE)} }}"
    return f"Outcome::Given(Part::Pair {{ letter: {of}, left: {made(left, CODE)}, right: {made(right, CODE)} }})"

# ## Files

def function(family, says, productions, rows):
    """The function of a family."""
    arms = []
    for case, pattern, means in coded_cases({production: outcome(rows[production].means) for production in productions}):
        arms += [f"            // {line}" for line in ABOVE.get(case, [])]
        arms += arm(f"Production::{pattern}", means)
    is_asked = any(re.search(r"\bbyte\b", line) for line in arms if "//" not in line)
    return template("cpp_link/family.rt", says=says, name=snake(family), family=family,
                    byte="        let byte = symbol[place as usize];\n" if is_asked else "", arms=arms).rstrip("\n")

def files(crates):
    """What is written: each file's path in the folder of the crates, and its text."""
    _, _, rows = grammar.wide()
    for module, module_says, own in FILES:
        functions = "\n\n".join(function(family, says, families()[family], rows) for family, says in own)
        code = "\n".join(line for line in f"impl Linked {{\n{functions}".split("\n") if not line.strip().startswith("//"))
        named = ((path, [name for name in names.split() if re.search(rf"(?<![\w.:]){name}(?=\(|::|,| {{)", code)])
                 for path, names in TABLE["uses"])
        uses = [f"use {path}::" + alone_or(used, lambda several: "{" + ", ".join(several) + "}") + ";" for path, used in named if used]
        yield f"cpp_link/src/{module}.rt", template("cpp_link/families.rt", says=module_says, uses=uses, functions=functions)
