"""Writes the declarations that follow from the rows of C++'s trees, nodes and productions, from cpp_trees.py and grammar.py. Each is in a
hand-written file, in a paragraph whose first line says that this script writes it."""
import re

import cpp_trees
import layouts
import node_clauses
import node_code
import payments
import production_clauses as clauses
import spellings
import step_code
import tree_clauses
import splicing
from cpp_trees import PRESSED, named
from files import read
from node_code import nodes
from notation import snake
from rules import WITH_CODE_BEFORE, families
from splicing import WRITTEN, rewritten, with_arms, with_constants, with_declarations, with_imports, with_requires

LINKED = "cpp_link/proofs/linked/Linked"

def arms_by_production():
    """Path, function, and the arms of its match that are written."""
    common, before = families()["Common"], [name for name in families()["Common"] if name in WITH_CODE_BEFORE]
    yield "cpp_link/src/finish.rt", "finish_rule", list(clauses.arms("finish_as", common))
    yield "cpp_link/src/between.rt", "before_by_step", list(clauses.arms("before_as", before))
    plain = [name for name in before if name != "Encoding"]
    yield "cpp_link/src/wide_language.rt", "between_by_step", list(clauses.arms_within("linked", "before_as", plain))
    yield "cpp_link/src/families.rt", "family_of", clauses.family_code()
    yield "cpp_tree/src/node.rt", "Node", list(node_code.variants())
    encodings = [f"            Node::{node.name} {{ .. }} => true," for node in nodes() if node.tree in cpp_trees.ENCODINGS]
    yield "cpp_tree/src/node.rt", "is_encoding", encodings
    yield "cpp_tree/src/notes.rt", "noted", node_code.noted()
    yield "cpp_tree/src/view.rt", "view_of_own", node_code.seen()
    yield from step_code.arms()
    compared = [node for node in nodes() if node.tree in cpp_trees.COMPONENTS]
    lines = [f"        Node::{node.name}{'(_)' if len(node.fields) == 1 else ' { .. }'} => true," for node in compared]
    yield "cpp_spelling/src/types.rt", "is_component", lines

def whole_files(crates):
    """The files that are written whole, by their paths in the folder of the crates, and their texts."""
    rare = {family: productions for family, productions in families().items() if family != "Common"}
    return {
        **dict([clauses.family_specs(), clauses.family_laws()]),
        **{f"{LINKED}/outcome_of_{snake(family)}/Answers.antt": clauses.family_answers(family, own) for family, own in rare.items()},
        **{path: f"-- {WRITTEN}\n{text}" for path, text in step_code.answers()},
        **{f"{LINKED}/{function}/Answers.antt": text for function, text in clauses.common_answers()},
        "cpp_tree/proofs/nodes/Nodes/noted/Answers.antt": node_code.noted_answers(crates, [node for node, _ in node_clauses.noted_nodes()]),
        "cpp_tree/proofs/view/view_of_own/Answers.antt": node_code.seen_answers(),
    }

def declarations(crates):
    """The path and the name of each declaration that is written whole, and the lines of its clauses."""
    yield from tree_clauses.declarations()
    yield from node_clauses.declarations()
    yield from clauses.declarations(crates)
    yield from payments.declarations(crates)
    yield from spellings.declarations(named(PRESSED))
    yield "cpp_link/proofs/CandidatesFlow.antt", "flows", step_code.flows()

def edits(crates):
    """What is written into hand-written files: the path of each, how its text changes, and which script changes it."""
    yield from ((path, rewritten, [name, lines]) for path, name, lines in declarations(crates))
    yield from splicing.wrapper_edits()
    yield from layouts.edits(crates)
    yield "cpp_term/proofs/MeaningNoted.antt", with_declarations, [list(clauses.read_noted())]
    yield from ((path, with_declarations, [["\n".join(lines)]]) for path, lines in spellings.lemmas(named(PRESSED)))
    yield from ((path, with_requires, [function, lines]) for path, function, lines in step_code.asked())
    yield from ((path, with_arms, [function, lines]) for path, function, lines in arms_by_production())

def files(crates):
    """The files that are written whole or in part: their paths in the folder of the crates, and their texts."""
    texts = whole_files(crates)
    for path, edit, given in edits(crates):
        texts[path] = edit(texts.get(path) or read(f"{crates}/{path}"), *given)
    constants = re.findall(r"^pub const (\w+)", texts[splicing.NUMBERS], re.M)
    texts["cpp_tree/src/view.rt"] = with_constants(texts["cpp_tree/src/view.rt"], constants)
    return [(path, with_imports(text, constants) if path.endswith(".antt") else text) for path, text in texts.items()]
