"""Writes what follows from the parts of each of Rust's productions, and from each sort of part: whole files, and declarations in
hand-written files, each below a line that says so. The texts come from rust_parts.py, rust_spelled.py, rust_trees.py and
rust_nodes.py."""
import rust_grammar
from files import read, template
from rust_parts import NODES, PARTS, WRITTEN, agrees, made_gives, made_in_code, made_in_specs, read_in_code, read_in_specs
from rust_nodes import (
    LISTS, UNTYPED, by_node, in_lists, list_answers, list_filled, need_grown, node_need, node_parts, node_seen, node_tree, node_view,
    of_subtrees, parts_grown, tree_grown, view_answers,
)
from rust_spelled import BINDERS, Kept, good_then, kept_clause, made_good, made_of_slots, means, slot_then, sorts
from rust_trees import MUTUAL, equal, itself, same, size, summed, weight
from splicing import with_runs

# ## The files

def whole_files():
    """The files that are written whole."""
    yield "rust_v0/src/operands.rt", template("rust_v0/operands.rt", operands="\n\n".join(map(read_in_code, PARTS.values())))
    yield "rust_v0/specs/CodeOperands.antt", template("rust_v0/CodeOperands.antt", operands="\n\n".join(map(read_in_specs, PARTS.values())))
    yield "rust_v0/proofs/OperandLemmas.antt", template("rust_v0/OperandLemmas.antt", lemmas="\n\n".join(map(agrees, PARTS.values())))
    yield from ((f"rust_tree/proofs/view/view_of_{of}/Answers.antt", view_answers(of)) for of in MUTUAL)
    yield from list_answers()

def declarations():
    """The hand-written files with runs of declarations that are written here: a path, and the declarations of each run."""
    yield "rust_grammar/specs/Productions.antt", [["\n".join([f"-- {WRITTEN}", "abbrev pub number_of : Production → ℕ",
            *[f"number_of {production} = {k}" for k, production in enumerate(rust_grammar.PRODUCTIONS)]])]]
    yield "rust_v0/src/semantics.rt", [[made_in_code(made) for made in NODES]]
    yield "rust_v0/specs/CodeSemantics.antt", [[made_in_specs(made) for made in NODES]]
    yield "rust_v0/proofs/SemanticsLemmas.antt", [[made_gives(made) for made in NODES]]
    yield "rust_v0/proofs/Meanings.antt", [[f"-- {WRITTEN}\n" + "\n".join(
            f"made_gives table at rules.{made.production} ps vs other within fits lists are = {made.function}_gives at.symbol table at ps "
            "vs lists are" for made in NODES)]]
    yield "rust_v0/proofs/Sorts.antt", sorts()
    yield "rust_v0/proofs/SortedParts.antt", [[slot_then(part) for part in PARTS.values()],
            [f"-- {WRITTEN}\n" + "\n".join(made_of_slots(made) for made in NODES)]]
    yield "rust_press/proofs/PressRead.antt", [[good_then(part) for part in PARTS.values() if part.good],
        [f"-- {WRITTEN}\n" + "\n".join(made_good(made) for made in NODES if made.production not in BINDERS)]]
    yield "rust_press/specs/Same.antt", [same(["constant"], ""), same(MUTUAL, "  ")]
    yield "rust_press/proofs/Sameness.antt", [equal(["constant"], "") + itself(["constant"], ""), equal(MUTUAL, "  "), itself(MUTUAL, "  ")]
    yield "rust_press/specs/Tasks.antt", [summed("weight", "pub ", weight)]
    yield "rust_press/proofs/PressApart.antt", [summed("size", "", size)]
    yield "rust_tree/src/symbol.rt", [[list_filled("found_list.rt", of) for of in LISTS]]
    yield "rust_tree/src/lists.rt", [in_lists()]
    yield "rust_tree/proofs/Showing.antt", [[list_filled("list_lemmas.antt", of) for of in LISTS]]
    yield "rust_tree/specs/Nodes.antt", [*by_node(node_tree), *by_node(node_parts)]
    yield "rust_tree/specs/Needs.antt", list(by_node(node_need, without=BINDERS))
    yield "rust_tree/proofs/Trees.antt", [of_subtrees("node_grown"), of_subtrees("node_same"), *by_node(tree_grown, "  "),
                                          *by_node(parts_grown, "  "),
        of_subtrees("node_needs", UNTYPED[:-1]), *by_node(need_grown, "  ")]
    yield "rust_tree/proofs/Viewing.antt", [of_subtrees("node_part"), *by_node(node_view, without=("Function",)),
                                            *by_node(node_seen, "  ", ("Function",))]
    kept = [Kept(made) for made in NODES if made.of != "constant"]
    def clauses(of):
        return [f"  -- {WRITTEN}\n" + "\n".join(kept_clause(one) for one in kept if one.made.of == of
                and one.made.production not in BINDERS)]
    yield "rust_press/proofs/PressKept.antt", [[means(one) for one in kept], *[clauses(of) for of in MUTUAL]]

def files(crates):
    """The files that are written whole or in part: their paths in the folder of the crates, and their texts."""
    yield from whole_files()
    yield from ((path, with_runs(read(f"{crates}/{path}"), runs, WRITTEN)) for path, runs in declarations())
