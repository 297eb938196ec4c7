"""Writes the functions of cpp_layout that add texts and parts in a row, and the answers that these are the parts of the tree: from the
table cpp_shown.txt."""
import os
import re

from files import columns, read, sections, template, whole
from notation import answer, is_used

(_, NAMED), (_, OF_SORTS), (_, ADDS), *SHOWN = sections("cpp_shown.txt")
# the names that rows and contracts may use, by module, and the short names of modules
NAMES = {module: names for module, names in (line.split(" ", 1) for line, _ in NAMED) if not names.startswith("as ")}
MODULES = {line.split(" as ")[1]: line.split(" as ")[0] for line, _ in NAMED if " as " in line}
# for each sort of argument, the type, what is required, and what it denotes
SORTS = {sort: [*given, ""] for sort, *given in (columns(line) for line, _ in OF_SORTS)}
CALLS = {word: (call, given) for word, call, *given in (line.split() for line, _ in ADDS)}
FORMS = ("left", "right", "base", "piece", "full", "bare")
REQUIRED = {"its own": "own { is_again (entry_at self.now.table.nodes node).node ≡ false }",
            "a table": "table { IsTable (table_of self.now) }"}

class Row:
    """A function of cpp_shown.txt: its name, its purpose, its line of the grammar, what it belongs to, what it shows, why; its arguments."""
    def __init__(self, head, lines):
        self.name, self.says = head.split(": ", 1)
        said = dict(line.split(" ", 1) for line, _ in lines)
        self.source, self.of, self.shows, self.adds, self.why = (said.get(word) for word in ("source", "of", "shows", "adds", "since"))
        self.is_encoding = self.of == "an encoding"
        self.takes = [(name, "whole" if self.is_encoding and sort == "tree" else sort)
                      for name, sort in (argument.split(":") for argument in said["takes"].split())]
        self.detail = "detail" if self.is_encoding else "ctx.detail"
        # the node that is tested for being a function
        asked = re.search(r"is_function (\w+)", self.adds)
        self.asked = asked and asked[1]

    def meant(self):
        """What the arguments denote."""
        said = {name: SORTS[sort][2].format(name) for name, sort in self.takes if SORTS.get(sort, [""] * 3)[2]}
        return {**said, "c": "(context_of ctx)", "d": self.detail}

    def steps(self):
        """What is added from first to last: for each addition the function, its arguments, and whether what it adds is a text
        that may be empty."""
        sorts = dict(self.takes)
        def text(word):
            return word if sorts.get(word) == "text" else f"texts::{word}"
        for step in self.adds.split(", "):
            what, _, test = step.removeprefix("part ").partition(" if ")
            (head, *rest), test = what.split(" "), test.replace(f"is_function {self.asked}", "is_function")
            if test:
                call, given = ("push_either", [test, text(head), text(rest[1])]) if rest else ("push_text_if", [test, text(head)])
            elif head in FORMS and sorts[rest[0]] == "whole":
                call, given = "push_closed", [*rest, f"form::{head.upper()}", self.detail]
            elif head in FORMS:
                call, given = "push_item", [*rest, f"form::{head.upper()}", "0", "ctx"]
            else:
                call, others = CALLS.get(head, ("push_text", []))
                given = [*rest, *others] if head in CALLS else [text(head)]
            yield call, given, step.startswith("part ")

    def function(self):
        """The function."""
        given = ["&self", "parts: &mut S", *[f"{argument}: {SORTS.get(sort, [sort])[0]}" for argument, sort in self.takes],
                 "detail: Detail" if self.is_encoding else "ctx: Context"]
        head = f"    pub(crate) fn {self.name}<S: PartList<Context>>("
        required = ["" if self.is_encoding else "context { IsAliasBelow (length self.now.table.nodes) ctx.argument }",
                    REQUIRED.get(self.of, ""), *[SORTS[sort][1].format(argument) for argument, sort in self.takes if sort in SORTS]]
        whole = f"{head}{', '.join(given)})"
        lines = [f"    // {self.source}"] if self.source else []
        lines += [whole] if len(whole) <= 100 else [head, *[f"        {argument}," for argument in given], "    )"]
        calls = [f"        let is_function = self.is_function({self.asked}, ctx);"] if self.asked else []
        calls += ["        let operation = operation_of(first, second);"] if "operation." in self.adds else []
        calls += [f"        self.{call}({', '.join(['parts', *what])});" for call, what, _ in reversed(list(self.steps()))]
        return template("cpp_layout/shown.rt", says=self.says, head=[*lines,
                *[f"        requires {clause}" for clause in required if clause]],
                        detail=self.detail, shows=self.shows.format(**self.meant()), calls=calls)

    def answer(self, known):
        """The answer of the function, by the modules of lemmas."""
        names = "|".join([*(name for name, _ in self.takes), "self", "ctx", "detail"])
        def argued(text):
            return re.sub(rf"(?<![\w.-])({names})(?![\w-])", r"c.args.\1", text)
        detail, seen = argued(self.detail), []
        chain = f"(starts c.args.self.now {detail} _)"
        for call, given, is_part in reversed(list(self.steps())):
            seen.append(call)
            step = call if seen.count(call) == 1 else f"{call}-{seen.count(call)}"
            # functions that add parts in only one detail take no detail
            told = "_ _" if given[-1] in ("ctx", self.detail) else "_ _ _"
            chain = f"(c.{step}.ensures.shows {told} {chain})"
            chain = f"(part-text c.args.self.now {detail} _ _ _ {chain})" if is_part else chain
        why = argued((self.why or "refl").format(**self.meant()))
        shown = f"fills c.args.self.now {detail} _ _ _ {chain} {why if why == 'refl' else f'({why})'}"
        by_module = {"Rattle.std.proofs.Common": "refl ap sym ◌∙◌ append-nil ◌∷◌ ◌++◌ []",
                     **{module: names for module, names in NAMES.items() if "Prelude" not in module}, **known}
        return template("cpp_layout/answers.antt", script="tools/printing.py", uses=imports(by_module, shown, "use"), function=self.name,
                        answers=answer("returns-clause-shows", f" {shown}", given="g c"))

def imports(names, text, use):
    """The imports of what a text names."""
    for module, known in names.items():
        found = [name for name in known.split() if is_used(name, text)]
        if found:
            yield f"{use} {module}.{{{', '.join(found)}}}"
    for short, module in MODULES.items():
        if re.search(rf"(?<![\w.]){short}\.", text):
            yield f"{use} {module} as {short}"

def lemmas(crates):
    """The lemmas of each module."""
    folder, found = f"{crates}/cpp_layout/proofs", {}
    for name in sorted(os.listdir(folder)):
        if name.endswith(".antt") and name != "Lib.antt":
            found[f"Rattle.cpp_layout.proofs.{name[:-5]}"] = " ".join(re.findall(r"^ *pub (\S+) : ", read(f"{folder}/{name}"), re.M))
    return found

def files(crates):
    """What is written: each file's path in the folder of the crates, and its text."""
    rows, known = [Row(*section) for section in SHOWN], lemmas(crates)
    functions = "\n".join(row.function() for row in rows).rstrip("\n")
    ghosts = "\n".join(f"{line};" for line in imports(NAMES, functions, "ghost use"))
    yield whole("cpp_layout/src/printed.rt", ghosts=ghosts, functions=functions)
    yield from ((f"cpp_layout/proofs/symbol/Symbol/{row.name}/Answers.antt", row.answer(known)) for row in rows)
