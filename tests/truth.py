#!/usr/bin/env python3
"""Compares the texts of C++ functions and variables with what their compiler says of them.

    tests/truth.py [--compiler NAME].. [--dwarfdump NAME] [--least N] [--shown N] PROGRAM [SOURCE..]

It compiles each source (those of tests/truth, if none is named) by each g++ and clang++ that is installed (`g++`, `g++-13`,
..), or by the compilers that are named, with debug information. The debug information says what each symbol means, without reading the
symbol: the namespaces, classes and functions around it, its own name, template arguments, the types of parameters, the return type, and
qualifiers. From these the whole text is spelled anew, so no other demangler is needed. PROGRAM is `symfilt` or `demangle`; the texts are
those of the wide grammar.

What debug information can't say is a gap, which matches anything: the values of classes and addresses as arguments, and
arguments that g++ has no entry for. A lambda and a local class have no name there, so their names are taken from the symbol of a member, or
of the function around them. A difference with a known reason is counted in a class; `truth/classes.py` has each class with its rule and
reason. A symbol that stays mangled is counted, too.

The script fails if any other text differs, or if fewer than N functions of a compiler (3,000, for the sources of tests/truth) were
compared. A source that a compiler can't compile isn't tested with it, and is named.
"""
import argparse
import os
import pathlib
import re
import shutil
import subprocess
import sys
import tempfile

from truth.comparing import Tally
from truth.entries import Entries
from truth.spelling import Speller, answer, names_of

HERE = pathlib.Path(__file__).resolve().parent
# A source that needs a newer standard, or that is a module's interface, begins with such a line.
STANDARDS = {"// C++23": ["-std=c++2b"], "// C++20 module": ["-std=c++20", "-fmodules-ts"]}
USUAL_STANDARD = ["-std=c++20"]
COMPILER = re.compile(r"(g|clang)\+\+(-\d+)?")
DUMPER = re.compile(r"llvm-dwarfdump(-\d+)?")
# A symbol of the wide grammar: a program that leaves it mangled needs an option to read it.
WIDE = "_Z1fB3tagv"


def installed(pattern):
    """The programs in PATH whose names match a pattern, each once, in the order of their names and numbers."""
    names = {it for folder in os.get_exec_path() if os.path.isdir(folder) for it in os.listdir(folder) if pattern.fullmatch(it)}
    by_program = {}
    for name in sorted(names, key=lambda it: (len(it), it)):
        if shutil.which(name):
            by_program.setdefault(os.path.realpath(shutil.which(name)), name)
    return list(by_program.values())


def texts_of(command, symbols):
    """The text of each symbol by the program, or the symbol itself."""
    ran = subprocess.run(command, input="".join(f"{it}\n" for it in symbols), stdout=subprocess.PIPE, text=True, errors="replace")
    lines = ran.stdout.split("\n")[:-1]
    if ran.returncode or len(lines) != len(symbols):
        sys.exit(f"truth.py: {command[0]} failed, or didn't answer each line")
    return dict(zip(symbols, lines))


def command_of(program):
    """The program's command, with the option for the wide grammar if the program needs it."""
    command = [program] if os.path.sep in program else [shutil.which(program) or program]
    return command if texts_of(command, [WIDE])[WIDE] != WIDE else [*command, "--wide"]


def entries_of(compiler, source, dwarfdump):
    """The entries of a source's debug information, or None where the compiler refuses the source."""
    with tempfile.TemporaryDirectory() as folder, source.open() as lines:
        first = next(lines, "")
        standard = next((it for begin, it in STANDARDS.items() if first.startswith(begin)), USUAL_STANDARD)
        whole = ["-fstandalone-debug"] if "clang" in os.path.basename(compiler) else []
        if "-fmodules-ts" in standard and whole:
            standard = ["-std=c++20", "-x", "c++-module"]
        made = f"{folder}/made.o"
        command = [compiler, *standard, "-g", "-O0", "-w", "-fPIC", *whole, "-c", str(source.resolve()), "-o", made]
        # g++ writes a module's interface into the folder that it runs in.
        ran = subprocess.run(command, cwd=folder, stderr=subprocess.PIPE, text=True, errors="replace")
        if ran.returncode:
            error = next((it for it in ran.stderr.splitlines() if "error" in it), ran.stderr.strip() or "it fails")
            print(f"{compiler}: {source.name} isn't tested: {error}")
            return None
        with subprocess.Popen([dwarfdump, "--debug-info", made], stdout=subprocess.PIPE, text=True, errors="replace") as dumped:
            return Entries(dumped.stdout)


def add_source(entries, command, tally):
    """Compares the texts of a source's symbols."""
    declared = {}
    for entry in entries:
        symbol = entry.text("DW_AT_linkage_name")
        if symbol and symbol.startswith("_Z"):
            declared.setdefault(symbol, entry)
    texts = texts_of(command, list(declared))
    speller = Speller(entries, {symbol: text for symbol, text in texts.items() if text != symbol})
    for symbol, entry in declared.items():
        whole = entries.declared(entry)
        if tally.is_new(symbol, texts[symbol]):
            if whole.tag == "DW_TAG_subprogram":
                tally.add_function(symbol, texts[symbol], answer(speller.function(whole)))
            else:
                tally.add_variable(symbol, texts[symbol], answer(speller.variable(whole, entry)))


def try_compiler(compiler, asked, command, sources):
    """The results for the sources by a compiler."""
    tally = Tally()
    for source in sources:
        entries = entries_of(compiler, source, asked.dwarfdump)
        if entries is not None:
            tally.producer, tally.names = entries.producer(), names_of(entries)
            add_source(entries, command, tally)
    tally.tell(compiler, asked.shown)
    return tally


def main():
    parser = argparse.ArgumentParser(description=__doc__.splitlines()[0])
    parser.add_argument("--compiler", action="append")
    parser.add_argument("--dwarfdump", default=(installed(DUMPER) or ["llvm-dwarfdump"])[0])
    parser.add_argument("--least", type=int)
    parser.add_argument("--shown", type=int, default=20)
    parser.add_argument("program")
    parser.add_argument("sources", nargs="*", type=pathlib.Path)
    asked = parser.parse_args()
    sources = asked.sources or sorted((HERE / "truth").glob("*.cpp"))
    least = asked.least if asked.least is not None else 1 if asked.sources else 3000
    command = command_of(asked.program)
    tallies = [try_compiler(it, asked, command, sources) for it in asked.compiler or installed(COMPILER)]
    if not tallies or any(it.wrong or it.counts["functions"] < least for it in tallies):
        sys.exit(1)


if __name__ == "__main__":
    main()
