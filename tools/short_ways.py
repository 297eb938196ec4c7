"""Writes docs/SHORT_WAYS.md, the forms of symbols that the short ways leave to the general one, from the rows `way` of check_rows.

A row says by which way a symbol's text is written, and names the form; `check_rows` asks the code. The page has a line for each
form, in the order of the rows: symbols that are left, and symbols of nearly the form that aren't."""
import sys

from files import read, template

ROWS = "check_rows/stdin"
TITLES = {"abi": "C++", "wide": "C++ by the wide grammar", "rust": "Rust"}

def forms(crates):
    """For each grammar, its forms in order, each with its symbols by their way."""
    found = {grammar: {} for grammar in TITLES}
    for what, *fields in (line.split("\t") for line in read(f"{crates}/{ROWS}").splitlines()):
        if what == "way":
            grammar, detail, symbol, way, form = fields
            shown = f"`{symbol}`" if detail == "full" else f"`{symbol}` with `--{detail}`"
            found[grammar].setdefault(form, {"general": [], "short": []})[way].append(shown)
    return found

def files(crates):
    """The page, by its path from the crates."""
    tables = []
    for grammar, rows in forms(crates).items():
        faults = [form for form, symbols in rows.items() if not symbols["general"]]
        if faults or not rows:
            sys.exit(f"{ROWS}: no row `way` of {grammar} shows that this is left: {faults}")
        lines = [f"| {form} | {', '.join(symbols['general'])} | {', '.join(symbols['short'])} |" for form, symbols in rows.items()]
        tables.append("\n".join([f"## {TITLES[grammar]}", "", "| Left to the general way | as in | but not |", "|---|---|---|", *lines]))
    yield "../docs/SHORT_WAYS.md", template("pages/SHORT_WAYS.md") + "\n" + "\n\n".join(tables) + "\n"
