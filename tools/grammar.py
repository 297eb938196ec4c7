#!/usr/bin/env python3
"""The C++ grammar as a table, and what is written from it.

    grammar.py laws        checks the laws of the three grammars, and prints how large they are

The rules are in the tables that rules.py reads."""
from functools import lru_cache

import grammar_code
import meanings
import sorts
import words
from grammar_laws import begins_symbol, empty, klass, laws, sym_class
from rules import DECIMAL, DIGITS, K, MARKED, NAME, P, ROWS, SEQ36, build

def rows():
    """What each production does."""
    if not ROWS:
        build()
    return meanings.rows({production: ROWS[production] for production in P})

@lru_cache(maxsize=None)
def wide():
    """The wide grammar: its kinds, its productions, and what each of these does."""
    build(widened=True)
    found = dict(K), dict(P), rows()
    build()
    return found

def lawful(extended=True, widened=False):
    """Enters one of the grammars, and returns what its laws give for each kind."""
    build(extended, widened)
    bad, *found = laws()
    assert not bad, bad
    return found

def files(crates):
    """What is written: each file's path in the folder of the crates, and its text."""
    # what may follow each kind, and how many chains begin it, are those of the wide grammar; the height of its lowest tree is that of the
    # ABI's grammar, since the wide one has all of that grammar's trees
    _, _, height = lawful()
    later = grammar_code.alternatives()
    lawful(extended=False)
    yield from grammar_code.files_before(later, grammar_code.alternatives())
    after, depth, _ = lawful(widened=True)
    yield from grammar_code.wide_files(after, depth, height)
    lawful()
    yield from grammar_code.abi_files()
    skips = [production for production, (_, symbols) in P.items() if any(sym_class(symbol) == "byte" or empty(symbol)
            for symbol in symbols[:-1])]
    yield from words.files({production: symbols for production, (_, symbols) in P.items()}, rows(), skips)
    yield from meanings.files(rows())
    yield from sorts.files(*wide())

def print_laws():
    """Prints how large each of the grammars is, and its faults."""
    for extended, widened in ((False, False), (True, False), (True, True)):
        build(extended, widened)
        bad, _, depth, height = laws()
        which = f"{'with' if extended else 'without'} vector, noexcept and complex types{', wide' if widened else ''}"
        rules = sum(len(rules) for _, rules in K.values())
        print(f"{which}: {len(K)} kinds, {len(P)} productions, {rules} rules; most chains {max(depth.values())}, tallest completion "
              f"{max(height.values())}")
        for fault in bad:
            print("  BAD", fault)

if __name__ == "__main__":
    print_laws()
