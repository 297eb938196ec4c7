"""Writes cpp_spelled's table of the sort of each production's row, by the clauses of `sort_of` in the definitions."""
import re

from files import read, whole
from rules import P, build

def files(crates):
    """What is written: each file's path in the folder of the crates, and its text."""
    build()
    sorts = dict(re.findall(r"^sort_of Production\.(\w+) = sort\.(\w+)$", read(f"{crates}/cpp_spelled/specs/Sorts.antt"), re.MULTILINE))
    assert not set(sorts) - set(P), f"no productions: {set(sorts) - set(P)}"
    yield whole("cpp_spelled/src/sorts.rt", count=len(P), sorts={production: sorts.get(production, "Closed") for production in P})
