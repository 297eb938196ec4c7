#!/usr/bin/env python3
"""Makes symdemangle.c, the library in one file, of what to_c.py wrote and of the C files of callers/archive:

    tools/portable/join.py MODULE.c callers/archive OUT.c

The proved calls and what else ends in _of become static, so that OUT.c has no names but those of symdemangle.h, which it includes. Its
three calls for memory are malloc, realloc and free, or those that SYMDEMANGLE_MALLOC, _REALLOC and _FREE name."""

import re
import sys

MEMORY = """
/* The proved part's requests for memory. An empty list has the address 65536 and nothing to give back; without the test gcc warns of
   a way on which it would be. */
static s_64_64 answered(struct tried it) { s_64_64 t; t.f0 = it.ok; t.f1 = (u64)(uintptr_t)it.at; return t; }
static s_64_64 port_rattle_alloc(u64 size, u64 align) { return answered(rattle_alloc(size, align)); }
static s_64_64 port_rattle_realloc(u8 *at, u64 kept, u64 size, u64 align) { return answered(rattle_realloc(at, kept, size, align)); }
static void port_rattle_dealloc(u8 *at) { if ((uintptr_t)at != 65536) rattle_dealloc(at); }

#include "symdemangle.h"
"""
PROTOTYPE = re.compile(r"^\w+ (symdemangle_\w+_of)\((.*?)\);\n", re.M | re.S)
HEAP = re.compile(r"^(?=(struct tried|void) rattle_\w+\()", re.M)
OWN = re.compile(r"^(?=\w+ (symdemangle_\w+_of|port_rattle_\w+)\()", re.M)


def lending(name, parameters):
    """A macro by which the calls of the header hand their pointers to a proved call, which takes bytes."""
    names = [f"a{place}" for place in range(parameters.count(",") + 1)]
    lent = [f"(u8 *)(uintptr_t)({it})" if "*" in of else it for it, of in zip(names, parameters.split(","))]
    return f"#define {name}({', '.join(names)}) {name}({', '.join(lent)})\n"


def main(module, archive, out):
    with open(module, errors="surrogateescape") as file:
        text = file.read()
    proved = set(re.findall(r"^\w+ (symdemangle_\w+_of)\(", text, re.M))
    parts = {}
    for name in ("heap.h", "heap.c", "proved.h", "functions.c", "strings.c"):
        with open(f"{archive}/{name}") as file:
            parts[name] = re.sub(r'^#include ".*"\n', "", file.read(), flags=re.M)
    # the proved calls are declared where they are translated
    head = PROTOTYPE.sub(lambda it: lending(it[1], it[2]) if it[1] in proved else it[0], parts["proved.h"])
    strings = re.sub(r"\b(malloc|free)\(", lambda it: f"SYMDEMANGLE_{it[1].upper()}(", parts["strings.c"])
    with open(out, "w", errors="surrogateescape") as file:
        file.write(OWN.sub("static ", text) + HEAP.sub("static ", parts["heap.h"] + parts["heap.c"]) + MEMORY)
        file.write("\n".join(OWN.sub("static ", part) for part in (head, parts["functions.c"], strings)))


if len(sys.argv) != 4:
    sys.exit(__doc__)
main(*sys.argv[1:])
