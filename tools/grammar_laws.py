"""The laws of a grammar's table (rules.py). They follow from the rules: the table's faults, what may follow each kind, how
many chains begin it and how high its lowest tree is."""
from rules import DIGITS, DIG, K, MARKED, P, TOKENS

MOST_CHAINS = 3

def sym_class(symbol):
    """What a symbol is: a byte, a token or a kind."""
    return "byte" if symbol[0] == "'" else "token" if symbol in TOKENS else "kind"

def begins_symbol(symbol):
    """The bytes that may begin a symbol."""
    of = sym_class(symbol)
    return set(symbol[1]) if of == "byte" else set(TOKENS[symbol]) if of == "token" else begins(symbol)

def begins(kind):
    """The bytes that may begin a kind."""
    found = set()
    for cls, production in K[kind][1]:
        found |= set(cls) if cls is not None else begins_symbol(P[production][1][0])
    return found

def empty(symbol):
    """Whether a symbol is a kind that may be empty."""
    return sym_class(symbol) == "kind" and K[symbol][0]

def klass(cls, production):
    """The bytes at which an alternative is taken, in their order."""
    return sorted(set(cls)) if cls is not None else sorted(begins_symbol(P[production][1][0]))

def faults_of_rules():
    """What is wrong with a rule by itself, or with two of one kind."""
    for kind, (_, rules) in K.items():
        seen = {}
        for cls, production in rules:
            ate, symbols = P[production]
            assert ate == (cls is not None)
            if ate and len(symbols) > 5 or not ate and not 1 <= len(symbols) <= 3:
                yield f"{kind}/{production}: too many symbols"
            if not ate and empty(symbols[0]):
                yield f"{kind}/{production}: chain begins with a kind that may be empty"
            for symbol in symbols:
                if sym_class(symbol) == "kind" and symbol not in K:
                    yield f"{kind}/{production}: no kind {symbol}"
            for byte in klass(cls, production):
                if byte in seen:
                    yield f"{kind}: byte {byte} in {seen[byte]} and {production}"
                seen[byte] = production

def parts():
    """Each symbol of each rule: the kind, the production, the symbol, and the symbols after it."""
    return [(kind, production, symbol, P[production][1][i + 1:])
            for kind, (_, rules) in K.items() for _, production in rules for i, symbol in enumerate(P[production][1])]

def following():
    """The bytes that may come after each kind, and those after each token of a rule."""
    after, tokens, changed = {kind: set() for kind in K}, {}, True
    begun = {kind: begins(kind) for kind in K}
    while changed:
        changed = False
        for kind, production, symbol, behind in parts():
            found = set()
            for other in behind:
                found |= begun.get(other) or begins_symbol(other)
                if not empty(other):
                    break
            else:
                found |= after[kind]
            if sym_class(symbol) != "kind":
                tokens[kind, production, len(behind)] = symbol, found
            elif not found <= after[symbol]:
                after[symbol] |= found
                changed = True
    return after, tokens

def chains():
    """How many chains may follow one another at the beginning of each kind."""
    depth = {}
    def measure(kind):
        if kind not in depth:
            depth[kind] = -99
            first = [P[production][1][0] for cls, production in K[kind][1] if cls is None]
            depth[kind] = max([0, *(1 + (measure(symbol) if sym_class(symbol) == "kind" else 0) for symbol in first)])
        return depth[kind]
    for kind in K:
        measure(kind)
    return depth

def heights():
    """How high the lowest tree of each kind is."""
    height, changed = {kind: 0 for kind in K if K[kind][0]}, True
    while changed:
        changed = False
        for kind in [kind for kind in K if kind not in height]:
            parts_of = [[symbol for symbol in P[production][1] if sym_class(symbol) == "kind"] for _, production in K[kind][1]]
            found = [1 + max([height[symbol] for symbol in kinds], default=0) for kinds in parts_of
                     if all(symbol in height for symbol in kinds)]
            if found:
                height[kind], changed = min(found), True
    return height

def laws():
    """The faults of the table, and for each kind what may follow it, its chains and its height."""
    bad = list(faults_of_rules())
    after, tokens = following()
    for kind in K:
        if K[kind][0] and begins(kind) & after[kind]:
            bad.append(f"{kind}: may be empty, and {sorted(begins(kind) & after[kind])} come after it")
    bad += [f"{kind}/{production}: a digit after Digits" for (kind, production, _), (symbol, found) in tokens.items() if symbol == DIGITS
            and found & set(DIG)]
    depth, height = chains(), heights()
    bad += [f"{kind}: {depth[kind]} chains at one place" for kind in K if not 0 <= depth[kind] <= MOST_CHAINS]
    bad += [f"{kind}: no completion" for kind in K if kind not in height]
    used = {production for _, rules in K.values() for _, production in rules} | {production for _, _, production in MARKED}
    bad += [f"production {production} is unused" for production in P if production not in used]
    return bad, after, depth, height
