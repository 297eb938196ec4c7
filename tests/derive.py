#!/usr/bin/env python3
"""Makes C++ symbols by random derivations of the grammar's table in tools/grammar.py.

    tests/derive.py [--wide] [--seed N] [--count N] [--size BYTES]              prints symbols, one a line
    tests/derive.py [--wide] .. --rules [PROGRAM]                               prints how many symbols have each rule

With --wide the table is that of the wide grammar, and its own rules are taken more often. Each symbol is steered towards some rules,
which are picked at random, so that a rule which is added to the table occurs as often as the others. A reference has the number of a
candidate or an argument that exists; now and then it has another number. In some symbols a kind is nested many times within itself, as in a
chain of tags. Some symbols have lists in which each type has the type before it twice. Some have an encoding in a name's arguments, with
types whose parameters denote other arguments outside that encoding. A symbol has at most BYTES bytes (200). PROGRAM has symfilt's command
line; with it the second column says how many of the symbols PROGRAM answers with a text.
"""

import argparse
import collections
import os
import random
import re
import subprocess
import sys

HERE = os.path.dirname(os.path.abspath(__file__))
sys.path.insert(0, os.path.join(HERE, "..", "tools"))
import grammar
from compare import command_of

DIGITS = b"0123456789ABCDEFGHIJKLMNOPQRSTUVWXYZ"
NAMES = (b"a", b"b", b"B", b"C1", b"foo", b"_M_x", b"a.b$", b"operator", b"_GLOBAL__N_1", b"\xc3\xa9", b"_ZN1aE", b"S_", b"longer_name")
NUMBERS = (0, 0, 0, 1, 2, 7, 9, 10, 16, 32, 64, 1000)
EDGES = (2**31, 2**32 - 1, 2**64 - 3, 2**64 - 2, 2**64 - 1, 2**64, 10**40)
# references, and the rules on the way from a type to them
PARAMETERS = {"Parameter", "NestParameter", "ParameterArgument", "ParameterExpression"}
REFERENCES = {"Substitution", *PARAMETERS}
REFERRING = {"PlainType", "QualifiedPlain", "TypeWithS", "AbbreviatedType", *REFERENCES}
NAMING = {"Anonymous", "Operator", "ConstructorDigit", "ComponentAfterD"}
TYPES = {"Type", "Plain", "Item", "ItemButRef", "Argument"}
# the productions of names that are never candidates, and those whose first part is a type that becomes a candidate before the other parts
NAMES_ALONE = {"SimpleId", "OperatorReference"}
TYPED = {"IntegerLiteral", "UnresolvedInType"}
# by production, the number of the part that is the argument itself: the argument's declarations come before it
DECLARED = {"AnyArgument": 0, "AnyElement": 0, "ArgumentWithT": 0, "DeclaredArgument": 1}
# by the class of a token, how the token is matched in a word that `read` reads; a name is matched by its length, which has one digit in
# such words
TOKENS = {grammar.NAME: re.compile(rb"[0-9]"), grammar.SEQ36: re.compile(rb"[0-9A-Z]*_"), grammar.DECIMAL: re.compile(rb"[0-9]*_"), grammar.DIGITS: re.compile(rb"[0-9]+")}
# Encodings whose arguments name another encoding, which has types with parameters. A substitution may name such a type again where its
# parameters denote the outer encoding's arguments. Each reference gets a new number.
NAMED_AGAIN = (
    b"_Z1oIicXadL_Z1iIicEv1PIT_T0_EEEEvS_S_",
    b"_Z1oIicZ1iIiJcsEEv1PIT_JDpT0_EERS_E1xEvPS_KS_1QIS_S_E",
    b"_Z1oIJicEZ1iIJicEEv1PIJDpT_EES_E1xEv1QIS_S_ES_DpS_",
    b"_Z1oIicsL_Z1iIicsEvM1PIT_T0_ERKT1_FT_T0_T1_EEEvS_S_S_S_",
    b"_ZN1n1oIicXadL_ZNS_1iIicEEvSt1PIPT_OT0_ERS_EEEEvS_RS_OS_",
    b"_Z1oIicUlT_T0_1PIS_S_EE_EvS_S_PS_",
    b"_Z1oIRiOcZ1iIicEv1PIRT_OT0_EPFS_S_EE1xEvS_S_RS_",
)
BATCH = 200
FAR = 10**6

# a production that a kind takes at a byte, with its parts: each is a node, bytes, a token, or None for a kind that is empty
Node = collections.namedtuple("Node", "kind cls production byte parts")
# a token of a class (a number or a name), in a production
Token = collections.namedtuple("Token", "cls production")
# what is known of a tree that a substitution may name: its free parameters, whether it has packs, the encoding in which it was made, and
# whether it was made in the signature of a lambda
Candidate = collections.namedtuple("Candidate", "parameters is_packed encoding in_lambda")
# what is around a part: its encoding; for each argument that parameters name, whether it is a pack, or None without arguments; whether the
# part is in a lambda's signature, and whether it is in an expansion
Around = collections.namedtuple("Around", "encoding scope in_lambda in_expansion")


class Table:
    """The rules of each kind, by one of the grammars."""

    def __init__(self, wide):
        grammar.build(True, widened=wide)
        faults, _, _, self.heights = grammar.laws()
        assert not faults, faults
        self.rules = {kind: [(cls, production, "".join(grammar.klass(cls, production))) for cls, production in rules] for kind, (_, rules) in grammar.K.items()}
        self.parts = {production: symbols for production, (_, symbols) in grammar.P.items()}
        self.may_be_empty = {kind for kind, (empty, _) in grammar.K.items() if empty}
        self.own = set(grammar.MARKED) if wide else set()
        self.argument_lists = {kind for kind, rules in self.rules.items() if any(production == "AnyArgument" for _, production, _ in rules)}
        self.kept_distances = {}
        self.targets = [(kind, production) for kind, rules in self.rules.items() for _, production, _ in rules if "Symbol" in self.distances(kind)]

    def height(self, production):
        """The height of the lowest tree of a production."""
        return 1 + max((self.heights[part] for part in self.parts[production] if part in self.rules), default=0)

    def distances(self, target):
        """The least number of rules from a kind to the target, for each kind that leads to the target."""
        if target not in self.kept_distances:
            reached = {target: 0}
            grown = True
            while grown:
                grown = False
                for kind, rules in self.rules.items():
                    near = [reached[part] + 1 for _, production, _ in rules for part in self.parts[production] if part in reached]
                    if near and min(near) < reached.get(kind, min(near) + 1):
                        reached[kind] = min(near)
                        grown = True
            self.kept_distances[target] = reached
        return self.kept_distances[target]

    def is_own(self, node):
        return (node.kind, node.cls, node.production) in self.own

    def rule_name(self, node):
        """The name of a production; where only the wide grammar has the production at this kind and these bytes, also the kind and the bytes."""
        return f"{node.production}, of {node.kind} {node.cls or ''} (wide)" if self.is_own(node) else node.production


class Derivation:
    """A random tree of the start kind, without the numbers of its references. It is steered towards some rules, which are picked at random."""

    def __init__(self, table, rng):
        self.table, self.rng = table, rng
        self.depth = rng.choice((3, 5, 5, 8, 12))
        self.empty = rng.choice((0.1, 0.3, 0.5, 0.8))
        self.own_weight = rng.choice((1, 4, 12))
        self.refers = rng.choice((1, 3, 10))
        self.left = 0

    def tree(self, size):
        self.left = size
        own = [(kind, production) for kind, _, production in sorted(self.table.own, key=str)]
        targets = [self.rng.choice(own if own and self.rng.random() < 0.3 else self.table.targets) for _ in range(self.rng.choice((1, 2, 3)))]
        return self.derived("Symbol", 0, targets)

    def types_of_types(self, size):
        """An encoding with a type that has two other types. A list in which each type has the type before it twice is made from this
        encoding."""
        self.left = size
        rule = self.rng.choice((("ArgumentList", "AnyArgument"), ("FunctionRest", "RestItem")))
        return self.derived("Symbol", 0, [("Encoding", "Encoding"), ("Items", "Items"), rule, rule])

    def varied(self, word):
        """The tree of a word, in which some types are replaced by others."""
        tree = read(self.table, word)
        types = [(way, node) for way, kind, node in parts_within(self.table, tree) if node is not None and kind in TYPES]
        for way, node in sorted(types, key=lambda found: len(found[0]), reverse=True):
            if self.rng.random() < 0.15:
                self.left = 3
                tree = replaced(tree, way, self.derived(node.kind, self.depth))
        return tree

    def weight(self, kind, cls, production):
        own = self.own_weight if (kind, cls, production) in self.table.own else 1
        return own * (self.refers if production in REFERRING else 1)

    def distance(self, production, target):
        """The least distance from a part of a production to the target, and the number of that part."""
        if production == target[1]:
            return 0, None
        if production == "Encoding" and target[1] in REFERENCES:
            return 0, 1
        distances = self.table.distances(target[0])
        return min(((distances[part], number) for number, part in enumerate(self.table.parts[production]) if part in distances), default=(FAR, None))

    def rule(self, kind, depth, targets, without):
        rules = [rule for rule in self.table.rules[kind] if rule[1] not in without] or self.table.rules[kind]
        if targets and kind == targets[0][0]:
            rules = [rule for rule in rules if rule[1] == targets[0][1]] or rules
        elif targets and self.rng.random() < 0.7:
            near = min(self.distance(production, targets[0])[0] for _, production, _ in rules)
            rules = [rule for rule in rules if self.distance(rule[1], targets[0])[0] <= near]
        elif depth > self.depth or self.left < 0:
            lowest = min(self.table.height(production) for _, production, _ in rules)
            rules = [rule for rule in rules if self.table.height(rule[1]) == lowest]
        return self.rng.choices(rules, [self.weight(kind, cls, production) for cls, production, _ in rules])[0]

    def derived(self, kind, depth, targets=(), without=()):
        leads = targets and kind in self.table.distances(targets[0][0])
        may_end = depth > self.depth or self.left < 0 or self.rng.random() < self.empty
        if not self.table.rules[kind] or kind in self.table.may_be_empty and may_end and not leads:
            return None
        cls, production, chosen_at = self.rule(kind, depth, targets if leads else (), without)
        self.left -= 1
        byte = self.rng.choice(chosen_at).encode() if cls is not None else b""
        return Node(kind, cls, production, byte, self.parts(kind, production, depth, targets))

    def parts(self, kind, production, depth, targets):
        if targets and (kind, production) == targets[0]:
            targets = targets[1:]
        way = self.distance(production, targets[0])[1] if targets else None
        parts = []
        for number, part in enumerate(self.table.parts[production]):
            if part[0] == "'":
                parts.append(part[1].encode())
            elif part not in self.table.rules:
                self.left -= 2
                parts.append(Token(part, production))
            elif production == "Encoding" and number == 0 and way != 0 and (targets or self.rng.random() < 0.6):
                # parameters are named only where the name ends in arguments
                parts.append(self.derived(part, depth + 1, [("MaybeArguments", "Arguments"), ("ArgumentList", "AnyArgument")]))
            else:
                # the rest of a list is as deep as the list
                parts.append(self.derived(part, depth if part == kind else depth + 1, targets if number == way else ()))
        return tuple(parts)


def parts_within(table, node):
    """The ways to a node and to the parts within it, each with the part's kind and the part."""
    ways = [((), node.kind, node)]
    while ways:
        way, kind, part = ways.pop()
        yield way, kind, part
        if part is not None:
            ways += [((*way, number), table.parts[part.production][number], inner) for number, inner in enumerate(part.parts) if inner is None or isinstance(inner, Node)]


def replaced(node, way, new):
    """The node, in which another node replaces the part at the end of a way."""
    if not way:
        return new
    parts = list(node.parts)
    parts[way[0]] = replaced(parts[way[0]], way[1:], new)
    return node._replace(parts=tuple(parts))


def read(table, word):
    """The tree of a word, which has to be a symbol. Each of its tokens represents any token of its class."""

    def tree(kind, at):
        byte = word[at : at + 1].decode()
        for cls, production, chosen_at in table.rules[kind]:
            if byte and byte in chosen_at:
                parts, at = forest(production, at + (cls is not None))
                return Node(kind, cls, production, byte.encode() if cls is not None else b"", parts), at
        assert kind in table.may_be_empty, (word, at, kind)
        return None, at

    def forest(production, at):
        parts = []
        for part in table.parts[production]:
            if part in table.rules:
                found, at = tree(part, at)
            elif part[0] == "'":
                found, at = part[1].encode(), at + 1
            else:
                found, at = Token(part, production), TOKENS[part].match(word, at).end()
                at += int(word[at - 1 : at]) if part == grammar.NAME else 0
            parts.append(found)
        return tuple(parts), at

    return tree("Symbol", 0)[0]


def repeated(rng, table, tree, times, kind=None):
    """The tree, in which a node of the given kind, or of any kind, is nested `times` more times within itself. More often than not each
    turn has a rule that only the wide grammar has."""
    nodes = [(way, part) for way, _, part in parts_within(table, tree) if part is not None]
    own = [way for way, node in nodes if table.is_own(node)]
    kept = rng.choice(own) if own and kind is None and rng.random() < 0.6 else None
    rng.shuffle(nodes)
    for way, node in nodes:
        if kind not in (None, node.kind) or kept is not None and kept[: len(way)] != way:
            continue
        within = [inner for inner, found, _ in parts_within(table, node) if inner and len(inner) < 12 and found == node.kind]
        within = [inner for inner in within if kept is None or kept[: len(way + inner)] != way + inner]
        if within:
            inner, deep = rng.choice(within), node
            for _ in range(times):
                deep = replaced(node, inner, deep)
            return replaced(tree, way, deep)
    return tree


class Spelling:
    """The bytes of a tree. Each reference gets its number when it is written; a reference that has nothing to name is derived anew."""

    def __init__(self, derivation, again, newest, anywhere):
        self.derivation, self.table, self.rng = derivation, derivation.table, derivation.rng
        self.wild = 0.01
        self.edges = self.rng.choice((0, 0, 0, 0.05))
        # how often a type within another one is a substitution, how often such a substitution names the newest candidate, and whether a
        # type anywhere may be a substitution
        self.again, self.newest, self.anywhere = again, newest, anywhere
        self.out = bytearray()
        self.nodes = collections.Counter()
        self.candidates = []
        self.encodings = 0
        # after a name that ended in a list of arguments, whether each argument is a pack; otherwise None. Then whether the name so far
        # needn't become a candidate, since it is one already or never is one
        self.arguments, self.listed = None, True
        self.types_around = 0
        # how many of the first candidates all compilers count alike; None as long as they count all candidates alike
        self.counted_alike = None
        # the parameters that were named so far, and how many of them name packs
        self.named, self.packed = [], 0

    def word(self, tree):
        self.spell(tree, Around(0, None, False, False))
        return bytes(self.out)

    def append(self, around, since=(0, 0)):
        self.candidates.append(Candidate(frozenset(self.named[since[0] :]), self.packed > since[1], around.encoding, around.in_lambda))

    # ## References

    def substitutions(self, around):
        """The numbers of the candidates that can be named here."""
        alike = self.candidates if self.counted_alike is None else self.candidates[: self.counted_alike]
        return [number for number, named in enumerate(alike) if self.can_be_named(named, around)]

    def append_apart(self, around):
        """Appends a candidate that only some compilers count. From then on neither this candidate nor the one before it can be named."""
        if self.counted_alike is None:
            self.counted_alike = max(0, len(self.candidates) - 1)
        self.append(around)

    def can_be_named(self, named, around):
        """Whether a candidate can be named. By the wide grammar, a candidate with free parameters can also be named where it wasn't made:
        in the signature of a lambda, or where its parameters have arguments. A candidate with several parameters needs arguments that are
        no packs."""
        if not named.parameters:
            return around.in_expansion or not named.is_packed
        if named.encoding == around.encoding and not around.in_lambda and not named.in_lambda:
            return bool(around.scope) and (around.in_expansion or not named.is_packed)
        if not self.table.own or around.in_lambda:
            return bool(self.table.own)
        scope = around.scope or ()
        if max(named.parameters) >= len(scope):
            return False
        if len(named.parameters) == 1:
            return around.in_expansion or not scope[max(named.parameters)]
        return self.rng.random() < self.wild or not any(scope)

    def parameters(self, around):
        """The numbers of the parameters that can be named here."""
        return [number for number, is_pack in enumerate(around.scope or ()) if around.in_expansion or not is_pack]

    def one_of(self, numbers):
        if not numbers or self.rng.random() < self.wild:
            return self.rng.randrange(len(self.candidates) + 2)
        return numbers[-1] if self.rng.random() < self.newest else self.rng.choice(numbers)

    def substitution(self, around):
        number = self.one_of(self.substitutions(around))
        if number < len(self.candidates):
            self.named += self.candidates[number].parameters
            self.packed += self.candidates[number].is_packed
        return number

    def parameter(self, around, is_candidate):
        number = self.one_of(self.parameters(around))
        self.named.append(number)
        self.packed += number < len(around.scope or ()) and around.scope[number]
        if is_candidate:
            self.append(around)
            self.listed = True
        return number

    def possible(self, node, around):
        """The node, or another one of its kind where the node would refer to what doesn't exist."""
        if self.rng.random() < self.wild:
            return node
        is_within = self.types_around or self.anywhere
        if node.kind in TYPES and is_within and self.rng.random() < self.again and self.substitutions(around):
            return self.derivation.derived(node.kind, self.derivation.depth + 1, [("Abbreviation", "Substitution")])
        if node.production == "Substitution" and not self.substitutions(around):
            return self.derivation.derived(node.kind, self.derivation.depth + 1, without={"Substitution"})
        if node.production in PARAMETERS and not self.parameters(around):
            return self.derivation.derived(node.kind, self.derivation.depth + 1, without={*PARAMETERS, "TypeWithS"})
        return node

    # ## Tokens

    def token(self, token, around):
        if token.cls == grammar.NAME:
            self.arguments, self.listed = None, False
            name = self.rng.choice(NAMES)
            self.out += str(len(name)).encode() + name
        elif token.cls == grammar.SEQ36:
            self.out += counted(self.substitution(around), 36)
        elif token.production in PARAMETERS:
            self.out += counted(self.parameter(around, token.production != "ParameterExpression"), 10)
        elif token.cls == grammar.DECIMAL:
            self.out += counted(self.number(), 10)
        else:
            self.out += b"0" * (self.rng.random() < 0.1) + str(self.number()).encode()

    def number(self):
        return self.rng.choice(EDGES if self.rng.random() < self.edges else NUMBERS)

    # ## Nodes

    def spell(self, part, around):
        """Writes a part. For a list of arguments, answers which of them are packs."""
        if part is None:
            return ()
        if isinstance(part, bytes):
            self.out += part
            return ()
        if isinstance(part, Token):
            return self.token(part, around)
        node = self.possible(part, around)
        self.nodes[node._replace(byte=b"", parts=())] += 1
        self.out += node.byte
        began = len(self.named), self.packed
        if node.production in ("Arguments", "HeldArguments", "NestArguments", "NestInstance", "NestNext") and not self.listed:
            self.append(around, began)
            if node.production == "HeldArguments":
                self.append_apart(around)
        self.types_around += node.kind in TYPES
        values = self.spell_parts(node, self.inside(node, around))
        self.types_around -= node.kind in TYPES
        if node.kind in NAMING:
            self.arguments, self.listed = None, False
        elif node.kind == "Abbreviation":
            self.arguments, self.listed = None, True
        if leaves_candidate(node):
            self.append(around, began)
        if node.production == "Constraint":
            return ()
        if node.kind in self.table.argument_lists:
            return ("PackList" in self.table.parts[node.production] or self.is_pack(node), *(values[-1] or ()))
        return ()

    def is_pack(self, node):
        """Whether a node is an argument that is a pack, after any number of declarations."""
        while isinstance(node, Node) and node.production in DECLARED:
            node = node.parts[DECLARED[node.production]]
        return isinstance(node, Node) and node.production == "OnePack"

    def spell_parts(self, node, around):
        values = []
        for number, part in enumerate(node.parts):
            if node.production == "Encoding" and number == 1:
                around = around._replace(scope=self.arguments)
            declares = node.production == "DeclaredArgument" and number == 0
            values.append(self.spell(part, around._replace(scope=None, in_lambda=True) if declares else around))
            if node.production in NAMES_ALONE and number == 0:
                self.listed = True
            elif node.production in TYPED and number == 0 and is_new(part):
                self.append(around)
            elif node.production == "Holder" and number == 0 or node.production == "Inheriting" and number == 1:
                self.append_apart(around)
            if self.table.parts[node.production][number] in self.table.argument_lists and node.kind not in self.table.argument_lists and node.production != "OnePack":
                self.arguments = values[-1]
                self.listed = node.production == "NestArguments"
                if self.listed:
                    self.append(around)
        return values

    def inside(self, node, around):
        if node.production in ("Encoding", "Special", "OtherSpecial"):
            self.encodings += 1
            self.listed = True
            return Around(self.encodings, None, False, False)
        if node.production in ("Lambda", "Constraint"):
            return around._replace(scope=None, in_lambda=True)
        if node.production == "Expansion":
            return around._replace(in_expansion=True)
        return around


def leaves_candidate(node):
    """Whether a type is a candidate after this node."""
    if node.production in ("RestrictType", "VolatileType", "ConstType", "ReferenceType", "LvalueItem", "RvalueItem", "ConvertedConst", "ConvertedPointer", "ConvertedReference"):
        return True
    return node.production in ("PlainType", "TypeWithD", "PlainArgument", "ArgumentWithT", "ConvertedType", "ConvertedDecltype", "DestroyedType") and is_new(node.parts[0])


def is_new(inner):
    """Whether a type isn't a candidate yet, and will be one."""
    if inner.production == "TypeWithS":
        return inner.parts[0].production == "TypeInStd" or inner.parts[1] is not None
    if inner.production == "LeveledParameter":
        return is_new(inner.parts[1])
    if inner.production in ("Parameter", "ParameterArgument"):
        return inner.parts[1] is not None
    return inner.production not in ("Builtin", "BuiltinWithD", "SizedFloat", "ConstrainedAuto", "DeclaredArgument")


def counted(number, base):
    """A number with an underscore after it. The first number is the underscore alone."""
    digits = b""
    while number > 0:
        number, digit = divmod(number - 1, base) if not digits else divmod(number, base)
        digits = DIGITS[digit : digit + 1] + digits
    return digits + b"_"


class Words:
    """Symbols by one of the grammars."""

    def __init__(self, wide, rng, size):
        self.table, self.rng, self.size = Table(wide), rng, size

    def word(self):
        return self.word_and_rules()[0]

    def word_and_rules(self):
        """A symbol, and the names of the rules that it has."""
        sys.setrecursionlimit(100_000)
        while True:
            derivation = Derivation(self.table, self.rng)
            size, times = self.rng.choice((5, 20, self.size // 4, self.size // 2)), self.rng.choice((0, 0, 0, 0, 1, 4, 16, 64))
            again, newest = self.rng.choice((0, 0, 0.3, 0.9)), self.rng.choice((0, 0.5, 0.9))
            tree, kind, anywhere = derivation.tree(size), None, False
            if times and self.rng.random() < 0.2:
                tree, kind, again, newest = derivation.types_of_types(size), "Items", 0.9, 1
            elif self.table.own and self.rng.random() < 0.1:
                tree, times, again, newest, anywhere = derivation.varied(self.rng.choice(NAMED_AGAIN)), 0, self.rng.choice((0, 0.2)), 0.5, True
            while True:
                spelling = Spelling(derivation, again, newest, anywhere)
                word = spelling.word(repeated(self.rng, self.table, tree, times, kind))
                if len(word) <= self.size:
                    return word, {self.table.rule_name(node) for node in spelling.nodes}
                if times == 0:
                    break
                times //= 2


def answers(program, wide, words):
    """A program's answer for each word: `text` where the word has a text, and otherwise the reason of the refusal."""
    command = [*command_of(program), *(["--wide"] if wide else []), "--", *words]
    done = subprocess.run(command, stdout=subprocess.DEVNULL, stderr=subprocess.PIPE)
    reasons = collections.deque(line for line in done.stderr.split(b"\n") if line)
    found = []
    for word in words:
        beginning = b"symfilt: " + word + b": "
        found.append(reasons.popleft()[len(beginning) :].decode() if reasons and reasons[0].startswith(beginning) else "text")
    return found


def print_rules(words, count, program, wide):
    """Prints how many symbols have each rule, and how many of them are answered with a text."""
    table = words.table
    kinds = [Node(kind, cls, production, b"", ()) for kind, rules in table.rules.items() for cls, production, _ in rules]
    within, read, reasons = collections.Counter(), collections.Counter(), collections.Counter()
    for _ in range(0, count, BATCH):
        made = [words.word_and_rules() for _ in range(min(BATCH, count))]
        told = answers(program, wide, [word for word, _ in made]) if program else ["" for _ in made]
        for (_, rules), reason in zip(made, told):
            within.update(rules)
            reasons[reason.split(" at ")[0]] += 1
            if reason == "text":
                read.update(rules)
    for name in dict.fromkeys(table.rule_name(node) for node in kinds):
        print(f"{within[name]:7} {read[name] if program else '':7} {name}")
    told = ", ".join(f"{number} {reason}" for reason, number in reasons.most_common() if reason)
    print(f"{sum(reasons.values())} symbols" + (f": {told}" if told else ""))


def main():
    parser = argparse.ArgumentParser(usage=__doc__)
    parser.add_argument("--wide", action="store_true")
    parser.add_argument("--seed", type=int, default=1)
    parser.add_argument("--count", type=int, default=1000)
    parser.add_argument("--size", type=int, default=200)
    parser.add_argument("--rules", nargs="?", const="", metavar="PROGRAM")
    asked = parser.parse_args()
    words = Words(asked.wide, random.Random(asked.seed), asked.size)
    if asked.rules is not None:
        print_rules(words, asked.count, asked.rules, asked.wide)
        return
    for _ in range(asked.count):
        sys.stdout.buffer.write(words.word() + b"\n")


if __name__ == "__main__":
    main()
