"""Compares bytes that lie beside each other by 2, 4 or 8 at once, where a function asks whether any of them differ:

    p[0] != q[0] | p[1] != q[1] | p[2] != q[2] | p[3] != q[3]  ->  the 4 bytes at p != the 4 bytes at q

LLVM's compiler for x86-64 does so by vectors. Each byte is read either way, as `|` computes both its sides."""

from collections import Counter
from typing import NamedTuple

from instructions import Instruction
from operands import Name, Number, bits, named, signed

WIDEST = 8
COMPUTES = {"arithmetic", "comparison", "load", "step", "cast"}
DEEPEST = 4  # sums of sums that an address is looked for in


class Place(NamedTuple):
    """An address: what a base, some values and a distance add up to."""

    base: object
    values: tuple
    distance: int


class Pair(NamedTuple):
    """Two bytes that are compared: where they are, and their addresses as operands."""

    one: Place
    other: Place
    addresses: tuple

    def group(self):
        """What pairs that may lie beside each other have in common."""
        return self.one[:2], self.other[:2], self.one.distance - self.other.distance


def widen(function):
    """Changes the blocks of a function."""
    if any(is_or(it) for block in function.blocks.values() for it in block):
        Widening(function).run()


def is_or(it):
    return it.kind == "arithmetic" and it.word == "or" and it.type == "i1"


def writes(it):
    return it.kind == "store" or it.kind == "call" and not it.word.startswith(("@llvm.umin", "@llvm.umax", "@llvm.usub"))


class Widening:
    def __init__(self, function):
        self.function, self.made, self.inner = function, 0, set()
        self.definitions = {it.name: it for block in function.blocks.values() for it in block if it.name}
        self.uses = uses(function)

    def run(self):
        for label, block in self.function.blocks.items():
            # an `or` that isn't part of another `or` comes after the `or`s that are
            for root in [it for it in reversed(block) if is_or(it)]:
                if root.name not in self.inner:
                    self.function.blocks[label] = self.widened(self.function.blocks[label], root)
        if self.made:
            self.drop_unused()

    def widened(self, block, root):
        """The block, with the operands that an `or` joins compared several bytes at once."""
        at = block.index(root)
        since = max((place for place in range(at) if writes(block[place])), default=-1)
        near = {it.name: it for it in block[since + 1 : at] if it.name}
        pairs, others = [], []
        for operand in self.joined(root, near):
            pair = self.pair(operand, near)
            if pair:
                pairs.append((pair, operand))
            else:
                others.append(operand)
        more, operands = self.comparisons(pairs)
        if not more:
            return block
        operands += others
        while len(operands) > 2:
            more.append(self.instruction("arithmetic", "i1", operands[:2], "i1", "or"))
            operands = [Name(more[-1].name), *operands[2:]]
        if len(operands) == 1:
            more[-1].name = root.name
            return [*block[:at], *more, *block[at + 1 :]]
        root.operands = operands
        return [*block[:at], *more, *block[at:]]

    def joined(self, root, near):
        """The operands that are joined by an `or`, and by other `or`s that only this one uses."""
        found, open_ = [], list(root.operands)
        while open_:
            operand = open_.pop()
            it = near.get(operand.name) if isinstance(operand, Name) else None
            if it and is_or(it) and self.uses[it.name] == 1:
                self.inner.add(it.name)
                open_ += it.operands
            else:
                found.append(operand)
        return found

    def pair(self, operand, near):
        """The two bytes, if an operand says whether they differ."""
        it = near.get(operand.name) if isinstance(operand, Name) else None
        if not it or it.kind != "comparison" or it.type != "i8" or it.word != "ne" or self.uses[it.name] != 1:
            return None
        loads = [near.get(side.name) if isinstance(side, Name) else None for side in it.operands]
        if not all(load and load.kind == "load" and self.uses[load.name] == 1 for load in loads):
            return None
        addresses = tuple(load.operands[0] for load in loads)
        return Pair(self.place(addresses[0]), self.place(addresses[1]), addresses)

    def place(self, address):
        base, values, distance = address, (), 0
        while isinstance(base, Name) and base.name in self.definitions:
            it = self.definitions[base.name]
            if it.kind != "step" or it.number != 1:
                break
            more, further = self.sum(it.operands[1], it.type, DEEPEST)
            base, values, distance = it.operands[0], values + more, distance + further
        return Place(base, tuple(sorted(values)), distance)

    def sum(self, operand, type_, deep):
        """The values and the number that add up to an operand."""
        if isinstance(operand, Number):
            return (), signed(operand.number, bits(type_))
        it = self.definitions.get(operand.name) if isinstance(operand, Name) else None
        if deep and type_ == "i64" and it and it.kind == "arithmetic" and (it.word == "add" or it.to == "disjoint"):
            (one, number), (other, more) = (self.sum(side, type_, deep - 1) for side in it.operands)
            return one + other, number + more
        return (operand,), 0

    def comparisons(self, pairs):
        """Instructions that compare more than one pair at once, and the operands that represent all of the pairs."""
        more, operands, runs = [], [], {}
        for pair, operand in sorted(pairs, key=lambda it: it[0].one.distance):
            run = runs.setdefault(pair.group(), [[]])
            if run[-1] and run[-1][-1][0].one.distance + 1 != pair.one.distance:
                run.append([])
            run[-1].append((pair, operand))
        for run in [run for found in runs.values() for run in found]:
            while run:
                count = 1
                while count < WIDEST and 2 * count <= len(run):
                    count *= 2
                if count == 1:
                    operands.append(run[0][1])
                else:
                    more += self.comparison(run[0][0], f"i{8 * count}")
                    operands.append(Name(more[-1].name))
                run = run[count:]
        return more, operands

    def comparison(self, pair, type_):
        loads = [self.instruction("load", type_, [address], type_) for address in pair.addresses]
        return [*loads, self.instruction("comparison", type_, [Name(it.name) for it in loads], "i1", "ne")]

    def instruction(self, kind, type_, operands, result, word=""):
        self.made += 1
        it = Instruction(f"%wide {self.made}", kind, type_, operands, word, number=1)
        self.function.types[it.name] = result
        return it

    def drop_unused(self):
        """Leaves out what nothing uses any longer."""
        changed = True
        while changed:
            used, changed = uses(self.function), False
            for label, block in self.function.blocks.items():
                kept = [it for it in block if it.name is None or used[it.name] or it.kind not in COMPUTES]
                changed |= len(kept) < len(block)
                self.function.blocks[label] = kept


def uses(function):
    """How often each value is used."""
    found = Counter()
    for block in function.blocks.values():
        for it in block:
            for operand in it.operands:
                found.update(named(operand))
    for phis in function.phis.values():
        for phi in phis:
            for operand in phi.ways.values():
                found.update(named(operand))
    return found
