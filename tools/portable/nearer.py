"""Makes two changes to a function's blocks that the kit's code generator makes too, and C compilers don't:

    a block reads a byte that only one successor uses       ->  that successor reads the byte
    (u64)(a << 2)                                           ->  (u64)a << 2, which is part of an address

A moved instruction comes first in a block that has no other predecessor, so it is computed at most as often as before. A load isn't
moved past a store."""

from dataclasses import replace

from instructions import Instruction
from operands import Name, Number, named

# Instructions that have no effects; a struct with one part changed is written in two statements, and stays where it is.
PURE = {"arithmetic", "comparison", "cast", "same", "step", "load", "choice", "part", "byte", "splat", "quarter"}


def is_computing(it):
    """Whether an instruction only computes its value, or reads it."""
    if it.kind == "call":
        return it.word.startswith("@llvm.") and not it.word.startswith(("@llvm.mem", "@llvm.trap"))
    return it.kind in PURE


def is_writing(it):
    return it.kind == "store" or it.kind == "call" and not is_computing(it)


def place(block, instruction):
    return next(at for at, it in enumerate(block) if it is instruction)


class Nearer:
    def __init__(self, function):
        self.function = function
        self.uses = {}  # of each value: how often each block uses it
        for label in function.order:
            for it in function.blocks[label]:
                self.count(it, label, 1)
            for phi in function.phis[label]:
                for way, operand in phi.ways.items():
                    for name in named(operand):
                        self.add(name, way, 1)

    def count(self, it, label, more):
        for operand in it.operands:
            for name in named(operand):
                self.add(name, label, more)

    def add(self, name, label, more):
        blocks = self.uses.setdefault(name, {})
        blocks[label] = blocks.get(label, 0) + more
        if not blocks[label]:
            del blocks[label]

    def widen_shifts(self):
        """A shift that loses no bits, and that only a widening cast uses, is done after the cast."""
        shifts, pairs = {}, []
        for label in self.function.order:
            for it in self.function.blocks[label]:
                if it.kind == "arithmetic" and it.word == "shl" and it.is_positive and isinstance(it.operands[1], Number):
                    shifts[it.name] = it
                elif it.kind == "cast" and it.word == "zext" and isinstance(it.operands[0], Name):
                    shift = shifts.get(it.operands[0].name)
                    if shift and self.uses[shift.name] == {label: 1}:
                        pairs.append((label, shift, it))
        for label, shift, it in pairs:
            self.widen(label, shift, it)

    def widen(self, label, shift, cast):
        """Swaps a shift and the cast of its result, which are in one block."""
        block, wider = self.function.blocks[label], f"{shift.name} wider"
        if not any(it is shift for it in block):
            return
        block[place(block, cast)] = replace(shift, name=cast.name, type=cast.to, operands=[Name(wider), shift.operands[1]])
        block[place(block, shift)] = Instruction(wider, "cast", shift.type, [shift.operands[0]], "zext", cast.to)
        self.function.types[wider] = cast.to
        self.add(shift.name, label, -1)
        self.add(wider, label, 1)

    def only_way(self, name, label):
        """The block that only this block leads to, if all uses of the value are in it or below it."""
        found = None
        for used in self.uses.get(name, ()):
            if used == label:
                return None
            while self.function.dominator[used] != label:
                used = self.function.dominator[used]
            if found not in (None, used):
                return None
            found = used
        return found if found in self.function.nested else None

    def move(self, label):
        kept, moved, is_written = [], {}, False
        for it in reversed(self.function.blocks[label]):
            is_written |= is_writing(it)
            stays = not is_computing(it) or it.kind == "load" and is_written
            target = None if stays else self.only_way(it.name, label)
            if target is None:
                kept.append(it)
                continue
            moved.setdefault(target, []).append(it)
            self.count(it, label, -1)
            self.count(it, target, 1)
        self.function.blocks[label] = kept[::-1]
        for target, instructions in moved.items():
            self.function.blocks[target][:0] = instructions[::-1]


def bring_nearer(function):
    """Changes the blocks of a function."""
    nearer = Nearer(function)
    nearer.widen_shifts()
    for label in function.order:
        nearer.move(label)
