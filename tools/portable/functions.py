"""Reads a function in the text of an LLVM module:

    its lines  ->  Function: result, parameters, blocks of Instructions, and which block dominates which

A block's `phis` are the values that it has by the block that control came from."""

import re
from dataclasses import dataclass

from instructions import Instruction, instruction
from operands import ATTRIBUTES, Line

LABEL = re.compile(r'^("[^"]*"|[\w.$\-]+):')
LINKAGE = ("internal", "private", "dso_local", "hidden", "unnamed_addr", "local_unnamed_addr")


@dataclass
class Phi:
    name: str
    type: object
    ways: dict


class Function:
    def __init__(self, lines):
        self.types = {}  # of each value, by its name
        self.read_head(lines[0])
        self.read_blocks(lines[1:-1])
        self.find_order()
        self.find_dominators()

    def read_head(self, text):
        head = Line(text)
        head.want("define")
        self.is_static = False
        while head.peek() in LINKAGE or head.peek() in ATTRIBUTES:
            if head.peek() in ATTRIBUTES:
                head.attributes()
            else:
                self.is_static |= head.next() in ("internal", "private")
        self.result = head.type()
        head.attributes()
        self.name = head.next()
        head.want("(")
        self.parameters = []
        while not head.take(")"):
            type_ = head.type()
            head.attributes()
            self.parameters.append((type_, head.next()))
            head.take(",")
        group = re.search(r"#(\d+)", text.rsplit(")", 1)[1])
        self.attributes = group[1] if group else ""

    def read_blocks(self, lines):
        blocks, label, current = [], None, []
        for line in lines:
            begins = LABEL.match(line)
            if begins:
                if current or label is not None:
                    blocks.append((label, current))
                label, current = "%" + begins[1], []
            elif line.strip():
                current.append(line.split(", !")[0])
        blocks.append((label, current))
        if blocks[0][0] is None:
            blocks[0] = (first_label(blocks), blocks[0][1])
        self.blocks, self.phis = {}, {}
        for label, body in blocks:
            self.read_block(label, body)
        self.entry = blocks[0][0]

    def read_block(self, label, body):
        self.phis[label], self.blocks[label] = [], []
        lines = iter(body)
        for text in lines:
            line = Line(text)
            name = None
            if line.peek(1) == "=":
                name = line.next()
                line.next()
            word = line.next()
            if word in ("tail", "musttail", "notail"):
                word = line.next()
            if word == "phi":
                self.phis[label].append(self.phi(name, line))
            elif word == "switch":
                self.blocks[label].append(switch(line, lines))
            else:
                it, type_ = instruction(name, word, line)
                if type_ is not None:
                    self.types[name] = type_
                if it:
                    self.blocks[label].append(it)

    def phi(self, name, line):
        type_, ways = line.type(), {}
        while True:
            line.want("[")
            operand = line.operand(type_)
            line.want(",")
            ways[line.next()] = operand
            line.want("]")
            if not line.take(","):
                break
        self.types[name] = type_
        return Phi(name, type_, ways)

    def targets(self, label):
        return self.blocks[label][-1].targets

    def find_order(self):
        """Each block that is reached, before those that it dominates (reverse postorder)."""
        seen, done = {self.entry}, []
        open_ = [(self.entry, iter(self.targets(self.entry)))]
        while open_:
            label, targets = open_[-1]
            new = next((it for it in targets if it not in seen), None)
            if new is None:
                done.append(label)
                open_.pop()
            else:
                seen.add(new)
                open_.append((new, iter(self.targets(new))))
        self.order = done[::-1]
        place = {label: at for at, label in enumerate(self.order)}
        self.before = {label: [] for label in self.order}
        for label in self.order:
            for target in self.targets(label):
                self.before[target].append(label)
        for label in self.order:
            for phi in self.phis[label]:  # no way comes from a block that is never reached
                phi.ways = {way: operand for way, operand in phi.ways.items() if way in place}
        self.place = place

    def find_dominators(self):
        """For each block, the last block that every way to it goes through, and the blocks that are below each in this
        sense."""
        last = {self.entry: self.entry}
        changed = True
        while changed:
            changed = False
            for label in self.order[1:]:
                new = None
                for way in self.before[label]:
                    if way in last:
                        new = way if new is None else self.common(last, way, new)
                if last.get(label) != new:
                    last[label] = new
                    changed = True
        self.dominator = last
        self.below = {label: [] for label in self.order}
        for label in self.order[1:]:
            self.below[last[label]].append(label)
        # blocks that only one block goes to are written within it
        self.nested = set()
        for label in self.order[1:]:
            ways = self.before[label]
            if len(set(ways)) == 1 and (len(ways) == 1 or self.blocks[ways[0]][-1].kind == "switch"):
                self.nested.add(label)

    def common(self, last, one, other):
        while one != other:
            while self.place[one] > self.place[other]:
                one = last[one]
            while self.place[other] > self.place[one]:
                other = last[other]
        return one


def first_label(blocks):
    """The name of the block without a label: the only name that phis have and no label has."""
    named = {label for label, _ in blocks if label}
    phis = [line for _, body in blocks for line in body if " = phi " in line]
    others = {name for line in phis for name in re.findall(r', (%"[^"]*"|%[\w.$\-]+) \]', line)} - named
    return others.pop() if others else "%"


def switch(line, lines):
    """The arms of a switch are lines of their own."""
    type_, operand = line.typed()
    line.want(",", "label")
    targets, arms = [line.next()], []
    for text in lines:
        if text.strip().startswith("]"):
            break
        arm = Line(text)
        _, number = arm.typed()
        arm.want(",", "label")
        arms.append((number.number, arm.next()))
    return Instruction(None, "switch", type_, [operand], targets=targets + [target for _, target in arms], arms=arms)
