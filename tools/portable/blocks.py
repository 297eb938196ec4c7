"""Writes a function as C: its blocks become `if`, `switch` and `goto` by which of them dominates which.

    Function  ->  Written: declarations and lines

A value that is used once, in its own block, is written where it is used, unless a write or a call lies between."""

import re
from dataclasses import dataclass

from computing import Computing
from expressions import SMALL, Expression, negated, number
from operands import Nothing, stop
from values import Values

DEEPEST = 60  # how far blocks are nested; further ones get a label
LONGEST = 400  # of an expression that is written where it is used
LABEL = re.compile("\0([^\0]*)\0(:?)")  # a block's place, or the way to it, until labels get numbers


@dataclass
class Written:
    function: object
    parameters: list
    arrays: dict
    variables: dict
    unused: list
    lines: list


class Blocks:
    def __init__(self, function, structs, tables):
        self.function, self.structs = function, structs
        self.values = Values(function)
        self.computing = Computing(function, self.values, structs, tables)
        self.declared, self.variables = set(), {}
        self.wanted, self.labels, self.spares = set(), {}, 0

    def write(self):
        function, values = self.function, self.values
        parameters = []
        for type_, name in function.parameters:
            parameters.append(f"{self.structs.c_type(type_)} {values.c_name(name)}")
            self.declared.add(name)
            function.types[name] = type_
        arrays = {}
        for it in values.instructions():
            if it.kind == "room" and it.name in values.uses:
                self.declared.add(it.name)
                array = f"{values.c_name(it.name)}[{it.number}]"
                arrays.setdefault(1 if int(it.word) < 4 else 16, []).append(array)
        lines, _ = self.block(function.entry, None, None, 0)
        unused = [values.names[name] for _, name in function.parameters if name not in values.uses]
        return Written(function, parameters, arrays, self.variables, unused, self.with_labels(lines))

    def with_labels(self, lines):
        """The lines, each label before its statement; labels that no goto names are dropped."""
        text = []
        for line in lines:
            line = LABEL.sub(lambda it: "" if it[2] and it[1] not in self.wanted else self.label(it[1]) + it[2], line)
            if not line:
                continue
            if text and re.search(r"(^|[:;{}])(L\d+:)+$", text[-1]):
                text[-1] += (";" if line.startswith("}") else "") + line
            else:
                text.append(line)
        if text and re.search(r"L\d+:$", text[-1]):
            text[-1] += ";"
        return text

    def label(self, label):
        return self.labels.setdefault(label, f"L{len(self.labels) + 1}")

    def variable(self, name, type_):
        """The name of a value's variable, which is declared."""
        short = self.values.c_name(name)
        if name not in self.declared:
            self.declared.add(name)
            self.variables.setdefault(self.structs.c_type(type_), []).append(short)
        return short

    def flush(self, lines, only_reads):
        """Writes the values that wait to be used, or only those that read memory, before something is written to memory."""
        pending = self.computing.pending
        for name in [name for name, it in pending.items() if it.reads or not only_reads]:
            it = pending.pop(name)
            lines.append(f"{self.variable(name, self.function.types[name])}={it.stored()};")

    def settle(self, name, it, type_, label, lines):
        """Keeps a value until it is used, or gives it a variable."""
        if name not in self.values.uses:
            return
        if self.values.uses[name] == 1 and self.values.used_in[name] == {label} and len(it.text) < LONGEST:
            self.computing.pending[name] = it
        else:
            lines.append(f"{self.variable(name, type_)}={it.stored()};")

    def statements(self, label, lines):
        """A block's instructions, except for its last."""
        self.computing.pending = {}
        for it in self.function.blocks[label][:-1]:
            if it.name in self.values.aliases or it.kind == "room":
                continue
            if it.kind == "store":
                text = self.computing.store(it)
                self.flush(lines, True)
                lines.append(text)
            elif it.kind == "call":
                self.call(it, label, lines)
            elif it.kind == "insertion":
                self.insertion(it, lines)
            else:
                self.settle(it.name, self.computing.expression(it), self.function.types[it.name], label, lines)

    def call(self, it, label, lines):
        text, value = self.computing.call(it)
        if value is not None:
            self.settle(it.name, value, it.type, label, lines)
            return
        self.flush(lines, True)
        if it.name and it.name in self.values.uses:
            lines.append(f"{self.variable(it.name, it.type)}={text};")
        else:
            lines.append(text + ";")

    def insertion(self, it, lines):
        """A struct or a vector with one part changed."""
        of_struct = it.word == "insertvalue"
        whole = self.values.resolved(it.operands[0])
        part = self.computing.operand(it.operands[1], it.type.parts[it.number] if of_struct else "i8")
        if it.name in self.values.uses:
            short = self.variable(it.name, it.type)
            place = f"f{it.number}" if of_struct else f"b[{it.number}]"
            lines.append(f"{short}={self.computing.operand(whole, it.type).text};{short}.{place}={part.stored()};")

    def moves(self, label, target, lines):
        """Gives the target's phis their values by this way. Each value is computed before a variable that it uses is overwritten."""
        left = []
        for phi in self.function.phis[target]:
            if phi.name in self.values.uses:
                operand = self.values.resolved(phi.ways[label])
                plain = isinstance(operand, Nothing) and isinstance(phi.type, str)
                it = Expression("0", SMALL) if plain else self.computing.operand(operand, phi.type)
                short = self.variable(phi.name, phi.type)
                if it.text != short:
                    left.append((short, phi.type, it))
        while left:
            free = next((at for at in range(len(left)) if not self.is_read(left, at)), None)
            if free is not None:
                short, _, it = left.pop(free)
                lines.append(f"{short}={it.stored()};")
            else:
                left = self.with_spare(left, lines)

    def is_read(self, left, at):
        word = names(left[at][0])
        return any(word.search(it.text) for other, (_, _, it) in enumerate(left) if other != at)

    def with_spare(self, left, lines):
        """Breaks a cycle, in which each variable is used by another one: the old value of the first is kept in a spare variable."""
        first, type_, _ = left[0]
        self.spares += 1
        spare = self.variable(f"spare {self.spares}", type_)
        lines.append(f"{spare}={first};")
        word = names(first)
        again = []
        for short, of, it in left:
            bare = word.sub(spare, it.bare) if it.bare else None
            again.append((short, of, Expression(word.sub(spare, it.text), it.type, it.binds, bare)))
        return again

    def is_within(self, label, depth):
        return label in self.function.nested and depth < DEEPEST

    def way(self, label, target, after, outside, depth):
        """The way from a block to a target: its lines, and whether control goes on after them. `after` is the block that is written
        next, `outside` the one after the switch that contains the way."""
        lines = []
        self.moves(label, target, lines)
        if self.is_within(target, depth) and self.function.dominator[target] == label:
            more, goes_on = self.block(target, after, outside, depth + 1)
            return lines + more, goes_on
        if target == after:
            return lines, True
        if target == outside:
            return lines + ["break;"], False
        self.wanted.add(target)
        return lines + [f"goto \0{target}\0;"], False

    def block(self, label, after, outside, depth):
        """A block and those that it dominates: its lines, and whether control goes on after them."""
        lines = []
        self.statements(label, lines)
        joins = [it for it in self.function.below[label] if not self.is_within(it, depth)]
        last = self.function.blocks[label][-1]
        end = getattr(self, f"{last.kind}_end", None)
        if end is None:
            stop(f"no end of a block: {last}")
        goes_on = end(label, last, joins[0] if joins else after, outside, depth, lines)
        for at, join in enumerate(joins):
            lines.append(f"\0{join}\0:")
            self.computing.pending = {}
            more, goes_on = self.block(join, joins[at + 1] if at + 1 < len(joins) else after, outside, depth)
            lines += more
        return lines, goes_on

    def return_end(self, label, last, after, outside, depth, lines):
        it = self.computing.operand(last.operands[0], last.type) if last.operands else None
        self.flush(lines, False)
        lines.append(f"return {it.stored()};" if it else "return;")
        return False

    def never_end(self, label, last, after, outside, depth, lines):
        self.flush(lines, False)
        if lines[-1:] != ["NEVER;"]:
            lines.append("NEVER;")
        return False

    def jump_end(self, label, last, after, outside, depth, lines):
        more, goes_on = self.way(label, last.targets[0], after, outside, depth)
        lines += more
        return goes_on

    def if_end(self, label, last, after, outside, depth, lines):
        condition = self.computing.operand(last.operands[0], "i1")
        waiting = dict(self.computing.pending)  # each is used on one of the two ways
        yes, yes_goes_on = self.way(label, last.targets[0], after, outside, depth)
        self.computing.pending = waiting
        no, no_goes_on = self.way(label, last.targets[1], after, outside, depth)
        if yes and not no:
            lines += braced(f"if({condition.text})", yes)
        elif no and not yes:
            lines += braced(f"if({negated(condition).text})", no)
        elif yes and not yes_goes_on and (no_goes_on or len(yes) <= len(no)):
            lines += braced(f"if({condition.text})", yes) + no
        elif yes and not no_goes_on:
            lines += braced(f"if({negated(condition).text})", no) + yes
        elif yes:
            lines += braced(f"if({condition.text})", yes, True) + braced("else" if len(no) > 1 else "else ", no)
        return yes_goes_on or no_goes_on

    def switch_end(self, label, last, after, outside, depth, lines):
        operand = self.computing.operand(last.operands[0], last.type)
        self.flush(lines, False)
        groups = {}
        for value, target in last.arms:
            if target != last.targets[0]:
                groups.setdefault(target, []).append(value)
        lines.append(f"switch({operand.text}){{")
        for target, values in groups.items():
            more, goes_on = self.way(label, target, after, after, depth)
            lines.append("".join(f"case {number(value).text}:" for value in values) + (more[0] if more else "break;"))
            lines += more[1:] + ["break;"] * (goes_on and bool(more))
            self.computing.pending = {}
        more, goes_on = self.way(label, last.targets[0], after, after, depth)
        lines.append("default:" + more[0] if more else "default:break;}")
        if more:
            lines += more[1:] + ["break;}" if goes_on else "}"]
        return True


def names(short):
    """What finds a variable's name in a text."""
    return re.compile(rf"(?<![.\w]){short}\b")


def braced(head, body, always=False):
    if len(body) == 1 and not body[0].startswith(("\0", "if", "switch")):
        return [head + body[0]]
    if not body:
        return [head + "{}"]
    return [head + "{", *body[:-1], body[-1] + (";}" if body[-1].endswith("\0:") else "}")]
