"""Which values of a function only denote others, how often each is used, and what each is called in C:

    Function  ->  Values: aliases, uses, names

An address a fixed distance after another, a number that is widened, and what is the same as another get no variable of their own."""

from typing import NamedTuple

from operands import Address, Cast, Name, Nothing, Number, Parts, Splat, bits, signed

# The address of an array of no bytes. No object has this address, so a compiler sees no object there that could be freed. Nothing is read
# there.
NO_BYTES = Cast("inttoptr", Number(1 << 16), "i64")

# Words of C, of the prelude, and macros that some compilers define.
KEYWORDS = set(
    "auto break case char const continue default do double else enum extern float for goto if inline int long register restrict "
    "return short signed sizeof static struct switch typedef union unsigned void volatile while asm near far bool "
    "rp wp qp xp mp rd wd splat cttz ctlz product ctpop FN ANY sun arm vax".split()
)
LETTERS = "abcdefghijklmnopqrstuvwxyzABCDEFGHIJKLMNOPQRSTUVWXYZ"


class Widened(NamedTuple):
    """A value as one of a wider type."""

    of: Name


class After(NamedTuple):
    """The address that is a number of bytes after a value that is an address."""

    of: object
    distance: int


class Values:
    def __init__(self, function):
        self.function = function
        self.aliases, self.definitions = {}, {}
        self.uses, self.used_in = {}, {}
        self.names, self.tried = {}, 0
        for it in self.instructions():
            if it.name:
                self.definitions[it.name] = it
        for it in self.instructions():
            if it.name:
                self.note_alias(it)
        self.flatten()
        self.count_uses()

    def instructions(self):
        for label in self.function.order:
            yield from self.function.blocks[label]

    def note_alias(self, it):
        if it.kind == "step" and isinstance(it.operands[1], Number):
            base = self.resolved(it.operands[0])
            distance = signed(it.operands[1].number, bits(it.type)) * it.number
            if isinstance(base, (After, Address)):
                self.aliases[it.name] = type(base)(base.of, base.distance + distance)
            else:
                self.aliases[it.name] = After(base, distance)
        elif it.kind == "cast" and it.word == "zext":
            base = self.resolved(it.operands[0])
            if isinstance(base, (Name, Widened)):
                self.aliases[it.name] = base if isinstance(base, Widened) else Widened(base)
        elif it.kind == "room" and not it.number:
            self.aliases[it.name] = NO_BYTES
        elif it.kind == "same":
            base = self.resolved(it.operands[0])
            if not isinstance(base, Nothing):
                self.aliases[it.name] = base

    def flatten(self):
        """No alias denotes another alias."""
        changed = True
        while changed:
            changed = False
            for name, alias in list(self.aliases.items()):
                flat = self.flat(alias)
                if flat != alias or type(flat) is not type(alias):
                    self.aliases[name] = flat
                    changed = True

    def flat(self, alias):
        if isinstance(alias, After) and isinstance(alias.of, Name) and alias.of.name in self.aliases:
            base = self.aliases[alias.of.name]
            if isinstance(base, (After, Address)):
                return type(base)(base.of, base.distance + alias.distance)
            if isinstance(base, Name):
                return After(base, alias.distance)
        if isinstance(alias, Widened) and alias.of.name in self.aliases:
            base = self.aliases[alias.of.name]
            return base if isinstance(base, Widened) else Widened(base) if isinstance(base, Name) else alias
        if isinstance(alias, Name) and alias.name in self.aliases:
            return self.aliases[alias.name]
        return alias

    def resolved(self, operand):
        """The operand, or what it denotes if it is a name that only denotes another value."""
        if isinstance(operand, Name) and operand.name in self.aliases:
            return self.aliases[operand.name]
        return operand

    def count_uses(self):
        for label in self.function.order:
            for it in self.function.blocks[label]:
                if it.name not in self.aliases:
                    for operand in it.operands:
                        self.use(operand, label)
            for phi in self.function.phis[label]:
                for way, operand in phi.ways.items():
                    self.use(operand, way)

    def use(self, operand, label):
        operand = self.resolved(operand)
        if isinstance(operand, (After, Widened)):
            operand = self.resolved(operand.of)
        if isinstance(operand, Parts):
            for part in operand.operands:
                self.use(part, label)
        elif isinstance(operand, (Cast, Splat)):
            self.use(operand.operand, label)
        elif isinstance(operand, Name):
            self.uses[operand.name] = self.uses.get(operand.name, 0) + 1
            self.used_in.setdefault(operand.name, set()).add(label)

    def c_name(self, name):
        """A short name of C for a value: a, b, .., aa, .."""
        while name not in self.names:
            count, short = self.tried, ""
            self.tried += 1
            short, count = LETTERS[count % 52], count // 52
            while count:
                count -= 1
                short += LETTERS[count % 52]
                count //= 52
            if short not in KEYWORDS:
                self.names[name] = short
        return self.names[name]
