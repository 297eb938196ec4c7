"""Reads types and operands in the text of an LLVM module, as the kit's clang prints it:

    i32, { i64, ptr }, <16 x i8>      ->  "i32", Struct, Vector
    %name, @table, 5, undef, splat..  ->  Name, Address, Number, NOTHING, Splat, ..

It stops at what it doesn't know."""

import re
import struct
import sys
from typing import NamedTuple

TOKEN = re.compile(
    r'-?\d+\.\d+e[+-]\d+|0x[0-9A-F]{16}|[%@]"[^"]*"|[%@][\w.$\-]+|c"[^"]*"|"[^"]*"|-?\d+|[A-Za-z_][\w.]*|\.\.\.|[\[\](){}<>,=*!:#|]'
)
# What may follow the type of an argument or a result, and says nothing that C needs, except for `align`.
ATTRIBUTES = set(
    "align dereferenceable captures range initializes dereferenceable_or_null noundef nonnull readonly writeonly noalias nocapture "
    "immarg signext zeroext returned nofree writable dead_on_unwind dead_on_return readnone inreg noext fastcc".split()
)


def stop(why):
    sys.exit(f"to_c.py: {why}")


class Struct(NamedTuple):
    parts: tuple


class Array(NamedTuple):
    count: int
    of: object


class Vector(NamedTuple):
    count: int
    of: object


BYTES_16, BITS_16 = Vector(16, "i8"), Vector(16, "i1")
BYTES_64, BITS_64 = Vector(64, "i8"), Vector(64, "i1")  # of the latter each part is a byte of C, 0 or 255


def bits(type_):
    """How many bits an integer type has."""
    return int(type_[1:])


class Number(NamedTuple):
    number: int


class Real(NamedTuple):
    real: float


class Name(NamedTuple):
    name: str


class Address(NamedTuple):
    """A number of bytes after a table's or a function's beginning."""

    of: str
    distance: int


class Nothing(NamedTuple):
    """What has no value of its own: undef, poison, null, zeroinitializer."""


class Cast(NamedTuple):
    word: str
    operand: object
    type: object


class Parts(NamedTuple):
    """A struct's or a vector's parts."""

    operands: tuple
    type: object


class Splat(NamedTuple):
    operand: object
    type: object


NOTHING = Nothing()


def named(operand):
    """The names of the values that an operand is made of."""
    if isinstance(operand, Name):
        return [operand.name]
    if isinstance(operand, Parts):
        return [name for part in operand.operands for name in named(part)]
    return named(operand.operand) if isinstance(operand, (Cast, Splat)) else []


class Line:
    """The tokens of a line, from the first to the last."""

    def __init__(self, line):
        self.tokens, self.at, self.whole = TOKEN.findall(line), 0, line

    def peek(self, further=0):
        return self.tokens[self.at + further] if self.at + further < len(self.tokens) else ""

    def next(self):
        self.at += 1
        return self.tokens[self.at - 1]

    def take(self, *words):
        return self.next() if self.peek() in words else None

    def skip(self, *words):
        while self.take(*words):
            pass

    def want(self, *words):
        for word in words:
            found = self.next()
            if found != word:
                stop(f"{word} wanted, {found} found: {self.whole[:300]}")

    def attributes(self):
        """Passes attributes, and answers the alignment that they give, or 1."""
        align = 1
        while self.peek() in ATTRIBUTES:
            word = self.next()
            if word == "align" and self.peek() != "(":
                align = int(self.next())
            elif self.peek() == "(":
                depth = 0
                while True:
                    token = self.next()
                    depth += (token == "(") - (token == ")")
                    if not depth:
                        break
        return align

    def type(self):
        word = self.next()
        if word == "{":
            parts = [self.type()]
            while self.take(","):
                parts.append(self.type())
            self.want("}")
            return Struct(tuple(parts))
        if word in ("[", "<"):
            count = int(self.next())
            self.want("x")
            of = self.type()
            self.want("]" if word == "[" else ">")
            return Array(count, of) if word == "[" else Vector(count, of)
        if word in ("ptr", "void", "label", "metadata", "double") or re.fullmatch(r"i\d+", word):
            return word
        stop(f"type {word}: {self.whole[:300]}")

    def operand(self, type_):
        """An operand of this type."""
        word = self.next()
        if word[0] == "%":
            return Name(word)
        if word[0] == "@":
            return Address(word, 0)
        if word in ("true", "false"):
            return Number(int(word == "true"))
        if word in ("undef", "poison", "zeroinitializer", "null"):
            return NOTHING
        if type_ == "double":
            return Real(struct.unpack(">d", bytes.fromhex(word[2:]))[0] if word[:2] == "0x" else float(word))
        if re.fullmatch(r"-?\d+", word):
            return Number(int(word) & (1 << bits(type_)) - 1)
        return self.constant(word)

    def constant(self, word):
        """A constant that is put together of others."""
        if word == "getelementptr":
            self.skip("inbounds", "nuw", "nusw")
            self.want("(")
            if self.type() != "i8":
                stop(f"a step of another type than i8: {self.whole[:300]}")
            self.want(",", "ptr")
            base = self.operand("ptr")
            self.want(",")
            steps = self.type()
            distance = self.operand(steps).number
            self.want(")")
            return Address(base.of, base.distance + signed(distance, bits(steps)))
        if word in ("ptrtoaddr", "ptrtoint", "inttoptr"):
            self.want("(")
            type_ = self.type()
            operand = self.operand(type_)
            self.want("to")
            self.type()
            self.want(")")
            return Cast(word, operand, type_)
        if word == "splat":
            self.want("(")
            type_ = self.type()
            operand = self.operand(type_)
            self.want(")")
            return Splat(operand, type_)
        if word in ("{", "<"):
            types, operands = [], []
            while True:
                types.append(self.type())
                operands.append(self.operand(types[-1]))
                if not self.take(","):
                    break
            self.want("}" if word == "{" else ">")
            return Parts(tuple(operands), Struct(tuple(types)) if word == "{" else BYTES_16)
        stop(f"value {word}: {self.whole[:300]}")

    def typed(self):
        type_ = self.type()
        self.attributes()
        return type_, self.operand(type_)

    def pair(self):
        """A type and two operands of it."""
        type_ = self.type()
        one = self.operand(type_)
        self.want(",")
        return type_, [one, self.operand(type_)]


def signed(number, width):
    """The signed number that has these bits."""
    return number - (1 << width) if number >> width - 1 else number
