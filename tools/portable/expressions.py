"""Expressions of C, put together of smaller ones with as few brackets and casts as C needs:

    the expressions of %a and %b, "add", "i32"  ->  the expression of their sum, cut to 32 bits

All integers are unsigned. One of at most 16 bits is an `int` of C that isn't negative, so what C computes of it is cut back."""

from operands import BITS_16, BITS_64, BYTES_16, BYTES_64, Number, Struct, bits, signed as as_signed, stop

MOST_ZEROED = 128  # bytes that are made 0 without a call
# How tightly C binds an expression.
PRIMARY, POSTFIX, UNARY, TIMES, PLUS, SHIFT, ORDER, EQUAL, AND, XOR, OR, BOTH, EITHER, CHOICE = range(16, 2, -1)
# The C type of an expression: 4, 8 or 16 for an unsigned integer of that size in bytes, or one of these. SMALL is an int that isn't
# negative, SIGNED an integer with a sign; the others are an address, a struct and a double.
SMALL, SIGNED, POINTER, WHOLE, REAL = "small", "signed", "pointer", "whole", "real"
SIZE = {SMALL: 0, 4: 4, 8: 8, 16: 16}
SIGN = {"add": "+", "sub": "-", "mul": "*", "and": "&", "or": "|", "xor": "^", "shl": "<<", "lshr": ">>", "udiv": "/", "urem": "%"}
COMPARE = {"eq": "==", "ne": "!=", "ult": "<", "ule": "<=", "ugt": ">", "uge": ">=", "slt": "<", "sle": "<=", "sgt": ">", "sge": ">="}
OPPOSITE = {"==": "!=", "!=": "==", "<": ">=", ">=": "<", ">": "<=", "<=": ">"}


class Expression:
    """A text of C. `bare` is the text without its outermost cast, for a place that cuts it by itself; `opposite` is the negation,
    as a text and how tightly that text binds; `reads` says whether the text reads memory, so that it can't be moved past a
    write."""

    __slots__ = ("text", "type", "binds", "bare", "opposite", "reads")

    def __init__(self, text, type_, binds=PRIMARY, bare=None, opposite=None, reads=False):
        self.text, self.type, self.binds, self.bare, self.opposite, self.reads = text, type_, binds, bare, opposite, reads

    def at(self, binds):
        """The text, in brackets if it binds less tightly than `binds`."""
        return self.text if self.binds >= binds else f"({self.text})"

    def stored(self):
        """The text for a place whose type cuts it."""
        return self.text if self.bare is None else self.bare


class Structs:
    """The names of struct types, which optional parts of the prelude are used, and how many bytes are made 0 at once."""

    def __init__(self):
        self.names, self.used, self.zeroed = {}, set(), set()

    def c_type(self, type_):
        if type_ in ("ptr", "void", "double"):
            return "u8*" if type_ == "ptr" else type_
        if isinstance(type_, str):
            return f"u{held_bits(type_)}"
        if isinstance(type_, Struct):
            if type_ not in self.names:
                self.names[type_] = "s_" + "_".join("p" if part == "ptr" else part[1:] for part in type_.parts)
                for part in type_.parts:
                    self.c_type(part)
            return self.names[type_]
        if type_ == BITS_16:
            return "u16"
        if type_ in (BYTES_16, BYTES_64, BITS_64):
            self.used.add("v16")
            return "v16" if type_ == BYTES_16 else "v64"
        stop(f"type {type_}")

    def zeroing(self, address, size):
        """The text that makes some bytes at an address 0."""
        self.zeroed.add(size)
        return f"z{size}({address})"

    def zeroings(self):
        """The macros that the texts of `zeroing` call."""
        return "".join(f"#define z{size}(p) {zeroed(size)}\n" for size in sorted(self.zeroed))

    def zero(self, type_):
        """The value of a type whose bytes are all 0."""
        if type_ == BITS_16:
            return "0"
        return f"({self.c_type(type_)})" + ("{0}" if isinstance(type_, Struct) else "{{0}}")


def zeroed(size):
    """The text that makes this many bytes at p 0. More than 16 bytes take several writes, and the last may begin within the one before
    it. They aren't a memset, since gcc writes single words in a loop for a memset that it believes is seldom reached."""
    if size <= 16:
        return f"memset(p,0,{size})"
    at, writes = 0, []
    while at < size:
        width = next((width for width in (1, 2, 4, 8) if width >= size - at), 16)
        at = min(at, size - width)
        place = f"(p)+{at}" if at else "p"
        writes.append(f"x{width}({place},0)" if width > 1 else f"*({place})=0")
        at += width
    return ",".join(writes)


def held_bits(type_):
    """How many bits the C type that holds such an integer has."""
    return next(width for width in (8, 16, 32, 64, 128) if bits(type_) <= width)


def kind(type_):
    """The C type of an expression that reads a variable of this type."""
    if type_ in ("ptr", "double"):
        return POINTER if type_ == "ptr" else REAL
    if not isinstance(type_, str):
        return SMALL if type_ == BITS_16 else WHOLE
    return {8: SMALL, 16: SMALL, 32: 4, 64: 8, 128: 16}[held_bits(type_)]


def number(value):
    if value < 1 << 31:
        return Expression(str(value), SMALL)
    if value < 1 << 64:
        plain = value < 10**6 or value in ((1 << 32) - 1, (1 << 64) - 1)
        return Expression(f"{value}u" if plain else f"0x{value:x}u", 4 if value < 1 << 32 else 8)
    return Expression(f"(u128)0x{value >> 64:x}u<<64|0x{value & (1 << 64) - 1:x}u", 16, XOR)


def cast(c_type, it, type_):
    bare = it.stored() if POINTER not in (type_, it.type) else None
    return Expression(f"({c_type}){it.at(UNARY)}", type_, UNARY, bare, None, it.reads)


def widened(it, type_):
    """The operand with just the C type that values of a type of LLVM have."""
    wanted = kind(type_)
    return it if wanted == SMALL or it.type == wanted else cast(f"u{wanted * 8}", it, wanted)


def cut(type_, it):
    """An expression, cut to the width of a type where C's operation may have made more."""
    width = bits(type_)
    if width in (8, 16):
        return Expression(f"(u{width}){it.at(UNARY)}", SMALL, UNARY, it.stored(), None, it.reads)
    if width in (32, 64, 128):
        return it
    return Expression(f"{it.at(UNARY)}&{number((1 << width) - 1).text}", it.type, AND, None, None, it.reads)


def signed(type_, it):
    width = bits(type_)
    if width in (8, 16, 32, 64):
        return Expression(f"(i{width}){it.at(UNARY)}", SIGNED, UNARY, None, None, it.reads)
    return Expression(f"(i64)((u64){it.at(UNARY)}<<{64 - width})>>{64 - width}", SIGNED, SHIFT, None, None, it.reads)


def joined(sign, one, other, binds, type_, left=None, right=None):
    text = f"{one.at(left or binds)}{sign}{other.at(right or binds + 1)}"
    return Expression(text, type_, binds, None, None, one.reads or other.reads)


def arithmetic(word, type_, one, other, constant):
    """One operation on integers; `constant` is the second operand, if that is a number."""
    width = bits(type_)
    if word == "add" and constant is not None and constant >> width - 1 and constant != 1 << width - 1:
        word, other = "sub", number((1 << width) - constant)
    if type_ == "i1" and word == "xor" and constant == 1:
        return negated(one)
    if type_ == "i1" and word in ("add", "sub", "xor"):
        return joined("^", one, other, XOR, SMALL, UNARY, UNARY)
    larger = one.type if SIZE[one.type] >= SIZE[other.type] else other.type
    if word in ("and", "or", "xor"):
        return bitwise(word, type_, one, other, larger, constant)
    if word == "lshr":
        # a shift by as many bits as the C type has, or more, isn't defined
        if constant is None or constant >= (SIZE[one.type] * 8 or 32):
            one = widened(one, type_)
        return joined(">>", one, other, SHIFT, one.type, UNARY, UNARY)
    if word in ("udiv", "urem"):
        return joined(SIGN[word], one, other, TIMES, larger, UNARY if one.binds == TIMES else TIMES, UNARY)
    wanted = kind(type_)
    if word == "shl":
        one = widened(one, type_)
        if wanted == SMALL and width > 8:
            one = cast("u32", one, 4)
        return cut(type_, joined("<<", one, other, SHIFT, one.type, UNARY, UNARY))
    if wanted != SMALL:
        if larger != wanted or (one.type != wanted and one.binds < UNARY):
            one = widened(one, type_)
    elif word == "mul" and width > 8:
        one = cast("u32", one, 4)  # the product of two ints may pass what an int holds
    return cut(type_, joined(SIGN[word], one, other, TIMES if word == "mul" else PLUS, wanted))


def bitwise(word, type_, one, other, larger, constant):
    width = bits(type_)
    if word == "xor" and width in (8, 16) and constant == (1 << width) - 1:
        return Expression(f"{constant}-{one.at(TIMES)}", SMALL, PLUS, None, None, one.reads)
    if type_ == "i1" and (one.reads or other.reads):  # calls that read have no effects
        both = word == "and"
        return joined("&&" if both else "||", one, other, BOTH if both else EITHER, SMALL, OR, OR)
    one, other = (
        Expression(f"({it.text})", it.type, PRIMARY, None, None, it.reads) if it.text[0] == "!" else it for it in (one, other)
    )
    it = joined(SIGN[word], one, other, {"and": AND, "or": OR, "xor": XOR}[word], larger, UNARY, UNARY)
    return cut(type_, it) if word == "xor" and width in (8, 16) else it


def negated(it):
    if it.opposite:
        text, binds = it.opposite
        return Expression(text, SMALL, binds, None, (it.text, it.binds), it.reads)
    return Expression("!" + it.at(UNARY), SMALL, UNARY, None, (it.text, it.binds), it.reads)


def comparison(condition, type_, one, other, constant):
    """The comparison of two numbers or addresses by a condition; `constant` is the second operand, if that is a number."""
    sign = COMPARE[condition]
    if type_ == "ptr":
        left, right = one.at(SHIFT), other.at(SHIFT)
    elif condition[0] == "s":
        width = bits(type_)
        if constant is not None and width in (8, 16, 32, 64):
            least = -1 << width - 1
            value = as_signed(constant, width)
            other = Expression(f"({least + 1}-1)" if value == least else str(value), SMALL)
        else:
            other = signed(type_, other)
        left, right = signed(type_, one).at(PLUS), other.at(PLUS)
    else:
        # C compares an int with an unsigned number as if both were unsigned, and compilers warn of that
        if one.type == SMALL and other.type != SMALL and one.binds < UNARY:
            one = cast("u32", one, 4)
        if other.type == SMALL and one.type != SMALL and other.binds < UNARY:
            other = cast("u32", other, 4)
        left, right = one.at(PLUS), other.at(PLUS)
    binds = {"==": EQUAL, "!=": EQUAL}
    opposite = OPPOSITE[sign]
    return Expression(
        f"{left}{sign}{right}",
        SMALL,
        binds.get(sign, ORDER),
        None,
        (f"{left}{opposite}{right}", binds.get(opposite, ORDER)),
        one.reads or other.reads,
    )


def choice(condition, one, other, type_):
    wanted = kind(type_)
    if wanted not in (POINTER, WHOLE, REAL):
        wanted = one.type if SIZE[one.type] >= SIZE[other.type] else other.type
    reads = condition.reads or one.reads or other.reads
    return Expression(f"{condition.at(EQUAL)}?{one.at(EITHER)}:{other.at(EITHER)}", wanted, CHOICE, None, None, reads)


def further(base, distance):
    """An address that is a number of bytes after another."""
    if not distance:
        return base
    sign = "+" if distance > 0 else "-"
    return Expression(f"{base.at(PLUS)}{sign}{abs(distance)}", POINTER, PLUS, None, None, base.reads)


def constant_of(operand):
    """The number that an operand is, or None."""
    return operand.number if isinstance(operand, Number) else None
