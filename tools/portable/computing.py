"""Writes the value of one instruction as an expression of C, and a store or a call as a statement:

    %c = load i32, ptr %p, align 4  ->  r4(p)

What such a text calls is in prelude.c. It stops at an intrinsic or a cast that it doesn't know."""

import re
import struct as packed

from expressions import (
    AND, BOTH, EITHER, EQUAL, OR, PLUS, POINTER, POSTFIX, REAL, SHIFT, SIGN, SIGNED, SMALL, TIMES, UNARY, WHOLE, XOR,
    MOST_ZEROED, Expression, arithmetic, cast, choice, comparison, constant_of, cut, further, held_bits, joined, kind, negated, number, signed, widened,
)  # fmt: skip
from operands import BITS_16, BITS_64, BYTES_16, BYTES_64, Address, Cast, Nothing, Number, Parts, Real, Splat, Struct, bits, stop
from values import After, Widened

REAL_SIGNS = {"fadd": ("+", PLUS), "fsub": ("-", PLUS), "fdiv": ("/", TIMES)}
REAL_COMPARISONS = {"oeq": "==", "olt": "<", "ole": "<=", "ogt": ">", "oge": ">=", "une": "!="}
REAL_OPPOSITES = {"ugt": "<=", "uge": "<", "ult": ">=", "ule": ">"}
# Intrinsics that are a call of the prelude, whose name ends in how many bits it computes with.
BY_WIDTH = {"usub.sat", "uadd.sat", "bswap", "fshl", "fshr", "smin", "smax", "abs"}
COUNTS = {"cttz", "ctlz", "ctpop"}


class Computing:
    """The texts of a function's instructions. `pending` has the expressions of values that are used once, to be written where
    they are used."""

    def __init__(self, function, values, structs, tables):
        self.function, self.values, self.structs, self.tables = function, values, structs, tables
        self.pending = {}

    def operand(self, operand, type_):
        """The expression of an operand of this type."""
        operand = self.values.resolved(operand)
        if isinstance(operand, Number):
            return number(operand.number)
        if isinstance(operand, Real):
            return self.real_constant(operand.real)
        if isinstance(operand, Nothing):
            return Expression("0", SMALL) if isinstance(type_, str) else Expression(self.structs.zero(type_), kind(type_))
        if isinstance(operand, Address):
            return self.tables.address(operand)
        if isinstance(operand, Widened):
            of = self.values.resolved(operand.of)
            return self.operand(of, self.function.types[of.name])
        if isinstance(operand, After):
            return further(self.operand(operand.of, "ptr"), operand.distance)
        if isinstance(operand, Cast) and operand.word == "inttoptr":
            return cast("u8*", self.operand(operand.operand, operand.type), POINTER)
        if isinstance(operand, Cast):
            return cast("u64", self.operand(operand.operand, "ptr"), 8)
        if isinstance(operand, Parts) and isinstance(operand.type, Struct):
            parts = ",".join(self.operand(*part).text for part in zip(operand.operands, operand.type.parts))
            return Expression(f"({self.structs.c_type(operand.type)}){{{parts}}}", WHOLE)
        if isinstance(operand, (Parts, Splat)):
            return self.vector_constant(operand, type_)
        if operand.name in self.pending:
            return self.pending.pop(operand.name)
        return Expression(self.values.c_name(operand.name), kind(self.function.types[operand.name]))

    def vector_constant(self, operand, type_):
        self.structs.used.add("v16")
        if isinstance(operand, Splat):
            repeated = "v64_splat" if type_ == BYTES_64 else "splat"
            return Expression(f"{repeated}({self.operand(operand.operand, operand.type).text})", WHOLE)
        return Expression("(v16){{" + ",".join(self.operand(part, "i8").text for part in operand.operands) + "}}", WHOLE)

    def real_constant(self, real):
        self.structs.used.add("double")
        if abs(real) < 1e300:
            return Expression(repr(real), REAL, UNARY if real < 0 else 16)
        return Expression(f"bits_double(0x{packed.pack('>d', real).hex()}u)", REAL)

    def expression(self, it):
        """The expression of an instruction that gives a value and writes nothing."""
        return getattr(self, f"{it.kind}_value")(it)

    def arithmetic_value(self, it):
        one, other = (self.operand(operand, it.type) for operand in it.operands)
        reads = one.reads or other.reads
        if it.type == BYTES_16:
            self.structs.used.add("v16")
            return Expression(f"v16_{it.word}({one.text},{other.text})", WHOLE, reads=reads)
        if it.type == BITS_64:
            return Expression(f"v64_{it.word}({one.text},{other.text})", WHOLE, reads=reads)
        if not isinstance(it.type, str):
            return Expression(f"{one.at(UNARY)}{SIGN[it.word]}{other.at(UNARY)}", SMALL, OR, reads=reads)
        if it.word == "ashr":
            shifted = Expression(f"{signed(it.type, one).at(UNARY)}>>{other.at(UNARY)}", SIGNED, SHIFT, reads=reads)
            small = bits(it.type) in (8, 16)
            return cut(it.type, shifted) if small else cast(self.structs.c_type(it.type), shifted, kind(it.type))
        return arithmetic(it.word, it.type, one, other, constant_of(self.values.resolved(it.operands[1])))

    def real_value(self, it):
        """Doubles are rounded after each operation, so a product is a call, which no compiler makes part of a sum."""
        self.structs.used.add("double")
        one = self.operand(it.operands[0], it.type)
        if it.word == "uitofp":
            return Expression(f"(double){one.at(UNARY)}", REAL, UNARY, reads=one.reads)
        other = self.operand(it.operands[1], it.type)
        reads = one.reads or other.reads
        if it.word == "fmul":
            return Expression(f"product({one.text},{other.text})", REAL, POSTFIX, reads=reads)
        if it.word in REAL_SIGNS:
            sign, binds = REAL_SIGNS[it.word]
            return Expression(f"{one.at(UNARY)}{sign}{other.at(UNARY)}", REAL, binds, reads=reads)
        if it.word in REAL_OPPOSITES:
            return Expression(f"!({one.at(PLUS)}{REAL_OPPOSITES[it.word]}{other.at(PLUS)})", SMALL, UNARY, reads=reads)
        if it.word not in REAL_COMPARISONS:
            stop(f"fcmp {it.word}")
        return Expression(f"{one.at(PLUS)}{REAL_COMPARISONS[it.word]}{other.at(PLUS)}", SMALL, EQUAL, reads=reads)

    def comparison_value(self, it):
        one, other = (self.operand(operand, it.type) for operand in it.operands)
        against = self.values.resolved(it.operands[1])
        if it.type == BYTES_16 and it.word == "slt" and isinstance(against, Nothing):
            return Expression(f"v16_top({one.text})", SMALL, reads=one.reads)
        if it.type in (BYTES_16, BYTES_64):
            self.structs.used.add("v16")
            text = f"v{it.type.count}_{it.word}({one.text},{other.text})"
            return Expression(text, SMALL if it.type == BYTES_16 else WHOLE, reads=one.reads or other.reads)
        return comparison(it.word, it.type, one, other, constant_of(against))

    def cast_value(self, it):
        one = self.operand(it.operands[0], it.type)
        if it.word == "zext" or (it.type, it.to) in ((BITS_16, "i16"), (BITS_64, BYTES_64)):
            return one
        if it.word == "trunc":
            return self.truncated(one, it.to)
        if it.word == "sext":
            return self.extended(one, it.type, it.to)
        if it.word in ("ptrtoint", "ptrtoaddr"):
            whole = cast("u64", one, 8)
            return whole if it.to == "i64" else cast(self.structs.c_type(it.to), whole, kind(it.to))
        if it.word == "inttoptr":
            return cast("u8*", one if one.type == 8 else cast("u64", one, 8), POINTER)
        stop(f"cast {it}")

    def truncated(self, one, to):
        width = bits(to)
        if width in (8, 16):
            return Expression(f"(u{width}){one.at(UNARY)}", SMALL, UNARY, one.stored(), None, one.reads)
        if width in (32, 64):
            return Expression(f"(u{width}){one.at(UNARY)}", width // 8, UNARY, one.stored(), None, one.reads)
        some = Expression(f"{one.at(UNARY)}&{number((1 << width) - 1).text}", one.type, AND, reads=one.reads)
        return some if one.type == kind(to) else cast(self.structs.c_type(to), some, kind(to))

    def extended(self, one, type_, to):
        """A signed number as one of a wider type."""
        c_type, width = self.structs.c_type(to), bits(to)
        if type_ == "i1":
            it = Expression(f"0-({c_type}){one.at(UNARY)}", kind(to), PLUS, reads=one.reads)
            whole = width in (64, 128)
        else:
            it = Expression(f"({c_type})(i64){signed(type_, one).at(UNARY)}", kind(to), UNARY, reads=one.reads)
            whole = width in (32, 64, 128)
        return it if whole else cast(c_type, it, kind(to)) if width in (8, 16) else cut(to, it)

    def same_value(self, it):
        return self.operand(it.operands[0], it.type)

    def step_value(self, it):
        """An address that is a number of steps after another."""
        base, count = self.operand(it.operands[0], "ptr"), self.operand(it.operands[1], it.type)
        if count.binds < UNARY and count.type != kind(it.type):
            count = widened(count, it.type)
        if not it.is_positive:
            count = signed(it.type, count)
        reads = base.reads or count.reads
        if it.number != 1:
            if count.type in (SMALL, 4):
                count = cast("u64", count, 8)
            count = Expression(f"{count.at(TIMES)}*{it.number}", count.type, TIMES)
        return Expression(f"{base.at(PLUS)}+{count.at(TIMES)}", POINTER, PLUS, reads=reads)

    def choice_value(self, it):
        condition = self.operand(it.operands[0], "i1")
        one, other = (self.operand(operand, it.type) for operand in it.operands[1:])
        raw, raw_other = (self.values.resolved(operand) for operand in it.operands[1:])
        if it.type == "i1" and (constant_of(raw_other) == 0 or isinstance(raw_other, Nothing)):
            return joined("&&", condition, one, BOTH, SMALL, OR, OR)
        if it.type == "i1" and constant_of(raw) == 1:
            return joined("||", condition, other, EITHER, SMALL, OR, OR)
        if isinstance(it.type, str):  # what has no value may be any
            if isinstance(raw, Nothing) and not isinstance(raw_other, Nothing):
                return other
            if isinstance(raw_other, Nothing):
                return one
        return choice(condition, one, other, it.type)

    def part_value(self, it):
        one = self.operand(it.operands[0], it.type)
        return Expression(f"{one.at(POSTFIX)}.f{it.number}", kind(it.type.parts[it.number]), POSTFIX, reads=one.reads)

    def byte_value(self, it):
        one = self.operand(it.operands[0], it.type)
        return Expression(f"{one.at(POSTFIX)}.b[{it.number}]", kind(it.type.of), POSTFIX, reads=one.reads)

    def quarter_value(self, it):
        one = self.operand(it.operands[0], it.type)
        return Expression(f"{one.at(POSTFIX)}.p[{it.number}]", WHOLE, POSTFIX, reads=one.reads)

    def splat_value(self, it):
        self.structs.used.add("v16")
        one = self.operand(it.operands[0], it.type)
        return Expression(f"splat({one.at(POSTFIX)}.b[0])", WHOLE, reads=one.reads)

    def byte(self, operand):
        """The byte at an address, as a text that can be read and set, and how tightly this text binds."""
        base, distance = (self.operand(operand.of, "ptr"), operand.distance) if isinstance(operand, After) else (self.operand(operand, "ptr"), 0)
        if base.binds < POSTFIX:
            return f"*{further(base, distance).at(UNARY)}", UNARY
        return (f"{base.text}[{distance}]", POSTFIX) if distance else (f"*{base.text}", UNARY)

    def access(self, type_, align, aligned, any_):
        """The call that reads or writes a value of this type: at an address that is a multiple of the value's size, or at any address."""
        if type_ == "ptr":
            return (aligned if align >= 8 else any_) + "p"
        width = bits(type_)
        if width in (16, 32, 64, 128):
            return (aligned if align * 8 >= width else any_) + str(width // 8)
        size = (width + 7) // 8
        self.structs.used.update((f"q{size}", f"x{size}"))
        return f"{any_}{size}"

    def is_byte(self, type_):
        return isinstance(type_, str) and type_[0] == "i" and bits(type_) <= 8

    def load_value(self, it):
        operand = self.values.resolved(it.operands[0])
        if self.is_byte(it.type):
            text, binds = self.byte(operand)
            return Expression(text, SMALL, binds, reads=True)
        address = self.operand(operand, "ptr").text
        if it.type in (BYTES_16, BYTES_64):
            self.structs.used.add("v16")
            return Expression(f"v{it.type.count}_at({address})", WHOLE, reads=True)
        if it.type == "double":
            self.structs.used.add("double")
            return Expression(f"rd({address})", REAL, POSTFIX, reads=True)
        return Expression(f"{self.access(it.type, it.number, 'r', 'q')}({address})", kind(it.type), POSTFIX, reads=True)

    def store(self, it):
        stored = self.operand(it.operands[1], it.type)
        operand = self.values.resolved(it.operands[0])
        if self.is_byte(it.type):
            return f"{self.byte(operand)[0]}={stored.stored()};"
        address = self.operand(operand, "ptr").text
        if it.type == BYTES_16:
            self.structs.used.add("v16")
            return f"v16_to({address},{stored.text});"
        if it.type == "double":
            self.structs.used.add("double")
            return f"wd({address},{stored.text});"
        return f"{self.access(it.type, it.number, 'w', 'x')}({address},{stored.stored()});"

    def is_zeroing(self, it):
        """Whether a memset makes a known number of bytes 0, and so few that it isn't worth a call."""
        byte, size = it.operands[1:3]
        return byte == Number(0) and isinstance(size, Number) and 0 < size.number <= MOST_ZEROED

    def call(self, it):
        """The statement of a call that may write, or the expression of one that only computes."""
        operands = [self.operand(*one) for one in zip(it.operands, it.types)]
        if not it.word.startswith("@llvm."):
            return f"{self.tables.names[it.word]}({','.join(operand.stored() for operand in operands)})", None
        found = re.match(r"@llvm\.([\w.]+?)\.(?:p0.*|i\d+)$", it.word)
        word = found[1] if found else it.word[len("@llvm.") :]
        texts = [operand.text for operand in operands]
        reads = any(operand.reads for operand in operands)
        if word == "memset" and self.is_zeroing(it):
            return self.structs.zeroing(texts[0], it.operands[2].number), None
        if word == "memset" and it.operands[1] == Number(0) and isinstance(it.operands[2], Number):
            return f"zero_all({texts[0]},{texts[2]})", None
        if word in ("memset", "memcpy", "memmove"):
            return f"{word}({','.join(texts[:3])})", None
        if word == "trap":
            return "NEVER", None
        if word == "arithmetic.fence.f64":
            return None, operands[0]
        if word == "load.relative":
            table = self.tables.names[self.values.resolved(it.operands[0]).of]
            return None, Expression(f"(u8*){table}[{texts[1]}/4]", POINTER, UNARY, reads=reads)
        if word in COUNTS:
            more = "" if word == "ctpop" else f",{bits(it.type)}"
            return None, Expression(f"{word}({texts[0]}{more})", SMALL, POSTFIX, reads=reads)
        if word in ("umin", "umax"):
            return None, Expression(f"{word}{held_bits(it.type)}({','.join(texts)})", kind(it.type), POSTFIX, reads=reads)
        if word in BY_WIDTH and bits(it.type) in (8, 16, 32, 64, 128):
            texts = texts[:1] if word == "abs" else texts
            return None, Expression(f"{word[:-4] if '.' in word else word}{bits(it.type)}({','.join(texts)})", kind(it.type), POSTFIX, reads=reads)
        stop(f"intrinsic {it.word}")
