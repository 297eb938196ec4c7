"""Reads a line of a function in the text of an LLVM module:  "%c = add i32 %a, %b"  ->  Instruction, and the type of its value.

It stops at an instruction that it doesn't know."""

import re
from dataclasses import dataclass, field

from operands import BITS_16, BITS_64, BYTES_16, BYTES_64, NOTHING, Array, stop

ARITHMETIC = set("add sub mul and or xor shl lshr udiv urem ashr".split())
# How many bytes a step of an address has, by the type whose values it counts.
SIZES = {"i8": 1, "i16": 2, "i32": 4, "i64": 8, "ptr": 8, "i128": 16, "i1": 1}


@dataclass
class Instruction:
    """A line of a function. `word` is the operation or the condition; `to` is a second type, or `disjoint`; `number` is an alignment, a
    place or a size; `is_positive` says that a step leads further or that an operation on unsigned numbers loses no bits; `targets` says
    where control goes on."""

    name: str
    kind: str
    type: object = None
    operands: list = field(default_factory=list)
    word: str = ""
    to: object = None
    number: int = 0
    is_positive: bool = False
    targets: list = field(default_factory=list)
    arms: list = field(default_factory=list)
    types: list = field(default_factory=list)


def instruction(name, word, line):
    """What the rest of a line says, and the type of the value that it gives, if it gives one."""
    for kinds, read in READERS:
        if word in kinds:
            return read(name, word, line)
    stop(f"{word}: {line.whole}")


def read_arithmetic(name, word, line):
    is_positive = line.peek() == "nuw"
    line.skip("nuw", "nsw", "exact")
    how = line.take("disjoint")
    type_, both = line.pair()
    return Instruction(name, "arithmetic", type_, both, word, how, is_positive=is_positive), type_


def read_real(name, word, line):
    type_, both = line.pair()
    return Instruction(name, "real", type_, both, word), type_


def read_real_comparison(name, word, line):
    condition = line.next()
    type_, both = line.pair()
    return Instruction(name, "real", type_, both, condition), "i1"


def read_real_of_integer(name, word, line):
    line.take("nneg")
    type_, operand = line.typed()
    line.want("to")
    return Instruction(name, "real", type_, [operand, NOTHING], word), line.type()


def read_comparison(name, word, line):
    line.take("samesign")
    condition = line.next()
    type_, both = line.pair()
    return Instruction(name, "comparison", type_, both, condition), {BYTES_16: BITS_16, BYTES_64: BITS_64}.get(type_, "i1")


def read_cast(name, word, line):
    line.skip("nneg", "nuw", "nsw")
    type_, operand = line.typed()
    if word == "freeze":
        return Instruction(name, "same", type_, [operand]), type_
    line.want("to")
    to = line.type()
    return Instruction(name, "cast", type_, [operand], word, to), to


def read_step(name, word, line):
    is_positive = False
    while line.peek() in ("inbounds", "nuw", "nusw"):
        is_positive |= line.next() == "nuw"
    type_ = line.type()
    line.want(",", "ptr")
    base = line.operand("ptr")
    line.want(",")
    steps, count = line.typed()
    size = SIZES.get(type_) or type_.count * SIZES[type_.of]
    return Instruction(name, "step", steps, [base, count], number=size, is_positive=is_positive), "ptr"


def read_load(name, word, line):
    type_ = line.type()
    line.want(",", "ptr")
    base = line.operand("ptr")
    line.take(",")
    return Instruction(name, "load", type_, [base], number=line.attributes()), type_


def read_store(name, word, line):
    type_, stored = line.typed()
    line.want(",", "ptr")
    base = line.operand("ptr")
    line.take(",")
    return Instruction(None, "store", type_, [base, stored], number=line.attributes()), None


def read_alloca(name, word, line):
    type_, size = line.type(), 1
    while isinstance(type_, Array):
        size, type_ = size * type_.count, type_.of
    line.take(",")
    return Instruction(name, "room", word=str(line.attributes()), number=size * SIZES[type_]), "ptr"


def read_select(name, word, line):
    _, condition = line.typed()
    line.want(",")
    type_, one = line.typed()
    line.want(",")
    return Instruction(name, "choice", type_, [condition, one, line.typed()[1]]), type_


def read_branch(name, word, line):
    if line.take("label"):
        return Instruction(None, "jump", targets=[line.next()]), None
    _, condition = line.typed()
    line.want(",", "label")
    yes = line.next()
    line.want(",", "label")
    return Instruction(None, "if", operands=[condition], targets=[yes, line.next()]), None


def read_return(name, word, line):
    type_ = line.type()
    return Instruction(None, "return", type_, [] if type_ == "void" else [line.operand(type_)]), None


def read_never(name, word, line):
    return Instruction(None, "never"), None


def read_part(name, word, line):
    type_, operand = line.typed()
    line.want(",")
    place = int(line.next())
    return Instruction(name, "part", type_, [operand], number=place), type_.parts[place]


def read_byte_of_vector(name, word, line):
    """A byte of sixteen."""
    type_, operand = line.typed()
    line.want(",")
    if type_ != BYTES_16:
        stop(line.whole)
    return Instruction(name, "byte", type_, [operand], number=line.typed()[1].number), type_.of


def read_insertion(name, word, line):
    type_, whole = line.typed()
    line.want(",")
    _, part = line.typed()
    line.want(",")
    place = int(line.next()) if word == "insertvalue" else line.typed()[1].number
    return Instruction(name, "insertion", type_, [whole, part], word, number=place), type_


def read_shuffle(name, word, line):
    """Sixteen parts in a row of 64, or sixteen times the first."""
    type_, operand = line.typed()
    order = re.search(r"<16 x i32> <(i32 .*)>", line.whole)
    order = [int(place) for place in re.findall(r"i32 (\d+)", order[1])] if order else []
    if type_ == BYTES_64 and order and order[0] % 16 == 0 and order == list(range(order[0], order[0] + 16)):
        return Instruction(name, "quarter", type_, [operand], number=order[0] // 16), BYTES_16
    if "zeroinitializer" not in line.whole:
        stop(line.whole)
    return Instruction(name, "splat", type_, [operand]), type_


def read_call(name, word, line):
    line.attributes()
    type_ = line.type()
    callee = line.next()
    if callee == "(":  # the type of a function that takes any arguments
        while line.next() != ")":
            pass
        callee = line.next()
    line.want("(")
    types, operands = [], []
    while not line.take(")"):
        type_of, operand = line.typed()
        types.append(type_of)
        operands.append(operand)
        line.take(",")
    if re.match(r"@llvm\.(lifetime|assume|experimental\.noalias)", callee):
        return None, None
    return Instruction(name, "call", type_, operands, callee, types=types), type_


READERS = [
    (ARITHMETIC, read_arithmetic),
    ({"fadd", "fsub", "fmul", "fdiv"}, read_real),
    ({"fcmp"}, read_real_comparison),
    ({"uitofp"}, read_real_of_integer),
    ({"icmp"}, read_comparison),
    ({"zext", "trunc", "sext", "ptrtoint", "ptrtoaddr", "inttoptr", "bitcast", "freeze"}, read_cast),
    ({"getelementptr"}, read_step),
    ({"load"}, read_load),
    ({"store"}, read_store),
    ({"alloca"}, read_alloca),
    ({"select"}, read_select),
    ({"br"}, read_branch),
    ({"ret"}, read_return),
    ({"unreachable"}, read_never),
    ({"extractvalue"}, read_part),
    ({"extractelement"}, read_byte_of_vector),
    ({"insertvalue", "insertelement"}, read_insertion),
    ({"shufflevector"}, read_shuffle),
    ({"call"}, read_call),
]
