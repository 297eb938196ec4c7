"""Writes the tables of an LLVM module as arrays of C, and names tables and functions:

    @table = private constant [3 x i8] c"abc"  ->  static const u8 t_ba78[4]="abc";

A table is named by a sum of its bytes, so a change of one leaves the names of the others as they are. It stops at a table of a form
that it doesn't know."""

import hashlib
import re

from expressions import POINTER, UNARY, Expression, further, number
from operands import Address, bits, stop

NAME = r'@"[^"]*"|@[\w.$\-]+'
AT_DISTANCE = rf"ptr getelementptr (?:inbounds )?\(i8, ptr ({NAME}), i64 (\d+)\)"
MIXED_PART = re.compile(rf'\[(\d+) x i8\] (c"[^"]*"|zeroinitializer)|{AT_DISTANCE}|ptr ({NAME}|null)')
LONGEST_STRING = 4000
LINE = 120


class Tables:
    def __init__(self):
        self.names, self.taken, self.mixed = {}, set(), set()

    def name(self, wanted, of):
        """Gives a table or a function of the module a name of C that no other has."""
        name, count = wanted, 1
        while name in self.taken:
            count += 1
            name = f"{wanted}_{count}"
        self.taken.add(name)
        self.names[of] = name
        return name

    def table_name(self, bytes_, of):
        return self.name("t_" + hashlib.sha256(bytes_).hexdigest()[:4], of)

    def address(self, operand):
        """A number of bytes after a table's or a function's beginning."""
        it = Expression(f"(u8*){'&' if operand.of in self.mixed else ''}{self.names[operand.of]}", POINTER, UNARY)
        return further(it, operand.distance)

    def table(self, line):
        """The array that a line of the module becomes, and whether the array has addresses of other tables or of functions."""
        found = re.match(rf"({NAME}) = (?:private |internal )?(?:unnamed_addr |local_unnamed_addr )?(constant|global) (.*)$", line)
        if not found:
            stop(f"table {line[:200]}")
        name, rest = found[1], found[3].rstrip()
        const = "static const " if found[2] == "constant" else "static "
        for form, write in (
            (r"<\{ (?P<types>.*?) \}> <\{ (?P<parts>.*) \}>(?:, align \d+)?$", self.mixed_table),
            (r'\[\d+ x i8\] c"(?P<bytes>.*)"(?:, align (?P<align>\d+))?$', self.byte_table),
            (r"\[(?P<count>\d+) x i8\] zeroinitializer", self.empty_table),
            (r"\[(?P<count>\d+) x (?P<type>i\d+)\] \[(?P<numbers>(?:(?!ptrtoint).)*)\](?:, align \d+)?$", self.number_table),
        ):
            form_found = re.match(form, rest)
            if form_found:
                return write(name, const, form_found), write == self.mixed_table
        return self.address_table(name, rest), True

    def mixed_table(self, name, const, found):
        """Addresses and bytes beside each other: without gaps, as each part has a multiple of eight bytes."""
        self.mixed.add(name)
        short = self.table_name(found["parts"].replace(name, "").encode(), name)
        members, values = [], []
        for size, bytes_, target, distance, plain in MIXED_PART.findall(found["parts"]):
            place = len(members)
            if size:
                if int(size) % 8:
                    stop(f"table {name}: a part of {size} bytes")
                members.append(f"u8 m{place}[{size}];")
                values.append("{" + folded(map(str, unescaped(bytes_[2:-1]))) + "}" if bytes_[0] == "c" else "{0}")
            else:
                members.append(f"const u8*m{place};")
                of = target or plain
                values.append("0" if of == "null" else self.address(Address(of, int(distance or 0))).text)
        if len(members) != len(re.findall(r"ptr|\[\d+ x i8\]", found["types"])):
            stop(f"table {name}")
        return f"{const}struct{{{''.join(members)}}}{short}={{{','.join(values)}}};"

    def byte_table(self, name, const, found):
        data = unescaped(found["bytes"])
        short = self.table_name(data, name)
        align = "A16 " if int(found["align"] or 1) > 1 else ""
        numbers = "{" + folded(map(str, data)) + "}"
        text = string(data)
        if len(data) < LONGEST_STRING and len(text) <= len(numbers):
            return f"{const}{align}u8 {short}[{len(data) + 1}]={text};"
        return f"{const}{align}u8 {short}[{len(data)}]={numbers};"

    def empty_table(self, name, const, found):
        count = int(found["count"])
        return f"{const}A16 u8 {self.name(f't_z{count}', name)}[{max(1, count)}]={{0}};"

    def number_table(self, name, const, found):
        values = [it.split()[1] for it in found["numbers"].split(", ")]
        mask = (1 << bits(found["type"])) - 1
        text = folded(number(0 if it in ("poison", "undef") else int(it) & mask).text for it in values)
        return f"{const}u{bits(found['type'])} {self.table_name(text.encode(), name)}[{found['count']}]={{{text}}};"

    def address_table(self, name, rest):
        """Addresses, or how far they are from the table itself."""
        if "ptrtoint" in rest:
            targets = re.findall(rf"ptrtoint \(ptr ({NAME}) to i64\), i64 ptrtoint", rest)
        else:
            found = re.match(r"\[(\d+) x ptr\] \[(.*)\](?:, align \d+)?$", rest)
            targets = re.findall(rf"ptr ({NAME}|null|poison|undef)", found[2]) if found else []
            if not found or len(targets) != int(found[1]):
                stop(f"table {name}: {rest[:200]}")
        texts = [("&" if it in self.mixed else "") + self.names[it] if it[0] == "@" else "0" for it in targets]
        short = self.table_name(",".join(texts).encode(), name)
        return f"static const u8*const {short}[{len(targets)}]={{{folded(texts)}}};"


def unescaped(text):
    """The bytes of a string of the module: \\5C is a backslash."""
    out, at = bytearray(), 0
    while at < len(text):
        if text[at] != "\\":
            out.append(ord(text[at]))
            at += 1
        elif text[at + 1] == "\\":
            out.append(ord("\\"))
            at += 2
        else:
            out.append(int(text[at + 1 : at + 3], 16))
            at += 3
    return bytes(out)


def string(data):
    """A string of C, in which no digit continues an escape and no trigraph occurs."""
    out = ""
    for at, byte in enumerate(data):
        if chr(byte) in '"\\?':
            out += "\\" + chr(byte)
        elif 32 <= byte < 127:
            out += chr(byte)
        else:
            before_digit = at + 1 < len(data) and 48 <= data[at + 1] < 56
            out += f"\\{byte:03o}" if before_digit else f"\\{byte:o}"
    return f'"{out}"'


def folded(texts):
    """A list on several lines where it is long, so that a change touches few of them."""
    lines, line = [], ""
    for text in texts:
        line += text + ","
        if len(line) > LINE:
            lines.append(line)
            line = ""
    return "\n".join([*lines, line]).rstrip("\n")[:-1]
