#!/usr/bin/env python3
"""Reads what `demangle --json` writes by Python's reader of JSON and by jq, and names what comes out wrong.

    tests/json_lines.py DEMANGLE [--seed N] [--count N]

The names are of every mangling and of none; some need escapes or replacements in a string of JSON, and some have bytes changed at random.
They are given as arguments and in
a text. Each line has to be UTF-8 without control characters, and has to be one object for both readers; jq is left out where it isn't
installed. What the object of a name says is compared with what the program says of the name without `--json`. Each part has to be a stretch
of its text; the parts are in the order of their starts, and any two are apart, or one is within the other. The status is 1 where something
comes out wrong, 2 where the program can't be run."""

import argparse
import json
import random
import re
import shutil
import subprocess
import sys
import tempfile

ITANIUM = {"language": "c++", "mangling": "itanium"}
V0 = {"language": "rust", "mangling": "rust-v0"}
LEGACY = {"language": "rust", "mangling": "rust-legacy"}
LEGACY_NAME = b"_ZN4demo4main17h0123456789abcdefE"
CPP_LEGACY = "demo::main::h0123456789abcdef"
LONG = b"_Z" + b"9" * 65_535


def text(words, mangling, kind=None, parts=""):
    """What an object says of a text; a part is its role, start, length and the bytes that spell it, as `base:0+1@2-4`."""
    if kind is None:
        return {"text": words, **mangling}
    listed = [re.fullmatch(r"(\w+):(\d+)\+(\d+)@(\d+)-(\d+)", part).groups() for part in parts.split()]
    numbers = ("start", "length", "from", "to")
    return {"text": words, **mangling, "kind": kind, "parts": [{"role": role, **dict(zip(numbers, map(int, these)))} for role, *these in listed]}


def error(reason, at=None):
    return {"error": reason} if at is None else {"error": reason, "at": at}


F = "base:0+1@2-4 parameters:1+2@4-5"
FOO_BAR = "scope:0+3@4-9 crate:0+3@4-9 base:5+3@9-13"
DEMO_MAIN = "scope:0+4@3-8 crate:0+4@3-8 base:6+4@8-13"
LITERAL = "base:0+13@2-7 parameters:13+13@7-10 parameter:14+11@7-10"

# options, names, and what the object of each name has to say in addition to the name
NAMES = [
    ([], b"_Z1fv", text("f()", ITANIUM, "function", F)),
    ([], b"__Z1fv", text("f()", ITANIUM, "function", "base:0+1@3-5 parameters:1+2@5-6")),
    ([], b"_RNvC3foo3bar", text("foo::bar", V0, "value", FOO_BAR)),
    ([], b"__RNvC3foo3bar", text("foo::bar", V0, "value", "scope:0+3@5-10 crate:0+3@5-10 base:5+3@10-14")),
    ([], b"_RINvC3foo3barRL_hE", text("foo::bar::<&u8>", V0, "value", "scope:0+3@5-10 crate:0+3@5-10 base:5+3@10-14 generic_arguments:10+5@14-18 generic_argument:11+3@14-18")),
    ([], b"_RNvXC3fooNtC3foo1ANtC3foo1B3baz", text("<foo::A as foo::B>::baz", V0, "value", "scope:0+18@4-28 impl:0+18@4-28 self_type:1+6@10-19 trait:11+6@19-28 base:20+3@28-32")),
    ([], LEGACY_NAME, text("demo::main", LEGACY, "value", DEMO_MAIN + " hash:10+0@13-32")),
    ([], LEGACY_NAME + b".llvm.123", text("demo::main (.llvm.123)", LEGACY, "value", DEMO_MAIN + " suffix:12+9@33-42 hash:22+0@13-32")),
    (["-s", "gnu-v3"], LEGACY_NAME, text(CPP_LEGACY, ITANIUM, "variable", "scope:0+10@3-13 base:12+17@13-32")),
    (["-s", "rust"], LEGACY_NAME, text("demo::main", LEGACY, "value", DEMO_MAIN + " hash:10+0@13-32")),
    (["-s", "rust"], b"_Z1fv", error("malformed", 0)),
    ([], b"_Zli2_sPKc", text('operator"" _s(char const*)', ITANIUM, "literal_operator", LITERAL)),
    (["--escape"], b"_Zli2_sPKc", text('operator"" _s(char const*)', ITANIUM, "literal_operator", LITERAL)),
    (["--color=always"], b"_Z1fv", text("f()", ITANIUM, "function", F)),
    ([], "_Z7größei".encode(), text("größe(int)", ITANIUM, "function", "base:0+7@2-10 parameters:7+5@10-11 parameter:8+3@10-11")),
    (["--no-params"], b"_ZNK1A1fEv", text("A::f", ITANIUM, "function", "scope:0+1@4-6 base:3+1@6-8")),
    (["--brief"], b"_ZN1A1fIiEEvT_", text("void A::f(int)", ITANIUM, "function", "return_type:0+4@11-12 scope:5+1@3-5 base:8+1@5-7 parameters:9+5@12-14 parameter:10+3@12-14")),
    ([], b"_ZN1A1fIiEEvT_", text("void A::f<int>(int)", ITANIUM, "function", "return_type:0+4@11-12 scope:5+1@3-5 base:8+1@5-7 generic_arguments:9+5@7-10 generic_argument:10+3@8-9 parameters:14+5@12-14 parameter:15+3@12-14")),
    ([], b"_ZTV1A", text("vtable for A", ITANIUM, "vtable", "special:0+10@2-4 object:11+1@4-6")),
    (["--short"], b"_Z1fv", text("f()", ITANIUM)),
    (["--spelling=gnu"], b"_Z1fv", text("f()", ITANIUM)),
    (["--types"], b"PKc", text("char const*", ITANIUM)),
    (["--types"], b"_Z1fv", text("f()", ITANIUM, "function", F)),
    ([], b"PKc", error("not-a-symbol")),
    ([], b"_Z1fY", error("malformed", 4)),
    ([], b"__RNvC3fo", error("malformed", 8)),
    ([], b"_Z1fT_", error("bad-reference", 4)),
    (["--limit=5"], b"_Z1fv", error("too-long")),
    ([], b"foo", error("not-a-symbol")),
    ([], b'"', error("not-a-symbol")),
    ([], b"\\", error("not-a-symbol")),
    ([], b'{"symbol":"x"}', error("not-a-symbol")),
    ([], b"a _Z1fv", error("not-a-symbol")),
    ([], b"_Z1fv\n", error("malformed", 5)),
    ([], b"\x01\x1b\x7f\t\r\n", error("not-a-symbol")),
    ([], b"\xff\xfe", error("not-a-symbol")),
    ([], b"_Z1\xff", text("\ufffd", ITANIUM, "variable", "base:0+1@2-4")),
    ([], b"_Z1fv\xff", error("malformed", 5)),
    ([], b"\xe2\x82", error("not-a-symbol")),
    ([], b"\xed\xa0\x80", error("not-a-symbol")),
    ([], "\u2028\U0001f600".encode(), error("not-a-symbol")),
    ([], LONG, error("not-a-symbol")),
]

# a text, and the lines, names and words of its objects
TEXT = b"""a _Z1fv _Z1fY\n{"at":"_Zli2_sPKc"}\xff\n\n\xe2\x80\x98_Z1fv\xe2\x80\x99 .text._ZN1A1fEv. \x1b[31m_RNvC3foo3bar\x1b[0m\x00_ZL5caf\xc3\xa9\nno name _Z\xff"""
OBJECTS = [
    (1, "_Z1fv", text("f()", ITANIUM, "function", F)),
    (1, "_Z1fY", error("malformed", 4)),
    (2, "_Zli2_sPKc", text('operator"" _s(char const*)', ITANIUM, "literal_operator", LITERAL)),
    (4, "_Z1fv", text("f()", ITANIUM, "function", F)),
    (4, "_ZN1A1fEv", text("A::f()", ITANIUM, "function", "scope:0+1@3-5 base:3+1@5-7 parameters:4+2@8-9")),
    (4, "_RNvC3foo3bar", text("foo::bar", V0, "value", FOO_BAR)),
    (4, "_ZL5café", text("café", ITANIUM, "variable", "base:0+5@2-9")),
    (5, "_Z\ufffd", error("malformed", 2)),
]

OTHER_BYTES = re.compile(rb"[^A-Za-z0-9_.$\x80-\xff]")
REASONS = {"malformed": "malformed at %d", "bad-reference": "bad reference at %d", "bad-value": "bad value at %d", "too-long": "too long", "not-a-symbol": "not a symbol"}


def shown(name):
    """A name's bytes as a string of JSON has them."""
    return name.decode("utf-8", "replace")


def quoted(name):
    """A name as a file of arguments has it."""
    return b"'" + name.replace(b"\\", b"\\\\").replace(b"'", b"\\'") + b"'"


class Checks:
    def __init__(self, program):
        self.program = program
        self.jq = shutil.which("jq")
        self.wrong = []
        self.count = 0

    def require(self, holds, what):
        self.count += 1
        if not holds:
            self.wrong.append(what)

    def run(self, words, data=b""):
        done = subprocess.run([self.program, *words], input=data, capture_output=True, timeout=120)
        return done.stdout, done.stderr, done.returncode

    def with_names(self, options, names):
        """Runs the program over any names, by a file of arguments."""
        with tempfile.NamedTemporaryFile() as file:
            file.write(b"\n".join(quoted(name) for name in names))
            file.flush()
            return self.run([*options, "--", "@" + file.name])

    def objects(self, out):
        """The objects of an output, by both readers."""
        lines = out.split(b"\n")
        self.require(lines.pop() == b"", "the last line has no newline: %r" % out[-80:])
        objects = []
        for line in lines:
            try:
                self.require(re.search(rb"[\x00-\x1f]", line) is None, "a control character: %r" % line[:200])
                objects.append(json.loads(line.decode("utf-8")))
                self.require(isinstance(objects[-1], dict), "no object: %r" % line[:200])
            except ValueError as fault:
                self.require(False, "%s: %r" % (fault, line[:200]))
                objects.append({})
        if self.jq:
            read = subprocess.run([self.jq, "-c", "."], input=out, capture_output=True, timeout=120)
            self.require(read.returncode == 0, "jq: %r" % read.stderr[:200])
            by_jq = [json.loads(line) for line in read.stdout.split(b"\n")[:-1]]
            self.require(by_jq == objects, "jq reads other objects")
        return objects

    def check_name(self, options, name, wanted):
        out, err, status = self.with_names(["--json", *options], [name])
        wanted = {"symbol": shown(name), **wanted}
        self.require((self.objects(out), err, status) == ([wanted], b"", 0), "%r: %r, %r, %d" % (name[:80], out[:300], err[:80], status))
        out, err, status = self.with_names(["--json", "--strict", *options], [name])
        self.require(status == ("error" in wanted), "%r: status %d with --strict" % (name[:80], status))

    def check_text(self, options, text_, wanted):
        out, err, status = self.run(["--json", *options], text_)
        self.require((self.objects(out), err, status) == (wanted, b"", 0), "%r: %r, %r, %d" % (text_[:80], out[:300], err[:80], status))

    def check_any(self, names):
        """Names of any bytes: each has the text, or the reason, that the program prints without `--json`."""
        out, err, status = self.with_names(["--json"], names)
        objects = self.objects(out)
        self.require((len(objects), err, status) == (len(names), b"", 0), "%d objects for %d names" % (len(objects), len(names)))
        for name, found in zip(names, objects):
            self.require(found.get("symbol") == shown(name), "%r: %r" % (name, found))
            said = found.get("text")
            self.check_details(found)
            if said is not None:
                # without `--json` a name is a line of text, and a symbol in it ends at a byte that no word has
                out, _, _ = self.with_names([], [name])
                self.require(OTHER_BYTES.search(name) or shown(out) == said + "\n", "%r: %r, not %r" % (name, said, out))
            elif found.get("error") not in REASONS:
                self.require(False, "%r: neither a text nor a reason: %r" % (name, found))
            elif found["error"] != "not-a-symbol" and b"\n" not in name:
                reason = REASONS[found["error"]]
                reason = reason % found["at"] if "at" in found else reason
                _, err, _ = self.with_names(["--why"], [name])
                self.require(err in (b"", b"demangle: " + name + b": " + reason.encode() + b"\n"), "%r: %r, not %r" % (name, reason, err))

    def check_details(self, found):
        """A name's object has details exactly where it has a text, and the parts are in order within it."""
        self.require(("kind" in found, "parts" in found) == ("text" in found, "text" in found), "no details: %r" % found)
        size = len(found.get("text", "").encode())
        spelled = len(found["symbol"].encode())
        before = []
        for part in found.get("parts", []):
            start, end = part["start"], part["start"] + part["length"]
            # a byte that isn't UTF-8 becomes three bytes in the string
            self.require(0 <= start <= end <= size, "no stretch: %r" % found)
            self.require(0 <= part["from"] <= part["to"] <= spelled, "no bytes of the name: %r" % found)
            self.require(all(other <= start and (end <= last or last <= start) for other, last in before), "out of order: %r" % found)
            before.append((start, end))

    def check_any_text(self, text_):
        """A text of any bytes: there are as many objects as words that `--why` counts, and each line that `--why` names is the line of an object
        with an error."""
        out, _, _ = self.run(["--json"], text_)
        objects = self.objects(out)
        for found in objects:
            self.check_details(found)
        _, err, _ = self.run(["--why"], text_)
        counted = re.search(rb"demangle: (\d+) of (\d+) symbols stay\n\Z", err)
        self.require(counted is not None and len(objects) == int(counted[2]), "%d objects: %r" % (len(objects), err[-80:]))
        left = [int(line) for line in re.findall(rb"^demangle: line (\d+): ", err, re.M)]
        without_text = [found.get("line") for found in objects if "error" in found]
        self.require(all(line in without_text for line in left), "lines %r, not %r" % (without_text, left))


def mutated(pick, name):
    """A name with some bytes changed, put in or left out."""
    name = bytearray(name)
    for _ in range(pick.randrange(4)):
        at = pick.randrange(len(name) + 1)
        name[at : at + pick.randrange(2)] = bytes([pick.choice([pick.randrange(256), 34, 92, 0, 10, 31, 127, 128, 237, 255])]) * pick.randrange(2)
    return bytes(name) or b"_Z"


def main():
    parser = argparse.ArgumentParser()
    parser.add_argument("demangle")
    parser.add_argument("--seed", type=int, default=1)
    parser.add_argument("--count", type=int, default=300)
    asked = parser.parse_args()
    checks = Checks(asked.demangle)
    try:
        checks.run(["--version"])
    except OSError as fault:
        sys.exit("%s: %s" % (asked.demangle, fault.strerror))
    for options, name, wanted in NAMES:
        checks.check_name(options, name, wanted)
    checks.check_text([], TEXT, [{"line": line, "symbol": symbol, **wanted} for line, symbol, wanted in OBJECTS])
    checks.check_text([], b"no name, and no newline", [])
    checks.check_text(["--why"], b"_Z1fY\n", [{"line": 1, "symbol": "_Z1fY", **error("malformed", 4)}])
    pick = random.Random(asked.seed)
    names = [name for _, name, _ in NAMES if len(name) < 100]
    checks.check_any([mutated(pick, pick.choice(names)) for _ in range(asked.count)])
    for _ in range(asked.count // 10):
        ends = [b" ", b"\n", b"\x00", b"\"", b"\xff", b".", b"\\n", "’".encode()]
        checks.check_any_text(b"".join(mutated(pick, pick.choice(names)) + pick.choice(ends) for _ in range(50)))
    for what in checks.wrong[:20]:
        print(what)
    if not checks.jq:
        print("left out: no jq, so only Python's reader was asked")
    print("%d checks, %d come out otherwise" % (checks.count, len(checks.wrong)))
    return 1 if checks.wrong else 0


if __name__ == "__main__":
    sys.exit(main())
