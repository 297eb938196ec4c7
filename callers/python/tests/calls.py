"""Tests of what the package answers: python3 calls.py [older], run where the package is installed; older: over tests/callers/older.c"""

import doctest
import io
import random
import subprocess
import sys
import time
import tracemalloc
import unittest
from unittest import mock

import symdemangle
from symdemangle import Counts, Refused, Tally, cxxfilt

OLDER = sys.argv[1:2] == ["older"]

# Texts of words within runs, with what the filter makes of them.
WITHIN = {
    ".text._ZN1A1fEv": ".text.A::f()",
    "‘_Z1fv’": "‘f()’",
    "_Z7größei": "größe(int)",
    "__imp__Z1fv _GLOBAL__sub_I__Z1fv": "__imp_f() _GLOBAL__sub_I_f()",
    "self._Zoom": "self._Zoom",
}


class Slow(io.RawIOBase):
    """A source that gives a few bytes at a time."""

    def __init__(self, given, step):
        self.given, self.step = given, step

    def read(self, size=-1):
        piece, self.given = self.given[: self.step], self.given[self.step :]
        return piece


class Nothing(io.RawIOBase):
    """A sink that counts."""

    written = 0

    def writable(self):
        return True

    def write(self, text):
        self.written += len(text)


def streamed(text, step, **options):
    sink = io.BytesIO()
    tally = symdemangle.filter_stream(Slow(text, step), sink, **options)
    return sink.getvalue(), tally


class Calls(unittest.TestCase):
    def refused(self, name, status, offset, **options):
        with self.assertRaises(Refused) as told:
            symdemangle.try_demangle(name, **options)
        self.assertEqual((told.exception.status, told.exception.offset), (status, offset))

    def test_texts(self):
        self.assertEqual(symdemangle.demangle("_ZN3foo3barEPKc"), "foo::bar(char const*)")
        self.assertEqual(symdemangle.demangle(b"_RNvC3foo3bar"), "foo::bar")
        self.assertEqual(symdemangle.demangle("__Z1fv"), "f()")
        self.assertEqual(symdemangle.demangle("main"), "main")
        older = "_ZN13_$LT$test$GT$17h0123456789abcdefE"
        self.assertEqual(symdemangle.demangle(older), "<test>")
        self.assertEqual(symdemangle.demangle(older, legacy=False), "_$LT$test$GT$::h0123456789abcdef")
        self.assertEqual(symdemangle.demangle(b"main\xff"), "main\udcff")
        self.assertEqual(symdemangle.demangle("_Z2üv"), "ü()")
        self.assertEqual(symdemangle.demangle("_RNvC3foo5000" + "a" * 5000), "foo::" + "a" * 5000)

    def test_options(self):
        name = "_ZN1AC5IiEET_"
        self.assertEqual(symdemangle.demangle(name), "A::A<int>(int)")
        self.assertEqual(symdemangle.demangle(name, brief=True), "A::A(int)")
        self.assertEqual(symdemangle.demangle(name, brief=True, no_parameters=True), "A::A")
        self.assertEqual(symdemangle.demangle(name, wide=False), name)
        self.assertEqual(symdemangle.demangle(name, limit=3), name)
        with self.assertRaises(TypeError):
            symdemangle.demangle(name, briefly=True)

    def test_limits(self):
        for limit in (-1, 2**32, 2**32 + 3, 2**64):
            for call in (symdemangle.demangle, symdemangle.filter_text, symdemangle.try_demangle):
                with self.assertRaisesRegex(ValueError, rf"^limit: {limit} isn't from 0 to 4294967295$"):
                    call("_Z1fv", limit=limit)
            with self.assertRaises(ValueError):
                symdemangle.demangle_all(["_Z1fv"], limit=limit)
        for limit in (None, 2.5, "9"):
            with self.assertRaisesRegex(TypeError, "^limit: a whole number is needed, not "):
                symdemangle.demangle("_Z1fv", limit=limit)
        self.assertEqual(symdemangle.demangle("_Z1fv", limit=2**32 - 1), "f()")
        self.assertEqual(symdemangle.demangle("_Z1fv", limit=0), "_Z1fv")

    def test_names_from_outside(self):
        # A<int, int>, A<that, that> and so on, which doubles 36 times
        name = "_Z1f1AIiiE" + "".join(f"S_IS{digit}_S{digit}_E" for digit in "0123456789ABCDEFGHIJKLMNOPQRSTUVWXYZ")
        self.refused(name, 4, 0, limit=25_000)
        self.refused(name, 4, 0)
        self.assertEqual(symdemangle.demangle_all([name, "_Z1fv"], limit=25_000), [name, "f()"])
        self.assertEqual(symdemangle.filter_text(f"{name} _Z1fv", limit=25_000), f"{name} f()")

    def test_arguments(self):
        for call in (symdemangle.demangle, symdemangle.try_demangle, symdemangle.press, symdemangle.counts):
            with self.assertRaisesRegex(TypeError, "^name: str or bytes is needed, not NoneType$"):
                call(None)
        with self.assertRaisesRegex(TypeError, "^names: str or bytes is needed, not int$"):
            symdemangle.demangle_all(["_Z1fv", 5])
        with self.assertRaisesRegex(TypeError, "^text: str or bytes is needed, not NoneType$"):
            symdemangle.filter_text(None)
        with self.assertRaisesRegex(TypeError, "^text: bytes is needed, not str$"):
            symdemangle.filter_bytes("_Z1fv")

    def test_odd_strings(self):
        for odd in ("\ud800", "_Z1f\ud800", "_Z1f\udfffv"):
            self.assertEqual(symdemangle.demangle(odd), odd)
            self.assertEqual(symdemangle.demangle_all(["_Z1fv", odd, "_Z1gv"]), ["f()", odd, "g()"])
            with self.assertRaises(Refused):
                symdemangle.try_demangle(odd)
        self.assertEqual(symdemangle.filter_text("a \ud800 _Z1fv\ud800\udfff"), "a \ud800 f()\ud800\udfff")
        self.assertEqual(symdemangle.filter_text("\ud800"), "\ud800")
        self.assertEqual(symdemangle.filter_text("_Z1fv \udcff"), "f() \udcff")
        for kind in (bytearray, memoryview):
            self.assertEqual(symdemangle.demangle(kind(b"_Z1fv")), "f()")
            self.assertEqual(symdemangle.demangle(kind(b"main")), "main")
            self.assertEqual(symdemangle.demangle_all([kind(b"_Z1fv"), kind(b"main")]), ["f()", "main"])
            self.assertEqual(symdemangle.filter_bytes(kind(b"at _Z1fv")), b"at f()")

    @unittest.skipIf(OLDER, "the library reads no types")
    def test_short(self):
        name = "_Z1fNSt3__16vectorIiNS_9allocatorIiEEEE"
        self.assertEqual(symdemangle.demangle(name, short=True), "f(std::vector<int>)")
        self.assertEqual(symdemangle.demangle(name, short=True, keep_inline=True), "f(std::__1::vector<int>)")
        self.assertEqual(symdemangle.demangle(name, keep_inline=True), symdemangle.demangle(name))
        self.assertEqual(symdemangle.demangle_all([name] * 2, short=True), ["f(std::vector<int>)"] * 2)
        self.assertEqual(symdemangle.filter_text(f"at {name}", short=True), "at f(std::vector<int>)")

    @unittest.skipIf(OLDER, "the library reads no types")
    def test_types(self):
        self.assertEqual(symdemangle.demangle("PKc", types=True), "char const*")
        self.assertEqual(symdemangle.demangle("PKc"), "PKc")
        self.assertEqual(symdemangle.demangle("_Z1fv", types=True), "f()")
        self.assertEqual(symdemangle.demangle_all(["PKc", "_Z1fv", "?"], types=True), ["char const*", "f()", "?"])
        self.assertEqual(symdemangle.filter_text("i PKc _Z1fv", types=True), "i PKc f()")

    def test_cxxfilt(self):
        self.assertEqual(cxxfilt.demangle("_ZNSt22condition_variable_anyD2Ev"), "std::condition_variable_any::~condition_variable_any()")
        self.assertEqual(cxxfilt.demangle("main"), "main")
        self.assertEqual(cxxfilt.demangleb(b"_Z2f\xffv"), b"f\xff()")
        with self.assertRaises(cxxfilt.InvalidName):
            cxxfilt.demangle("_Z1fY")
        with self.assertRaises(cxxfilt.InvalidName):
            cxxfilt.demangle("?", external_only=False)
        if not OLDER:
            self.assertEqual(cxxfilt.demangle("PKc", external_only=False), "char const*")

    def test_refusals(self):
        self.refused("_Z1fY", 1, 4)
        self.refused("_Z1fS_", 2, 4)
        self.refused("_Z1fv", 4, 0, limit=5)
        self.refused("main", 11, 0)
        self.refused("", 11, 0)
        self.assertEqual(str(Refused(1, 4)), "malformed symbol at 4")
        self.assertEqual(str(Refused(11, 0)), "not a symbol")

    def test_many(self):
        long = "_RNvC3foo30000" + "a" * 30000
        names = ["_Z1fv", "main", b"_RNvC3foo3bar", "", long, long]
        texts = ["f()", "main", "foo::bar", "", "foo::" + "a" * 30000, "foo::" + "a" * 30000]
        self.assertEqual(symdemangle.demangle_all(names), texts)
        self.assertEqual(symdemangle.demangle_all([]), [])
        self.assertEqual(symdemangle.demangle_all(["_Z1fIJicEEvDpT_"] * 3, no_parameters=True, brief=True), ["f"] * 3)

    def test_refused_flags(self):
        with mock.patch.object(symdemangle._library, "symdemangle_texts", lambda *_: 8):
            self.assertEqual(symdemangle.demangle_all(["_Z1fv", "x"]), ["_Z1fv", "x"])
        with mock.patch.object(symdemangle._library, "symdemangle_text", lambda *_: 8):
            self.assertEqual(symdemangle.demangle("_Z1fv"), "_Z1fv")
            self.refused("_Z1fv", 8, 0)

    def test_older_library(self):
        for options in ({}, {"types": True}):
            self.assertEqual(symdemangle.demangle("_Z1fv", **options), "f()")
            self.assertEqual(symdemangle.demangle_all(["_Z1fv", "?"], **options), ["f()", "?"])
            self.assertEqual(symdemangle.filter_text("at _Z1fv.", **options), "at f().")

    def test_filters(self):
        self.assertEqual(symdemangle.filter_text("at _Z1fv. _Z1fY"), "at f(). _Z1fY")
        self.assertEqual(symdemangle.filter_bytes(b"\xff _Z1fv \0"), b"\xff f() \0")
        self.assertEqual(symdemangle.filter_text("‘_Z1fv’", within=False), "‘_Z1fv’")
        self.assertEqual(symdemangle.filter_text("‘_Z1fv’", ascii_words=True), "‘f()’")

    @unittest.skipIf(OLDER, "words begin where runs do")
    def test_words_within_runs(self):
        for text, filtered in WITHIN.items():
            self.assertEqual(symdemangle.filter_text(text), filtered)
            self.assertEqual(symdemangle.filter_bytes(text.encode()), filtered.encode())
            self.assertEqual(streamed(text.encode(), 3)[0], filtered.encode())

    def test_streams(self):
        text = b"at _RNvC3foo3bar. (_Z1fY)\n" * 3000 + b"_Z1fv...."
        wanted = b"at foo::bar. (_Z1fY)\n" * 3000 + b"f()...."
        for step in (7, 4096, len(text)):
            sink = io.BytesIO()
            self.assertEqual(symdemangle.filter_stream(Slow(text, step), sink), Tally(6001, 3001, 3000))
            self.assertEqual(sink.getvalue(), wanted)
        self.assertEqual(streamed(b"", 1), (b"", Tally(0, 0, 0)))

    def test_streams_in_pieces(self):
        """However a text is cut into pieces, the filtered bytes are those of the whole text."""
        numbers = random.Random(1)
        parts = [
            b"_Z1fv", b"_RNvC3foo3bar", b"__Z1fv", b"_Z1fY", b".text.", b"\n", b" ", b"\\n", b"\\", b"\\u001b[", b"\x1b[31;1m", b"\x1b",
            b"[0", b";", b":", b"\\x1b", b"\\t", b"a", b"9", b"_", b"$", b".", b"...", "‘".encode(), "é".encode(), b"__imp_", b"self.",
        ]
        long = [b"a" * 65536, b"0" * 70000, b"." * 70000, b"_" * 65537, "é".encode() * 40000, b".a" * 33000, b"_Z1f" + b"i" * 65530]
        for options in ({}, {"within": False}, {"ascii_words": True}):
            for turn in range(90):
                chosen = [numbers.choice(parts) for _ in range(numbers.randrange(40))]
                if turn % 3 == 0:
                    chosen += [numbers.choice(long)] + [numbers.choice(parts) for _ in range(8)]
                text = b"".join(chosen)
                whole = symdemangle.filter_bytes(text, **options)
                steps = (4096, 65536, 1 << 20) if turn % 3 == 0 else (1, 2, 3, 7, 1 << 20)
                for step in steps:
                    self.assertEqual(streamed(text, step, **options)[0], whole, (text[:200], step, options))

    def test_streams_of_one_run(self):
        """A run without a break goes out in linear time and in little memory; only the longest words are held."""
        for run in (b"a", b"0123456789abcdef", b"_Z1f", b".", b"._", "é".encode(), b"1;", b"\\"):
            took = []
            for size in (1 << 21, 1 << 23):
                source, sink = io.BytesIO(run * (size // len(run))), Nothing()
                tracemalloc.start()
                began = time.process_time()
                symdemangle.filter_stream(source, sink)
                took.append(time.process_time() - began)
                most = tracemalloc.get_traced_memory()[1]
                tracemalloc.stop()
                self.assertEqual(sink.written, size // len(run) * len(run))
                self.assertLess(most, 3_000_000, run)
            self.assertLess(took[1], 8 * took[0] + 0.5, run)

    def test_program(self):
        def runs(*words, given=b""):
            ran = subprocess.run([sys.executable, "-m", "symdemangle", *words], input=given, capture_output=True)
            return ran.returncode, ran.stdout

        self.assertEqual(runs("--brief", given=b"_Z1fIJicEEvDpT_\n"), (0, b"void f(int, char)\n"))
        self.assertEqual(runs("_Z1fv", "main", "at _Z1gv", b"_Z2f\xffv"), (0, b"f()\nmain\nat g()\nf\xff()\n"))
        self.assertEqual(runs("--limit", "5", "_Z1fv"), (0, b"_Z1fv\n"))
        self.assertEqual(runs("-p", "_Z1fv"), (0, b"f\n"))
        self.assertEqual(runs("--what")[0], 2)
        for number in ("-1", "4294967296", "x"):
            self.assertEqual(runs("--limit", number, "_Z1fv")[0], 2)
        status, words = runs("--help")
        self.assertEqual(status, 0)
        self.assertIn(b"--limit N", words)
        if not OLDER:
            self.assertEqual(runs("-t", "PKc", "_Z1fv", "?"), (0, b"char const*\nf()\n?\n"))

    def test_program_without_a_reader(self):
        words = [sys.executable, "-m", "symdemangle"]
        with subprocess.Popen(words, stdin=subprocess.PIPE, stdout=subprocess.PIPE, stderr=subprocess.PIPE) as ran:
            ran.stdout.close()
            try:
                ran.stdin.write(b"_Z1fv\n" * 100_000)
                ran.stdin.close()
            except BrokenPipeError:
                pass
            self.assertEqual((ran.stderr.read(), ran.wait()), (b"", 141))

    def test_parts(self):
        parsed = symdemangle.parts("_ZNK1A1fIiEEvT_")
        self.assertEqual((parsed.text, parsed.kind, parsed.mangling), ("void A::f<int>(int) const", "function", "itanium"))
        self.assertEqual((parsed.scope, parsed.base, parsed.of("parameters"), parsed.of("object")), ("A", "f", "(int)", ""))
        self.assertEqual(parsed.parts[0], symdemangle.Part("return_type", 0, 4, 12, 13, "void"))
        long = symdemangle.parts("_Z5000" + "a" * 5000 + "v")
        self.assertEqual((len(long.base), long.of("parameters")), (5000, "()"))
        with self.assertRaisesRegex(Refused, " at 4$"):
            symdemangle.parts("_Z1fY")
        with self.assertRaises(Refused):
            symdemangle.parts("_Z1fv", short=True)

    def test_the_rest(self):
        self.assertEqual(symdemangle.press("_ZN3foo3barEN3foo3bazE"), "_ZN3foo3barENS_3bazE")
        with self.assertRaises(Refused):
            symdemangle.press("_ZN1AC4Ev")
        self.assertEqual(symdemangle.press("_Z1f1AIiENS_IcEE", wide=True), "_Z1f1AIiES_IcE")
        with self.assertRaisesRegex(Refused, "^no spelling yet$"):
            symdemangle.press("_Z1fIiEDTstT_ES0_", wide=True)
        self.assertEqual(symdemangle.counts("_RNvMC3fooINtB2_1AhE3baz"), Counts(18, 11, 56))
        with self.assertRaises(Refused):
            symdemangle.counts("_ZN1AC4Ev", wide=False)
        self.assertGreater(symdemangle.counts("_ZN1AC4Ev").steps, 0)
        major, minor, patch = (int(number) for number in symdemangle.__version__.split("."))
        self.assertEqual(symdemangle.library_version(), major * 1_000_000 + minor * 1_000 + patch)

    def test_examples(self):
        self.assertEqual(doctest.testmod(symdemangle).failed, 0)


if __name__ == "__main__":
    unittest.main(argv=sys.argv[:1])
