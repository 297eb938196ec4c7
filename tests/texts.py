#!/usr/bin/env python3
"""Has the built programs filter texts like those that tools and people write, and names the texts whose output is wrong.

    tests/texts.py SYMFILT [DEMANGLE]

The texts are lines of linkers, debuggers, profilers and traces, bytes that no text has, prompts that wait for an answer, a line of 30 MB, a
log without symbols, an output whose reader ends early, and a name that is made to exhaust a demangler. The status is 1 if an output is
wrong."""

import os
import resource
import selectors
import subprocess
import sys
import tempfile
import time

VECTOR = "_ZNSt6vectorIiSaIiEE9push_backERKi"
VECTOR_TEXT = "std::vector<int, std::allocator<int>>::push_back(int const&)"
LEGACY = "_ZN4demo4main17h0123456789abcdefE"
DIGITS = "0123456789abcdefghijklmnopqrstuvwxyzABCDEFGHIJKLMNOPQRSTUVWXYZ"


def base_62(number):
    """A number as back references write it."""
    if number == 0:
        return "_"
    digits, number = "", number - 1
    while True:
        digits = DIGITS[number % 62] + digits
        number //= 62
        if number == 0:
            return digits + "_"


def doubling(times):
    """A Rust symbol in which each tuple has the tuple before it twice."""
    symbol = "INvC3foo3bar"
    last, symbol = len(symbol), symbol + "ThhE"
    for _ in range(times):
        reference = "B" + base_62(last)
        last, symbol = len(symbol), symbol + "T" + reference + reference + "E"
    return "_R" + symbol + "E"


# A name and its text for each sort of text, so that a fault of any printer shows.
NAMES = {
    "_ZTV1A": "vtable for A",
    "_ZTT1A": "VTT for A",
    "_ZTI1A": "typeinfo for A",
    "_ZTS1A": "typeinfo name for A",
    "_ZGVZ1fvE1x": "guard variable for f()::x",
    "_ZThn8_N1A1fEv": "non-virtual thunk to A::f()",
    "_ZTv0_n24_N1A1fEv": "virtual thunk to A::f()",
    "_ZTch0_h0_1fv": "covariant return thunk to f()",
    "_Z1fwbcahstij": "f(wchar_t, bool, char, signed char, unsigned char, short, unsigned short, int, unsigned int)",
    "_Z1flmxynofdegz": "f(long, unsigned long, long long, unsigned long long, __int128, unsigned __int128, float, double, long double, __float128, ...)",
    "_Z1fDsDiDuDn": "f(char16_t, char32_t, char8_t, std::nullptr_t)",
    "_Z1fPKcRVKiOd": "f(char const*, int const volatile&, double&&)",
    "_Z1fPFivEM1AiA3_i": "f(int (*)(), int A::*, int [3])",
    "_Z1fPDoFvvE": "f(void (*)() noexcept)",
    "_Z1fDv4_f": "f(float __vector(4))",
    "_ZNVKR1A1fEv": "A::f() const volatile &",
    "_ZN1AC1Ev": "A::A()",
    "_ZN1AD0Ev": "A::~A()",
    "_Znwm": "operator new(unsigned long)",
    "_ZdaPv": "operator delete[](void*)",
    "_ZN1AaSERKS_": "A::operator=(A const&)",
    "_ZN1AclEv": "A::operator()()",
    "_ZN1AixEi": "A::operator[](int)",
    "_ZN1AptEv": "A::operator->()",
    "_Zli2_sPKc": 'operator"" _s(char const*)',
    "_ZlsRSoSs": "operator<<(std::ostream&, std::string)",
    "_Z1fILi3ELb1ELc65ELin2EEvv": "void f<3, true, (char)65, -2>()",
    "_Z1fIJicEEvDpT_": "void f<int, char>(int, char)",
    "_ZN12_GLOBAL__N_11fEv": "(anonymous namespace)::f()",
    "_ZZ4mainENKUlvE_clEv": "main::{lambda()#1}::operator()() const",
    "_ZZ1fiENKUlicE0_clEic": "f(int)::{lambda(int, char)#2}::operator()(int, char) const",
    "_ZN1AUt_1fEv": "A::{unnamed type#1}::f()",
    "_ZZ1fvEs": "f()::string literal",
    "_ZZ1fvE1x_0": "f()::x",
    "_RINvC3foo3barabcdefhijlmnopstuvxyzE": "foo::bar::<i8, bool, char, f64, str, f32, u8, isize, usize, i32, u32, i128, u128, _, i16, u16, (), ..., i64, u64, !>",
    "_RINvC3foo3barFG_RL0_hEuFUKChEhE": "foo::bar::<for<'a> fn(&'a u8), unsafe extern \"C\" fn(u8) -> u8>",
    "_RINvC3foo3barPhOhQhAhj3_ShThEE": "foo::bar::<*const u8, *mut u8, &mut u8, [u8; 3], [u8], (u8,)>",
    "_RINvC3foo3barKlnf_Kb1_Kc41_E": "foo::bar::<-15, true, 'A'>",
    "_RINvC3foo3barDNtC3foo1AEL_E": "foo::bar::<dyn foo::A>",
    "_RNvXC3fooNtC3foo1ANtC3foo1B1f": "<foo::A as foo::B>::f",
    "_RNvMC3fooNtC3foo1A1f": "<foo::A>::f",
    "_RNCNvC3foo3bar0": "foo::bar::{closure#0}",
    "_RNSNvC3foo3bar4call": "foo::bar::{shim:call#0}",
}
# Likewise for the wide grammar.
WIDE = {
    "_ZNK1AcvbEv": "A::operator bool() const",
    "_ZN1AcvPKcEv": "A::operator char const*()",
    "_ZN1AssERKS_": "A::operator<=>(A const&)",
    "_Z1fIiEDTcl1gfp_EET_": "decltype(g(fp)) f<int>(int)",
    "_Z1fIJicEEv1AIXsZT_EE": "void f<int, char>(A<sizeof...(int, char)>)",
    "_Z1fB5cxx11v": "f[abi:cxx11]()",
    "_ZTC1A0_1B": "construction vtable for B-in-A",
    "_ZTH1x": "thread-local initialization routine for x",
    "_ZTW1x": "thread-local wrapper routine for x",
    "_ZGTt1fv": "transaction clone for f()",
    "_ZZ4mainENKUlT_E_clIiEEDaS_": "auto main::{lambda(auto)#1}::operator()<int>(int) const",
    "_ZN1AC4Ev": "A::A()",
}


def names_of(names):
    """Names as an input, and their texts as the output that is required."""
    return "\n".join(names) + "\n", "\n".join(names.values()) + "\n"


# An input, and the output that both programs have to give.
SAME = {
    "each sort of text": names_of(NAMES),
    "nm": (f"0000000000001139 T {VECTOR}\n", f"0000000000001139 T {VECTOR_TEXT}\n"),
    "objdump": ("  401136:\te8 00 00\tcall 401130 <_Z1fv@plt> <_ZN1A1fEv+0x10>\n", "  401136:\te8 00 00\tcall 401130 <f()@plt> <A::f()+0x10>\n"),
    "readelf": ("FUNC GLOBAL _ZNSt9exceptionD1Ev@GLIBCXX_3.4 _Z1fv@@V_1\n", "FUNC GLOBAL std::exception::~exception()@GLIBCXX_3.4 f()@@V_1\n"),
    "relocations": ("000000003fd8  000500000006 R_X86_64_GLOB_DAT 0000000000000000 _ZSt4cout@GLIBCXX_3.4 + 0\n", "000000003fd8  000500000006 R_X86_64_GLOB_DAT 0000000000000000 std::cout@GLIBCXX_3.4 + 0\n"),
    "a sanitizer's trace": ("    #1 0x4f2 in _ZN1A1fEv /src/a.cpp:12:5\n    #2 0x51 in main (a.out+0x51)\n", "    #1 0x4f2 in A::f() /src/a.cpp:12:5\n    #2 0x51 in main (a.out+0x51)\n"),
    "valgrind": ("==7==    by 0x1091B6: _ZN1A1fEv (a.cpp:12)\n==7==    by 0x10: ??? (in /usr/bin/x)\n", "==7==    by 0x1091B6: A::f() (a.cpp:12)\n==7==    by 0x10: ??? (in /usr/bin/x)\n"),
    "gdb": ("#0  0x0000555555555139 in _ZN1A1fEv () at a.cpp:3\n", "#0  0x0000555555555139 in A::f() () at a.cpp:3\n"),
    "a kernel's trace": ("[    1.5] RIP: 0010:_RNvC3foo3bar+0x1b/0x30 [rust_mod]\n", "[    1.5] RIP: 0010:foo::bar+0x1b/0x30 [rust_mod]\n"),
    "a linker's options": ("-Wl,--undefined=_Z1fv,-u,_Z1gi --defsym=_Z1hv=0\n", "-Wl,--undefined=f(),-u,g(int) --defsym=h()=0\n"),
    "gold": ("a.cc:(.text+0x1f): error: undefined reference to '_ZN1A1fEv'\n", "a.cc:(.text+0x1f): error: undefined reference to 'A::f()'\n"),
    "glibc's trace": ("./prog(_ZN1A1fEv+0x1f) [0x401136]\n", "./prog(A::f()+0x1f) [0x401136]\n"),
    "ld": ("ld: a.o: undefined reference to `_ZN1A1fEv'\n", "ld: a.o: undefined reference to `A::f()'\n"),
    "lld": ("ld.lld: error: undefined symbol: _ZN1A1fEv\n", "ld.lld: error: undefined symbol: A::f()\n"),
    "HTML, a URL, CSV": ("<td>_Z1fv</td> ?name=_Z1fv&x \"_Z1fv\",1\n", "<td>f()</td> ?name=f()&x \"f()\",1\n"),
    "a name that isn't ASCII": ("_Z7größei\n", "größe(int)\n"),
    "macOS": ("1 prog 0x1 __Z1fv + 4, __RNvC3foo3bar + 8\n", "1 prog 0x1 f() + 4, foo::bar + 8\n"),
    "suffixes": ("_Z1fv.constprop.0 _Z1fv.isra.0.cold _RNvC3foo3bar.llvm.1\n", "f() (.constprop.0) f() (.isra.0.cold) foo::bar (.llvm.1)\n"),
    "a sentence's dot": ("It failed in _ZN3foo3barEi. Then\n", "It failed in foo::bar(int). Then\n"),
    "ends of lines": ("_Z1fv\r\n\r\n_Z1gi", "f()\r\n\r\ng(int)"),
    "any bytes": (b"\0_Z1fv\0 \xe9 \xff \xc3\x28 \x80\n", None),
    "other languages": ("_TtC3foo3Bar ?f@@YAXXZ -[Foo bar] main.main\n", "_TtC3foo3Bar ?f@@YAXXZ -[Foo bar] main.main\n"),
}

# For each program: options, an input, and the output that is required.
SYMFILT = {
    "each sort of text of the wide grammar": (["--wide"], *names_of(WIDE)),
    "stacks": (["--no-params", "--brief"], f"main;{VECTOR};_ZN1A1fIiEEvT_ 42\n", "main;std::vector::push_back;A::f 42\n"),
    "quotes that aren't ASCII": (["--ascii-words"], "‘_ZN1A1fEi’ »_Z1fv« 関数_Z1fvで\n", "‘A::f(int)’ »f()« 関数f()で\n"),
    "legacy Rust names": (["--legacy"], f"{LEGACY}\n", "demo::main\n"),
    "newer C++": (["--wide"], "_Z1fN2ns3BoxIiEENS0_IcEE\n", "f(ns::Box<int>, ns::Box<char>)\n"),
    "a byte beside a symbol": ([], b"_Z1gi\x80\n", b"_Z1gi\x80\n"),
}
DEMANGLE = {
    "each sort of text of the wide grammar": ([], *names_of(WIDE)),
    "quotes that aren't ASCII": ([], "‘_ZN1A1fEi’ »_Z1fv« 関数_Z1fvで _Z7größei\n", "‘A::f(int)’ »f()« 関数f()で größe(int)\n"),
    "sections of a linker's map": ([], " .text._Z3foov\n .rodata._ZTS1A .data.rel.ro._ZTV1A\n", " .text.foo()\n .rodata.typeinfo name for A .data.rel.ro.vtable for A\n"),
    "sections of MinGW, thunks of imports": ([], ".text$_ZN1A1fEv __imp__Z1fv _GLOBAL__sub_I__ZN1AC2Ev\n", ".text$A::f() __imp_f() _GLOBAL__sub_I_A::A()\n"),
    "members in source code": ([], "self._Zoom y._RC4_FLAG m_Zoom self._Z1fv\n", "self._Zoom y._RC4_FLAG m_Zoom self.f()\n"),
    "a byte beside a symbol": ([], b"_Z1gi\x80\n", b"g(int)\x80\n"),
    "stacks": (["-p", "--brief"], f"main;{VECTOR};_ZN1A1fIiEEvT_ 42\n", "main;std::vector::push_back;A::f 42\n"),
    "legacy Rust names": ([], f"{LEGACY}\n", "demo::main\n"),
    "newer C++": ([], "_Z1fN2ns3BoxIiEENS0_IcEE\n", "f(ns::Box<int>, ns::Box<char>)\n"),
    "quotes in JSON": (["--escape"], '{"at":"_Zli2_sPKc"}\n', '{"at":"operator\\"\\" _s(char const*)"}\n'),
    "an option of c++filt": (["-n", "-s", "gnu-v3"], "_Z1fv _RNvC3foo3bar\n", "f() _RNvC3foo3bar\n"),
}


def coded(text):
    return text if isinstance(text, bytes) else text.encode()


def limited():
    """Ends a program that takes more than 64 MB or ten seconds, so that the machine isn't exhausted."""
    resource.setrlimit(resource.RLIMIT_AS, (64 << 20, 64 << 20))
    resource.setrlimit(resource.RLIMIT_CPU, (10, 10))


def filtered(program, options, text):
    try:
        done = subprocess.run([program, *options], input=coded(text), capture_output=True, timeout=60, preexec_fn=limited)
    except subprocess.TimeoutExpired:
        return b"", b"not ended after 60 seconds", None
    return done.stdout, done.stderr, done.returncode


def texts(program, own):
    for name, (text, wanted) in SAME.items():
        out, err, status = filtered(program, [], text)
        if wanted is None:
            # each byte that belongs to no name comes out as it is
            wanted = coded(text).replace(b"_Z1fv", b"f()")
        yield name, (out, err, status) == (coded(wanted), b"", 0), out
    for name, (options, text, wanted) in own.items():
        out, err, status = filtered(program, options, text)
        yield name, (out, err, status) == (coded(wanted), b"", 0), out


def answers_at_once(program, _name):
    """A line, and then a prompt without a newline, come out while the input is still open."""
    run = subprocess.Popen([program], stdin=subprocess.PIPE, stdout=subprocess.PIPE)
    ready = selectors.DefaultSelector()
    ready.register(run.stdout, selectors.EVENT_READ)
    got = b""
    for piece, wanted in ((b"_Z1fv\n", b"f()\n"), (b"user@_Z1gi> ", b"f()\nuser@g(int)> ")):
        os.write(run.stdin.fileno(), piece)
        end = time.monotonic() + 10
        while got != wanted and time.monotonic() < end and ready.select(1):
            got += os.read(run.stdout.fileno(), 65536)
        if got != wanted:
            run.kill()
            return False, got
    run.stdin.close()
    return run.wait() == 0, got


def passes_long_lines(program, _name):
    """A line of 30 MB without an end."""
    line = b"x" * 30_000_000
    out, _, status = filtered(program, [], line)
    return (out, status) == (line, 0), out[:100]


def processor_time(command, text):
    """The seconds of processor time that a program takes for a file, the least of three runs."""
    times = []
    for _ in range(3):
        with open(text, "rb") as file:
            before = resource.getrusage(resource.RUSAGE_CHILDREN)
            subprocess.run(command, stdin=file, stdout=subprocess.DEVNULL)
            after = resource.getrusage(resource.RUSAGE_CHILDREN)
        times.append(after.ru_utime + after.ru_stime - before.ru_utime - before.ru_stime)
    return min(times)


def costs_little(program, _name):
    """A log without symbols costs about what grep costs."""
    with tempfile.NamedTemporaryFile() as log:
        log.write(b"Nov 27 07:00:00 host kernel: eth0 link_up speed 1000 full duplex, mtu 1500\n" * 1_000_000)
        log.flush()
        searched, taken = processor_time(["grep", "-c", "_Z"], log.name), processor_time([program], log.name)
    return taken < 2 * searched + 0.1, f"{taken:.2f} s, grep {searched:.2f} s"


# The status of a program whose output's reader ends early, as head does, and what the program says then.
NOBODY_READS = ((3, b"symfilt: write failed\n"), (141, b""))


def ends_with_its_reader(program, wanted):
    reader, writer = os.pipe()
    run = subprocess.Popen([program], stdin=subprocess.PIPE, stdout=writer, stderr=subprocess.PIPE)
    os.close(writer)
    os.close(reader)
    _, err = run.communicate(b"_Z1fv\n")
    return (run.returncode, err) == wanted, err


def survives(program, _name):
    """The lines before and after a name that doubles seventy times are answered, and the name itself stays."""
    hostile = doubling(70)
    out, err, status = filtered(program, [], f"_Z1fv\n{hostile}\n_Z1gi\n")
    return (out, err, status) == (f"f()\n{hostile}\ng(int)\n".encode(), b"", 0), out


CHECKS = {
    "at once": answers_at_once,
    "a long line": passes_long_lines,
    "no symbols": costs_little,
    "a hostile name": survives,
}


def main():
    if len(sys.argv) not in (2, 3):
        sys.exit(__doc__)
    failed = count = 0
    for path, own, program_name, nobody_reads in zip(
        sys.argv[1:], (SYMFILT, DEMANGLE), ("symfilt", "demangle"), NOBODY_READS
    ):
        program = os.path.abspath(path)
        found = list(texts(program, own))
        found.append(("a reader that ends", *ends_with_its_reader(program, nobody_reads)))
        for name, check in CHECKS.items():
            found.append((name, *check(program, program_name)))
        for name, holds, out in found:
            count += 1
            if not holds:
                failed += 1
                print(f"{program_name}: {name}: {out[:200]!r}")
    print(f"{count} texts, {failed} come out otherwise")
    sys.exit(1 if failed else 0)


if __name__ == "__main__":
    main()
