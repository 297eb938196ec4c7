#!/bin/bash
# Calls demangle as programs and people call a demangler: tests/tools.sh DEMANGLE.
#
# A program that is installed makes its call itself; otherwise the script makes the call as the program does. Then each call is made with
# two stand-ins, one that forwards all as it is and one that fails. The call has to fail with one of them: a call that fails with neither
# tests nothing. The status is 1 where a call comes out wrong.
set -u
[ $# -eq 1 ] || { echo "usage: $0 DEMANGLE" >&2; exit 2; }
demangle=$(realpath "$(command -v "$1")") || { echo "$0: there is no $1" >&2; exit 2; }
work=$(mktemp -d)
trap 'rm -rf "$work"' EXIT
cd "$work" || exit 2
missing() { echo "$1 isn't installed: $2"; }
has() { command -v "$1" >/dev/null; }

# The files on which the calls are made.
printf 'TN:\nSF:%s/a.cpp\nFN:1,_ZN1A1fEi\nFN:2,_Z1gv\nFNDA:1,_ZN1A1fEi\nFNDA:1,_Z1gv\nFNF:2\nFNH:2\nDA:1,1\nDA:2,1\nLF:2\nLH:2\nend_of_record\n' "$work" >a.info
printf 'void f(){}\nvoid g(){}\n' >a.cpp
printf '_ZN1A1fEi\n_Z1gv' >names
printf -- "-p '_ZN1A1fEi' \\\\_Z1gv\n" >arguments
printf '#include <string>\nnamespace A { int f(const std::string& s) { return s.size(); } }\nint main() { return A::f("x"); }\n' >b.cpp
printf 'void g(int); struct B { virtual ~B(); virtual void h(); }; int main() { B b; g(1); }\n' >n.cpp
printf '#include <cstdio>\n#include <typeinfo>\n#include <vector>\nint main() { std::puts(typeid(std::vector<int>).name()); std::puts(typeid(const char*).name()); }\n' >t.cpp
compiler=${CXX:-g++}
if has "$compiler"; then
    "$compiler" -O1 b.cpp -o b && "$compiler" t.cpp -o t || exit 2
    # what linkers say of symbols that aren't defined
    "$compiler" n.cpp -Wl,--no-demangle >ld.log 2>&1
    ! has ld.lld || "$compiler" -fuse-ld=lld n.cpp -Wl,--no-demangle >lld.log 2>&1
else
    missing "$compiler" 'calls on programs and linkers'
fi
if has perf && [ -x b ]; then
    printf '#include <map>\n#include <string>\nnamespace A { struct S { std::map<std::string, int> m; void put(const std::string& k) { ++m[k]; } }; }\nint main() { A::S s; for (int i = 0; i < 500000; i++) s.put(std::to_string(i %% 100)); }\n' >hot.cpp
    "$compiler" -O1 -g -fno-inline hot.cpp -o hot
    perf record -q -e cpu-clock -g -o perf.data ./hot >/dev/null 2>&1 && perf script -i perf.data --no-demangle >perf.mangled 2>/dev/null
    perf script -i perf.data 2>/dev/null | sed ':a;s/> >/>>/g;ta' >perf.wanted
fi
if ! grep -qs _Z perf.mangled; then
    missing perf 'or may not record'
    rm -f perf.mangled
fi
has genhtml || missing genhtml 'its calls are made by hand'
perl -MDpkg::Shlibs::Cppfilt -e 1 2>/dev/null || missing libdpkg-perl 'its call is left out'
viewer=
for folder in /usr/lib/llvm-*/share/opt-viewer; do [ ! -d "$folder" ] || viewer=$folder; done
[ -n "$viewer" ] || missing opt-viewer 'its call is left out'
has jq || missing jq 'a line of JSON is only compared'

call() { # call NAME WANTED GOT : says whether the output has what is wanted
    if [[ $3 == *"$2"* ]]; then echo "ok $1"; else echo "FAILED $1: wanted '$2', got '${3:0:160}'"; fi
}

calls() { # calls TOOL : a line for each call
    local tool=$1 got
    rm -rf bin html && mkdir bin && ln -s "$tool" bin/c++filt && ln -s "$tool" bin/llvm-cxxfilt

    # genhtml --demangle-cpp: the version with status 0, then a file of names without a last newline
    if has genhtml; then
        genhtml --demangle-cpp --rc genhtml_demangle_cpp_tool="$tool" -q -o html a.info >genhtml.log 2>&1
        call genhtml 'A::f(int)' "$(cat html/*/*.func.html html/*.func.html 2>/dev/null)"
    fi
    call 'genhtml: --version' 0 "$("$tool" --version >/dev/null 2>&1; echo $?)"
    call 'genhtml: < FILE' 'A::f(int)
g()' "$("$tool" <names 2>&1)"

    # dpkg-shlibdeps, and LLVM's opt-viewer: one line is sent and answered at a time
    if perl -MDpkg::Shlibs::Cppfilt -e 1 2>/dev/null; then
        call 'dpkg: --format=auto' 'A::f(int)|g()|undef' "$(PATH=$work/bin:$PATH timeout 20 perl -MDpkg::Shlibs::Cppfilt \
            -e 'print join "|", map { cppfilt_demangle_cpp($_) // "undef" } "_ZN1A1fEi", "_Z1gv", "malloc"' 2>&1)"
    fi
    if [ -n "$viewer" ]; then
        call 'opt-viewer: -n' 'A::f(int) g()' "$(timeout 20 python3 -c '
import sys, types
sys.path.insert(0, sys.argv[2])
try: import yaml
except ImportError:
    y = types.ModuleType("yaml"); y.YAMLObject = object; y.Loader = y.CLoader = object; sys.modules["yaml"] = y
import optrecord
r = optrecord.Remark; r.set_demangler(sys.argv[1] + " -n"); print(r.demangle("_ZN1A1fEi"), r.demangle("_Z1gv"))' "$tool" "$viewer" 2>&1)"
    fi

    # emscripten's emdump: names joined by newlines, each after one more underscore
    call 'emdump: --strip-underscore' 'A::f(int)
g()' "$(printf '__ZN1A1fEi\n__Z1gv' | "$tool" --strip-underscore 2>&1)"

    # abi-compliance-checker: looks for @<file> in the output of -h, and then gives such a file
    call 'abi-compliance-checker: -h' '@<file>' "$("$tool" -h 2>/dev/null)"
    call 'abi-compliance-checker: @FILE' 'A::f(int)
g()' "$("$tool" @"$work/names" 2>&1)"
    call 'abi-compliance-checker: -n NAME NAME' 'A::f(int)
g()' "$("$tool" -n _ZN1A1fEi _Z1gv 2>&1)"
    call 'options and quotes in a file' 'A::f
g' "$("$tool" @arguments 2>&1)"

    # the kernel's decode_stacktrace.sh
    call 'decode_stacktrace: -i NAME' 'kernel::init' "$("$tool" -i _RNvCs1234_6kernel4init 2>&1)"

    if [ -x b ]; then
        # pprof, bpfcc's deadlock, readelf, a program's types
        call 'pprof: nm -n' 'T A::f(std::__cxx11::basic_string<char' "$(nm -n b | "$tool" 2>&1)"
        call 'deadlock: objdump -t' 'A::f(std::__cxx11::basic_string<char' "$(objdump -t b | awk '{print $NF}' | "$tool" 2>&1)"
        call 'readelf -Ws' 'A::f(std::__cxx11::basic_string<char' "$(readelf -Ws b | "$tool" 2>&1)"
        call 'objdump -d' '<A::f(std::__cxx11::basic_string<char' "$(objdump -d b | "$tool" 2>&1)"
        call 'typeid(x).name()' 'std::vector<int, std::allocator<int>>
char const*' "$(./t | xargs "$tool" -t 2>&1)"
        call 'ld --no-demangle' "undefined reference to \`B::~B()'" "$("$tool" <ld.log 2>&1)"
        [ ! -s lld.log ] || call 'ld.lld --no-demangle' 'undefined symbol: g(int)' "$("$tool" <lld.log 2>&1)"
    fi
    if [ -s perf.mangled ]; then
        # the texts are perf's own, except for '> >'
        call 'perf script --no-demangle' same "$("$tool" -p <perf.mangled 2>&1 | cmp -s - perf.wanted && echo same)"
    fi

    # people
    call 'a name that isn'"'"'t ASCII' 'größe(int)' "$(printf '_Z7größei\n' | "$tool" 2>&1)"
    call 'an older Rust name' '<alloc::string::String as core::fmt::Display>::fmt' \
        "$("$tool" '_ZN60_$LT$alloc..string..String$u20$as$u20$core..fmt..Display$GT$3fmt17h1d00112233445566E' 2>&1)"
    call "a sentence's dot" 'in foo::bar(int). Then' "$(printf 'in _ZN3foo3barEi. Then\n' | "$tool" 2>&1)"
    call 'folded stacks' 'main;std::vector::push_back;A::f 42' \
        "$(echo 'main;_ZNSt6vectorIiSaIiEE9push_backERKi;_ZN1A1fIiEEvT_ 42' | "$tool" --no-params --brief 2>&1)"
    call 'a name that is none ends with 0' 'foo 0' "$("$tool" foo 2>&1 | tr '\n' ' '; echo "${PIPESTATUS[0]}")"
    got=$(printf '%s\n' '{"at":"_Zli2_sPKc","n":1}' | "$tool" --escape 2>&1)
    call 'a line of JSON' '"operator\"\" _s(char const*)"' "$got"
    ! has jq || call 'jq reads it' 'operator"" _s(char const*)' "$(printf '%s\n' "$got" | jq -r .at 2>&1)"
}

printf '#!/bin/sh\ncase $# in 0) exec cat ;; esac\nfor word; do case $word in --version) exit 1 ;; -*) ;; *) given=1; echo "$word" ;; esac; done\n[ -n "$given" ] || exec cat\n' >passes_on
printf '#!/bin/sh\necho it is broken\nexit 1\n' >fails
chmod +x passes_on fails
calls "$demangle" >found
grep FAILED found
calls "$work/passes_on" >passed 2>/dev/null
calls "$work/fails" >broken 2>/dev/null
idle=$(grep '^ok' passed | grep -Fxf - broken)
[ -z "$idle" ] || echo "seen to fail with neither stand-in: $idle"
failed=$(grep -c FAILED found)
echo "$(wc -l <found) calls, $failed come out otherwise"
[ "$failed" -eq 0 ] && [ -z "$idle" ]
