// What __cxa_demangle answers in a program that has it from the C++ runtime or from callers/shims: both have the same conventions. Then the
// program throws an exception that nothing catches, and the runtime's terminate handler prints the name of the exception's type.
#include <cstdio>
#include <cstdlib>
#include <cstring>
#include <cxxabi.h>
#include <string>
#include <typeinfo>

namespace ns {
template <class T, int N> struct Fault {};
} // namespace ns

static int failed;

static void is(bool holds, const char *what)
{
    if (!holds) {
        std::printf("%s\n", what);
        failed = 1;
    }
}

static void has_text(const char *mangled, const std::string &text)
{
    int status = 9;
    char *made = abi::__cxa_demangle(mangled, nullptr, nullptr, &status);
    is(status == 0 && made && made == text, mangled);
    std::free(made);
    size_t size = 4; // too small, so it is moved
    char *buffer = static_cast<char *>(std::malloc(size));
    made = abi::__cxa_demangle(mangled, buffer, &size, &status);
    is(status == 0 && made && made == text && (text.size() < 4 || size > text.size()), "a buffer that grows");
    char *again = abi::__cxa_demangle(mangled, made, &size, nullptr);
    is(again && again == text && (text.size() < 4 || again == made), "a buffer that is kept");
    std::free(again);
}

static void is_refused(const char *mangled, int wanted)
{
    int status = 9;
    is(!abi::__cxa_demangle(mangled, nullptr, nullptr, &status) && status == wanted, mangled ? mangled : "null");
}

int main(int words, char **)
{
    std::string name(900, 'a');
    has_text("_Z1fv", "f()");
    has_text("_ZN3foo3barEPKc", "foo::bar(char const*)");
    has_text(("_Z1f900" + name + "S_S_").c_str(), "f(" + name + ", " + name + ", " + name + ")");
    has_text("_ZN1AC4Ev", "A::A()");
    has_text("i", "int");
    has_text("PKc", "char const*");
    has_text(typeid(ns::Fault<int, 3>).name(), "ns::Fault<int, 3>");
    is_refused("_Z", -2);
    is_refused("_Zq", -2);
    is_refused("_main", -2);
    is_refused("", -2);
    is_refused(nullptr, -3);
    char unsized[] = "x";
    int status = 9;
    is(!abi::__cxa_demangle("_Z1fv", unsized, nullptr, &status) && status == -3, "a buffer without a size");
    std::puts(failed ? "FAILED" : "ok");
    std::fflush(stdout);
    if (words > 1)
        throw ns::Fault<int, 3>();
    return failed;
}
