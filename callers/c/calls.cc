// What the calls of symdemangle.hpp answer; with -DOLDER, what they answer over a library that doesn't know SYMDEMANGLE_WITHIN and
// SYMDEMANGLE_TYPES (tests/callers/older.c).
#include "symdemangle.hpp"

#include <iostream>
#include <typeinfo>

#ifdef OLDER
static const bool is_older = true;
#else
static const bool is_older = false;
#endif

namespace app {
template <class T> struct Box {};
} // namespace app

static int failed;

template <class T, class U> static void is(const T &found, const U &wanted, const char *what)
{
    if (!(found == wanted)) {
        std::cout << what << '\n';
        failed = 1;
    }
}

int main()
{
    using namespace symdemangle;
    refusal why;
    is(text("_ZN3foo3barEPKc"), "foo::bar(char const*)", "text");
    is(text("__Z1fv"), "f()", "text of a name with an underscore");
    is(text("_ZN1AC4Ev"), "A::A()", "text of a wide form");
    is(text("_ZN4core3fmt17h0123456789abcdefE"), "core::fmt", "text of an older Rust name");
    is(text("_ZN1AC4Ev", {0, 99}, &why), std::nullopt, "no text");
    is(why.status == SYMDEMANGLE_MALFORMED && why.offset == 6, true, "why there is no text");
    is(std::string(why.what()), "malformed symbol", "a message");
    is(text("main", {}, &why), std::nullopt, "no symbol");
    is(why.status, static_cast<unsigned>(SYMDEMANGLE_NO_SYMBOL), "why it is none");
    is(text("_Z1fv", {}, &why), "f()", "text again");
    is(why.status, static_cast<unsigned>(SYMDEMANGLE_OK), "no reason");
    is(text("_Z1fv", {0, 5}), std::nullopt, "a limit");
    is(text(std::string_view("_Z1fvQQ", 5)), "f()", "a view into other bytes");
    is(text_or_name("main"), "main", "text or name");
    std::string name(5000, 'a');
    is(text("_RNvC3foo5000" + name), "foo::" + name, "a long text");
    is(texts_or_names({"_Z1fv", "main", "_RNvC3foo5000" + name, ""}), std::vector<std::string>{"f()", "main", "foo::" + name, ""}, "many");
    is(texts_or_names({}), std::vector<std::string>{}, "none of many");
    tally found = {9, 9, 9};
    is(filtered("at _Z1fv. _Z1fY", {}, &found), "at f(). _Z1fY", "filter");
    is(found.words == 2 && found.replaced == 1 && found.refused == 1, true, "tally");
    is(filtered(std::string(9999, '-') + "_Z1fv"), std::string(9999, '-') + "f()", "a long filtered text");
    const options none = {1u << 31, 99};
    is(filtered("_Z1fv", none), std::nullopt, "a flag that is none");
    is(text("_Z1fv", none, &why), std::nullopt, "a name with a flag that is none");
    is(why.status, static_cast<unsigned>(SYMDEMANGLE_FLAGS), "why it has no text");
    is(text_or_name("_Z1fv", none), "_Z1fv", "the name with a flag that is none");
    is(texts_or_names({"_Z1fv", "main"}, none), std::vector<std::string>{"_Z1fv", "main"}, "many with a flag that is none");
    is(filtered(".text._ZN1A1fEv ‘_Z1fv’ _Z1gv"), is_older ? ".text._ZN1A1fEv ‘_Z1fv’ g()" : ".text.A::f() ‘f()’ g()", "words within runs");
    is(filtered("‘_Z1fv’", {SYMDEMANGLE_WIDE, 99}), "‘_Z1fv’", "words that are runs");
    is(type_or_name(typeid(app::Box<int>).name()), is_older ? "N3app3BoxIiEE" : "app::Box<int>", "a type");
    is(type_or_name("PKc"), is_older ? "PKc" : "char const*", "another type");
    is(type_or_name("_Z1fv"), "f()", "a symbol that may be a type");
    is(type_or_name("?"), "?", "no type");
    is(pressed("_ZN3foo3barEN3foo3bazE"), "_ZN3foo3barENS_3bazE", "pressed");
    is(pressed("_Z1fS_", &why), std::nullopt, "no pressed spelling");
    is(why.offset, 4u, "why it isn't pressed");
    if (!is_older) {
        is(pressed("_ZN1AC4Ev"), std::nullopt, "a form that is pressed by the wide grammar alone");
        is(pressed("_ZN1AC4Ev", symdemangle::options{}), "_ZN1AC4Ev", "pressed by the wide grammar");
        is(pressed("_Z1fIiEDTstT_ES0_", symdemangle::options{}, &why), std::nullopt, "read, and no pressed spelling yet");
        is(why.status, static_cast<unsigned>(SYMDEMANGLE_NO_SPELLING), "why it has none");
    }
    auto parsed = symdemangle::parts("_ZNK1A1fIiEEvT_");
    is(parsed && parsed->text == "void A::f<int>(int) const" && parsed->base() == "f" && parsed->scope() == "A", true, "parts");
    is(parsed && parsed->kind == SYMDEMANGLE_KIND_FUNCTION && parsed->parts.size() == 8, true, "kind");
    is(parsed && parsed->parts[1].text == "A" && parsed->parts[1].bytes == "1A" && parsed->parts[6].bytes == "T_", true, "bytes of parts");
    const symdemangle::parsed copied = *parsed;
    parsed.reset();
    is(copied.base() == "f" && copied.text.substr(5, 4) == "A::f", true, "the parts of a copy");
    parsed = symdemangle::parts("__RNvC3foo3bar");
    is(parsed && parsed->parts[1].bytes == "C3foo" && parsed->parts[2].bytes == "3bar", true, "bytes after an underscore that is dropped");
    is(copied.first(SYMDEMANGLE_ROLE_PARAMETERS) == "(int)" && copied.first(SYMDEMANGLE_ROLE_OBJECT).empty(), true, "a part");
    parsed = symdemangle::parts("_Z5000" + name + "v");
    is(parsed && parsed->base().size() == 5000, true, "parts of a long text");
    is(symdemangle::parts("_Z1fY", {}, &why).has_value(), false, "no parts");
    is(why.offset, 4u, "why it has no parts");
    auto work = counted("_RNvMC3fooINtB2_1AhE3baz");
    is(work && work->rows == 18 && work->nodes == 11 && work->steps == 56, true, "counts");
    is(counted("_R").has_value(), false, "no counts");
    std::cout << (failed ? "FAILED" : "ok") << '\n';
    return failed;
}
