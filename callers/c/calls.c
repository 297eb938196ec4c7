/* What each call answers, in C and, as the same file, in C++. */
#include "symdemangle.h"

#include <stdio.h>
#include <stdlib.h>
#include <string.h>

static char buffer[128];
static int failed;

static void check(int holds, const char *what, const char *name)
{
    if (!holds) {
        printf("%s: %s\n", what, name);
        failed = 1;
    }
}

/* What follows the bytes that were written is as it was. */
static int is_kept(size_t from)
{
    for (size_t k = from; k < sizeof buffer; k++)
        if (buffer[k] != '#')
            return 0;
    return 1;
}

static void has_text(const char *name, uint32_t limit, uint32_t flags, const char *text)
{
    symdemangle_result result;
    size_t length = strlen(text);
    memset(buffer, '#', sizeof buffer);
    uint32_t status = symdemangle_text(name, strlen(name), limit, flags, buffer, sizeof buffer, &result);
    check(status == SYMDEMANGLE_OK && result.status == status && result.length == length && result.offset == 0, "status of a text", name);
    check(memcmp(buffer, text, length) == 0 && is_kept(length), "text", name);
    memset(buffer, '#', sizeof buffer);
    status = symdemangle_text(name, strlen(name), limit, flags, buffer, length, &result);
    check(status == SYMDEMANGLE_OK && memcmp(buffer, text, length) == 0 && is_kept(length), "buffer that just fits", name);
    memset(buffer, '#', sizeof buffer);
    status = symdemangle_text(name, strlen(name), limit, flags, buffer, length - 1, &result);
    check(status == SYMDEMANGLE_BUFFER && result.status == status && result.length == length && is_kept(0), "buffer that is too small", name);
    status = symdemangle_text(name, strlen(name), limit, flags, NULL, 0, &result);
    check(status == SYMDEMANGLE_BUFFER && result.length == length, "no buffer", name);
}

static void is_refused(const char *name, uint32_t limit, uint32_t flags, uint32_t wanted, uint32_t offset)
{
    symdemangle_result result;
    memset(buffer, '#', sizeof buffer);
    uint32_t status = symdemangle_text(name, strlen(name), limit, flags, buffer, sizeof buffer, &result);
    check(status == wanted && result.status == wanted && result.length == 0 && result.offset == offset && is_kept(0), "refusal", name);
}

static void texts(void)
{
    has_text("_RNvC3foo3bar", 11, 0, "foo::bar");
    has_text("_RNvMC3fooINtB2_1AhE3baz", 99, 0, "<foo::A<u8>>::baz");
    has_text("_RNvMC3fooINtB2_1AhE3baz", 99, SYMDEMANGLE_BRIEF, "<foo::A>::baz");
    has_text("_Z1fIJicEEvDpT_", 56, 0, "void f<int, char>(int, char)");
    has_text("_Z1fIJicEEvDpT_", 99, SYMDEMANGLE_BRIEF, "void f(int, char)");
    has_text("_Z1fIJicEEvDpT_", 99, SYMDEMANGLE_NO_PARAMETERS, "f<int, char>");
    has_text("_Z1fIJicEEvDpT_", 99, SYMDEMANGLE_BRIEF + SYMDEMANGLE_NO_PARAMETERS, "f");
    has_text("_RNvMC3fooINtB2_1AhE3baz", 99, SYMDEMANGLE_NO_PARAMETERS, "<foo::A<u8>>::baz");
    has_text("_Z1fv", 99, SYMDEMANGLE_ASCII_WORDS, "f()");
    is_refused("_RNvC3foo3bar", 10, 0, SYMDEMANGLE_TOO_LONG, 0);
    is_refused("_RNvC3foo3bar", 0, 0, SYMDEMANGLE_TOO_LONG, 0);
    is_refused("_RNvC3fo", 99, 0, SYMDEMANGLE_MALFORMED, 8);
    is_refused("_RNvB_3foo", 99, 0, SYMDEMANGLE_BAD_REFERENCE, 4);
    is_refused("_RNvCszzzzzzzzzzz_3foo3bar", 99, 0, SYMDEMANGLE_BAD_VALUE, 5);
    is_refused("_Z1fv", 5, 0, SYMDEMANGLE_TOO_LONG, 0);
    is_refused("_Z1fY", 99, 0, SYMDEMANGLE_MALFORMED, 4);
    is_refused("_Z1fS_", 99, 0, SYMDEMANGLE_BAD_REFERENCE, 4);
    is_refused("_ZN1AUt18446744073709551614_E", 99, 0, SYMDEMANGLE_BAD_VALUE, 5);
    is_refused("_RNvC3foo3bar", 99, 1024, SYMDEMANGLE_FLAGS, 0);
    is_refused("_RNvC3foo3bar", 99, 0x80000000u, SYMDEMANGLE_FLAGS, 0);
    is_refused("main", 99, 1024, SYMDEMANGLE_FLAGS, 0);
}

static void wide_texts(void)
{
    has_text("_ZN1AC4Ev", 11, SYMDEMANGLE_WIDE, "A::A()");
    has_text("_ZN1AC5IiEET_", 28, SYMDEMANGLE_WIDE, "A::A<int>(int)");
    has_text("_ZN1AC5IiEET_", 99, SYMDEMANGLE_WIDE + SYMDEMANGLE_BRIEF, "A::A(int)");
    has_text("_ZN1AC5IiEET_", 99, SYMDEMANGLE_WIDE + SYMDEMANGLE_NO_PARAMETERS, "A::A<int>");
    has_text("_ZN1AC5IiEET_", 99, SYMDEMANGLE_WIDE + SYMDEMANGLE_BRIEF + SYMDEMANGLE_NO_PARAMETERS, "A::A");
    has_text("_Z1fIJicEEvDpT_", 56, SYMDEMANGLE_WIDE, "void f<int, char>(int, char)");
    has_text("_RNvMC3fooINtB2_1AhE3baz", 99, SYMDEMANGLE_WIDE + SYMDEMANGLE_BRIEF, "<foo::A>::baz");
    is_refused("_ZN1AC4Ev", 10, SYMDEMANGLE_WIDE, SYMDEMANGLE_TOO_LONG, 0);
    is_refused("_ZN1AC4Ev", 99, 0, SYMDEMANGLE_MALFORMED, 6);
    is_refused("_ZN1AC6Ev", 99, SYMDEMANGLE_WIDE, SYMDEMANGLE_MALFORMED, 6);
}

static void legacy_texts(void)
{
    static const char path[] = "_ZN60_$LT$alloc..string..String$u20$as$u20$core..fmt..Display$GT$3fmt17h0123456789abcdefE";
    has_text("_ZN3foo3bar17h0123456789abcdefE", 13, SYMDEMANGLE_LEGACY, "foo::bar");
    has_text("_ZN3foo3bar17h0123456789abcdefE", 34, 0, "foo::bar::h0123456789abcdef");
    has_text("__ZN3foo3bar17h0123456789abcdefE", 13, SYMDEMANGLE_LEGACY + SYMDEMANGLE_UNDERSCORE, "foo::bar");
    has_text("_ZN3foo3bar17h0123456789abcdefE", 13, SYMDEMANGLE_LEGACY + SYMDEMANGLE_WIDE + SYMDEMANGLE_BRIEF, "foo::bar");
    has_text("_ZN3foo3bar17h0123456789abcdefE.llvm.1", 99, SYMDEMANGLE_LEGACY, "foo::bar (.llvm.1)");
    has_text(path, 99, SYMDEMANGLE_LEGACY, "<alloc::string::String as core::fmt::Display>::fmt");
    has_text("_ZN1AC4Ev", 99, SYMDEMANGLE_LEGACY + SYMDEMANGLE_WIDE, "A::A()");
    has_text("_Z1fIJicEEvDpT_", 56, SYMDEMANGLE_LEGACY, "void f<int, char>(int, char)");
    is_refused("_ZN3foo3bar17h0123456789abcdefE", 12, SYMDEMANGLE_LEGACY, SYMDEMANGLE_TOO_LONG, 0);
    is_refused("_ZN3foo3bar17h0123456789abcdef", 99, SYMDEMANGLE_LEGACY, SYMDEMANGLE_MALFORMED, 30);
}

static void names_of_other_kinds(void)
{
    has_text("__Z1fv", 99, SYMDEMANGLE_UNDERSCORE, "f()");
    has_text("_Z1fv", 99, SYMDEMANGLE_UNDERSCORE, "f()");
    has_text("__RNvC3foo3bar", 99, SYMDEMANGLE_UNDERSCORE, "foo::bar");
    has_text("__ZN1AC4Ev", 99, SYMDEMANGLE_UNDERSCORE + SYMDEMANGLE_WIDE, "A::A()");
    is_refused("__Z1fY", 99, SYMDEMANGLE_UNDERSCORE, SYMDEMANGLE_MALFORMED, 5);
    is_refused("__RNvB_3foo", 99, SYMDEMANGLE_UNDERSCORE, SYMDEMANGLE_BAD_REFERENCE, 5);
    is_refused("__ZN1AC6Ev", 99, SYMDEMANGLE_UNDERSCORE + SYMDEMANGLE_WIDE, SYMDEMANGLE_MALFORMED, 7);
    is_refused("__Z1fv", 99, 0, SYMDEMANGLE_NO_SYMBOL, 0);
    is_refused("__RNvC3foo3bar", 99, SYMDEMANGLE_WIDE, SYMDEMANGLE_NO_SYMBOL, 0);
    is_refused("___Z1fv", 99, SYMDEMANGLE_UNDERSCORE, SYMDEMANGLE_NO_SYMBOL, 0);
    is_refused("main", 99, SYMDEMANGLE_UNDERSCORE, SYMDEMANGLE_NO_SYMBOL, 0);
    is_refused("_", 99, 0, SYMDEMANGLE_NO_SYMBOL, 0);
    is_refused("", 99, SYMDEMANGLE_UNDERSCORE, SYMDEMANGLE_NO_SYMBOL, 0);
    is_refused("_Z", 99, 0, SYMDEMANGLE_MALFORMED, 2);
}

/* Names that are types; a limit is that of the symbol of their information. */
static void types(void)
{
    has_text("PKc", 32, SYMDEMANGLE_TYPES, "char const*");
    has_text("N1A1BE", 99, SYMDEMANGLE_TYPES + SYMDEMANGLE_UNDERSCORE, "A::B");
    has_text("St4pairIiiE", 99, SYMDEMANGLE_TYPES + SYMDEMANGLE_BRIEF, "std::pair");
    has_text("_Z1fv", 99, SYMDEMANGLE_TYPES, "f()");
    is_refused("PKc", 31, SYMDEMANGLE_TYPES, SYMDEMANGLE_TOO_LONG, 0);
    is_refused("PKc", 99, 0, SYMDEMANGLE_NO_SYMBOL, 0);
    is_refused("PK", 99, SYMDEMANGLE_TYPES, SYMDEMANGLE_MALFORMED, 2);
    is_refused("PKS5_", 99, SYMDEMANGLE_TYPES, SYMDEMANGLE_BAD_REFERENCE, 2);
    is_refused("main", 99, SYMDEMANGLE_TYPES, SYMDEMANGLE_MALFORMED, 1);
    is_refused("PKc.1", 99, SYMDEMANGLE_TYPES, SYMDEMANGLE_NO_SYMBOL, 0);
    is_refused("PKc d", 99, SYMDEMANGLE_TYPES, SYMDEMANGLE_NO_SYMBOL, 0);
    is_refused("__Z1fv", 99, SYMDEMANGLE_TYPES, SYMDEMANGLE_MALFORMED, 0);
    is_refused("_Z1fY", 99, SYMDEMANGLE_TYPES, SYMDEMANGLE_MALFORMED, 4);
    is_refused("", 99, SYMDEMANGLE_TYPES, SYMDEMANGLE_MALFORMED, 0);
}

/* Short texts, whose limit is that of the whole text. */
static void short_texts(void)
{
    static const char *const name = "_Z1fNSt3__16vectorIiNS_9allocatorIiEEEE";
    uint32_t keeps = SYMDEMANGLE_SHORT + SYMDEMANGLE_KEEP_INLINE;
    has_text(name, 99, SYMDEMANGLE_SHORT, "f(std::vector<int>)");
    has_text(name, 99, keeps, "f(std::__1::vector<int>)");
    has_text(name, 99, SYMDEMANGLE_KEEP_INLINE, "f(std::__1::vector<int, std::__1::allocator<int>>)");
    has_text(name, 99, SYMDEMANGLE_SHORT + SYMDEMANGLE_NO_PARAMETERS, "f");
    has_text("_Z1fNSt7__cxx1112basic_stringIcSt11char_traitsIcESaIcEEE", 199, SYMDEMANGLE_SHORT + SYMDEMANGLE_WIDE, "f(std::string)");
    has_text("St6vectorIiSaIiEE", 99, SYMDEMANGLE_SHORT + SYMDEMANGLE_TYPES, "std::vector<int>");
    has_text("_RNvC3foo3bar", 99, keeps + SYMDEMANGLE_LEGACY, "foo::bar");
    is_refused(name, 49, SYMDEMANGLE_SHORT, SYMDEMANGLE_TOO_LONG, 0);
    is_refused("_Z1fY", 99, SYMDEMANGLE_SHORT, SYMDEMANGLE_MALFORMED, 4);
}

static void is_told(const symdemangle_result *told, uint32_t status, size_t length, uint32_t offset, const char *name)
{
    check(told->status == status && told->length == length && told->offset == offset, "one of many", name);
}

static void many(void)
{
    static const char names[] = "_Z1fv_RNvC3foo3bar_Z1fYmain_RNvC3foo3baz";
    static const size_t ends[] = {5, 18, 23, 27, 40}, falling[] = {5, 4}, beyond[] = {5, 99};
    static const symdemangle_result untold = {9, 9, 9};
    symdemangle_result told[5];
    size_t length = sizeof names - 1;
    memset(buffer, '#', sizeof buffer);
    check(symdemangle_texts(names, length, ends, 5, 99, 0, buffer, sizeof buffer, told) == SYMDEMANGLE_OK, "many", "");
    is_told(&told[0], SYMDEMANGLE_OK, 3, 0, "_Z1fv");
    is_told(&told[1], SYMDEMANGLE_OK, 8, 0, "_RNvC3foo3bar");
    is_told(&told[2], SYMDEMANGLE_MALFORMED, 0, 4, "_Z1fY");
    is_told(&told[3], SYMDEMANGLE_NO_SYMBOL, 0, 0, "main");
    is_told(&told[4], SYMDEMANGLE_OK, 8, 0, "_RNvC3foo3baz");
    check(memcmp(buffer, "f()foo::barfoo::baz", 19) == 0 && is_kept(19), "texts of many", "");
    memset(buffer, '#', sizeof buffer);
    check(symdemangle_texts(names, 18, ends, 2, 99, 0, buffer, 7, told) == SYMDEMANGLE_OK, "many in a small buffer", "");
    is_told(&told[0], SYMDEMANGLE_OK, 3, 0, "_Z1fv");
    is_told(&told[1], SYMDEMANGLE_BUFFER, 8, 0, "_RNvC3foo3bar");
    check(memcmp(buffer, "f()", 3) == 0 && is_kept(3), "what fits of many", "");
    memset(buffer, '#', sizeof buffer);
    told[0] = told[1] = untold;
    check(symdemangle_texts(names, length, falling, 2, 99, 0, buffer, sizeof buffer, told) == SYMDEMANGLE_ENDS, "ends that go down", "");
    check(symdemangle_texts(names, length, beyond, 2, 99, 0, buffer, sizeof buffer, told) == SYMDEMANGLE_ENDS, "an end past the bytes", "");
    check(symdemangle_texts(names, length, ends, 2, 99, 1024, buffer, sizeof buffer, told) == SYMDEMANGLE_FLAGS, "flags of many", "");
    check(symdemangle_texts(names, length, NULL, 2, 99, 0, buffer, sizeof buffer, told) == SYMDEMANGLE_NULL, "null ends", "");
    check(symdemangle_texts(names, length, ends, 2, 99, 0, buffer, sizeof buffer, NULL) == SYMDEMANGLE_NULL, "null results", "");
    check(told[0].status == 9 && told[1].offset == 9 && is_kept(0), "results that are kept", "");
    check(symdemangle_texts(NULL, 0, NULL, 0, 99, 0, NULL, 0, NULL) == SYMDEMANGLE_OK, "none of many", "");
}

static void many_of_other_kinds(void)
{
    static const char names[] = "_ZN1AC4Ev_Z1fv__Z1fY_ZN1a1b17h0123456789abcdefEPKc";
    static const size_t ends[] = {9, 14, 20, 47, 50};
    static const uint32_t flags = SYMDEMANGLE_WIDE + SYMDEMANGLE_LEGACY + SYMDEMANGLE_UNDERSCORE + SYMDEMANGLE_TYPES;
    symdemangle_result told[5];
    memset(buffer, '#', sizeof buffer);
    check(symdemangle_texts(names, 50, ends, 5, 99, flags, buffer, sizeof buffer, told) == SYMDEMANGLE_OK, "many, wide", "");
    is_told(&told[0], SYMDEMANGLE_OK, 6, 0, "_ZN1AC4Ev");
    is_told(&told[1], SYMDEMANGLE_OK, 3, 0, "_Z1fv");
    is_told(&told[2], SYMDEMANGLE_MALFORMED, 0, 5, "__Z1fY");
    is_told(&told[3], SYMDEMANGLE_OK, 4, 0, "_ZN1a1b17h0123456789abcdefE");
    is_told(&told[4], SYMDEMANGLE_OK, 11, 0, "PKc");
    check(memcmp(buffer, "A::A()f()a::bchar const*", 24) == 0 && is_kept(24), "texts of many, wide", "");
}

static void filters_to(const char *log, uint32_t flags, const char *text, unsigned words, unsigned replaced)
{
    symdemangle_result result;
    symdemangle_tally tally = {9, 9, 9};
    size_t length = strlen(text);
    memset(buffer, '#', sizeof buffer);
    uint32_t status = symdemangle_filter(log, strlen(log), 99, flags, buffer, sizeof buffer, &tally, &result);
    check(status == SYMDEMANGLE_OK && result.status == status && result.length == length && result.offset == 0, "filter", log);
    check(memcmp(buffer, text, length) == 0 && is_kept(length), "filtered text", log);
    check(tally.words == words && tally.replaced == replaced && tally.refused == words - replaced, "tally", log);
    tally.words = 9;
    memset(buffer, '#', sizeof buffer);
    status = symdemangle_filter(log, strlen(log), 99, flags, buffer, length - 1, &tally, &result);
    check(status == SYMDEMANGLE_BUFFER && result.length == length && tally.words == 9 && is_kept(0), "filter without room", log);
    status = symdemangle_filter(log, strlen(log), 99, flags, buffer, sizeof buffer, NULL, &result);
    check(status == SYMDEMANGLE_OK && memcmp(buffer, text, length) == 0, "filter without a tally", log);
}

static void filtered_texts(void)
{
    symdemangle_result result;
    symdemangle_tally tally = {9, 9, 9};
    filters_to("at _RNvC3foo3bar. (_RNvC3fo) _Z1fv.", 0, "at foo::bar. (_RNvC3fo) f().", 3, 2);
    filters_to("_ZN1AC4Ev __Z1fv", SYMDEMANGLE_WIDE, "A::A() f()", 2, 2);
    filters_to("_ZN1a1b17h0123456789abcdefE _ZN1AC4Ev", SYMDEMANGLE_LEGACY, "a::b _ZN1AC4Ev", 2, 1);
    filters_to("_ZN1a1b17h0123456789abcdefE _ZN1AC4Ev", SYMDEMANGLE_LEGACY + SYMDEMANGLE_WIDE, "a::b A::A()", 2, 2);
    filters_to("\xe2\x80\x98_Z1fv\xe2\x80\x99 _Z1gv", 0, "\xe2\x80\x98_Z1fv\xe2\x80\x99 g()", 1, 1);
    filters_to("\xe2\x80\x98_Z1fv\xe2\x80\x99 _Z1gv", SYMDEMANGLE_ASCII_WORDS, "\xe2\x80\x98" "f()\xe2\x80\x99 g()", 2, 2);
    filters_to("\xe2\x80\x98_Z1fv\xe2\x80\x99 .text._Z1gv a._ZL5caf\xc3\xa9", SYMDEMANGLE_WITHIN, "\xe2\x80\x98" "f()\xe2\x80\x99 .text.g() a.caf\xc3\xa9", 3, 3);
    filters_to("_ZL5caf\xc3\xa9 .text._Z1gv", SYMDEMANGLE_WITHIN + SYMDEMANGLE_ASCII_WORDS, "caf\xc3\xa9 .text.g()", 2, 2);
    filters_to(".text._Z1gv PKc", SYMDEMANGLE_TYPES, ".text._Z1gv PKc", 0, 0);
    check(symdemangle_filter("a", 1, 99, 1024, buffer, sizeof buffer, &tally, &result) == SYMDEMANGLE_FLAGS && tally.words == 9, "flags of a filter", "");
    check(symdemangle_filter(NULL, 0, 99, 0, NULL, 0, &tally, &result) == SYMDEMANGLE_OK && result.length == 0 && tally.words == 0, "empty text", "");
}

static void has_counts(const char *name, uint32_t flags, uint32_t rows, uint32_t nodes, uint32_t steps)
{
    symdemangle_result result;
    symdemangle_counts counts = {9, 9, 9};
    check(symdemangle_count(name, strlen(name), flags, &counts, &result) == SYMDEMANGLE_OK && result.status == 0 && result.offset == 0, "counts", name);
    check(counts.rows == rows && counts.nodes == nodes && counts.steps == steps, "numbers of the counts", name);
}

static void is_uncounted(const char *name, uint32_t flags, uint32_t status, uint32_t offset)
{
    symdemangle_result result;
    symdemangle_counts counts = {9, 9, 9};
    check(symdemangle_count(name, strlen(name), flags, &counts, &result) == status && result.status == status && result.offset == offset &&
          counts.rows == 9 && counts.nodes == 9 && counts.steps == 9, "no counts", name);
}

static void counted(void)
{
    symdemangle_counts counts;
    symdemangle_result result;
    has_counts("_RNvMC3fooINtB2_1AhE3baz", 0, 18, 11, 56);
    has_counts("_RNvMC3fooINtB2_1AhE3baz", SYMDEMANGLE_BRIEF + SYMDEMANGLE_LEGACY, 18, 11, 56);
    is_uncounted("_R", 0, SYMDEMANGLE_MALFORMED, 2);
    is_uncounted("__R", SYMDEMANGLE_UNDERSCORE, SYMDEMANGLE_MALFORMED, 3);
    is_uncounted("__R", 0, SYMDEMANGLE_NO_SYMBOL, 0);
    is_uncounted("_ZN1AC4Ev", 0, SYMDEMANGLE_MALFORMED, 6);
    is_uncounted("PKc", SYMDEMANGLE_TYPES, SYMDEMANGLE_NO_SYMBOL, 0);
    is_uncounted("_Z1fv", 1024, SYMDEMANGLE_FLAGS, 0);
    check(symdemangle_count("_ZN1AC4Ev", 9, SYMDEMANGLE_WIDE, &counts, &result) == SYMDEMANGLE_OK, "wide counts", "_ZN1AC4Ev");
}

/* The parts of a name, as "role:start+length@from-to" with blanks between, and its kind. */
static void has_parts(const char *name, uint32_t flags, const char *kind, uint32_t mangling, const char *text, const char *wanted)
{
    symdemangle_part parts[16];
    symdemangle_name told;
    char shown[512] = "";
    size_t k, used = 0;
    memset(buffer, '#', sizeof buffer);
    check(symdemangle_parts(name, strlen(name), 999, flags, buffer, sizeof buffer, parts, 16, &told) == SYMDEMANGLE_OK && told.status == 0 &&
          told.offset == 0, "status of parts", name);
    check(told.length == strlen(text) && memcmp(buffer, text, told.length) == 0 && is_kept(told.length), "text with parts", name);
    check(symdemangle_kind(told.kind) && strcmp(symdemangle_kind(told.kind), kind) == 0 && told.mangling == mangling, "kind", name);
    for (k = 0; k < told.count && used < sizeof shown; k++)
        used += (size_t)snprintf(shown + used, sizeof shown - used, "%s%s:%u+%u@%u-%u", k ? " " : "", symdemangle_role(parts[k].role),
                                 (unsigned)parts[k].start, (unsigned)parts[k].length, (unsigned)parts[k].from, (unsigned)parts[k].to);
    check(strcmp(shown, wanted) == 0, "parts", name);
    memset(buffer, '#', sizeof buffer);
    check(symdemangle_parts(name, strlen(name), 999, flags, buffer, sizeof buffer, parts, told.count - 1, &told) == SYMDEMANGLE_BUFFER &&
          told.length == strlen(text) && is_kept(0), "too few parts", name);
    k = told.count;
    check(symdemangle_parts(name, strlen(name), 999, flags, buffer, strlen(text) - 1, parts, 16, &told) == SYMDEMANGLE_BUFFER &&
          told.count == k && told.length == strlen(text) && is_kept(0), "a buffer that is too small for parts", name);
    check(symdemangle_parts(name, strlen(name), 999, flags, NULL, 0, NULL, 0, &told) == SYMDEMANGLE_BUFFER && told.count == k, "no parts", name);
}

static void has_no_parts(const char *name, uint32_t limit, uint32_t flags, uint32_t status, uint32_t offset)
{
    symdemangle_part parts[4];
    symdemangle_name told;
    memset(buffer, '#', sizeof buffer);
    check(symdemangle_parts(name, strlen(name), limit, flags, buffer, sizeof buffer, parts, 4, &told) == status && told.status == status &&
          told.offset == offset && told.length == 0 && told.count == 0 && told.kind == 0 && told.mangling == 0 && is_kept(0), "no parts", name);
}

static void parts_of_texts(void)
{
    symdemangle_part part;
    symdemangle_name told;
    has_parts("_ZTV1A", 0, "vtable", SYMDEMANGLE_ITANIUM, "vtable for A", "special:0+10@2-4 object:11+1@4-6");
    has_parts("_ZNK1A1fIiEEvT_", 0, "function", SYMDEMANGLE_ITANIUM, "void A::f<int>(int) const",
              "return_type:0+4@12-13 scope:5+1@4-6 base:8+1@6-8 generic_arguments:9+5@8-11 generic_argument:10+3@9-10 parameters:14+5@13-15 "
              "parameter:15+3@13-15 qualifiers:19+6@3-4");
    has_parts("_ZNK1A1fIiEEvT_", SYMDEMANGLE_BRIEF + SYMDEMANGLE_NO_PARAMETERS, "function", SYMDEMANGLE_ITANIUM, "A::f",
              "scope:0+1@4-6 base:3+1@6-8");
    has_parts("__ZN1AC4Ev", SYMDEMANGLE_WIDE + SYMDEMANGLE_UNDERSCORE, "constructor", SYMDEMANGLE_ITANIUM, "A::A()",
              "scope:0+1@4-6 base:3+1@6-8 parameters:4+2@9-10");
    has_parts("_ZN3foo3bar17h0123456789abcdefE", SYMDEMANGLE_LEGACY, "value", SYMDEMANGLE_RUST_LEGACY, "foo::bar",
              "scope:0+3@3-7 crate:0+3@3-7 base:5+3@7-11 hash:8+0@11-30");
    has_no_parts("_Z1fv", 5, 0, SYMDEMANGLE_TOO_LONG, 0);
    has_no_parts("_Z1fY", 99, 0, SYMDEMANGLE_MALFORMED, 4);
    has_no_parts("main", 99, 0, SYMDEMANGLE_NO_SYMBOL, 0);
    has_no_parts("_Z1fv", 99, SYMDEMANGLE_SHORT, SYMDEMANGLE_FLAGS, 0);
    has_no_parts("_Z1fv", 99, SYMDEMANGLE_TYPES, SYMDEMANGLE_FLAGS, 0);
    has_no_parts("_Z1fv", 99, 1024, SYMDEMANGLE_FLAGS, 0);
    check(symdemangle_parts("_Z1fv", 5, 99, 0, buffer, 9, NULL, 1, &told) == SYMDEMANGLE_NULL && told.status == SYMDEMANGLE_NULL, "null parts", "");
    check(symdemangle_parts(NULL, 5, 99, 0, buffer, 9, &part, 1, &told) == SYMDEMANGLE_NULL && told.count == 0, "null name with parts", "");
    check(symdemangle_parts("_Z1fv", 5, 99, 0, buffer, 9, &part, 1, NULL) == SYMDEMANGLE_NULL, "null result of parts", "");
    check(!symdemangle_role(0) && !symdemangle_kind(0) && !symdemangle_role(1000) && !symdemangle_kind(1000), "no words", "");
    check(strcmp(symdemangle_role(SYMDEMANGLE_ROLE_BASE), "base") == 0 && strcmp(symdemangle_kind(SYMDEMANGLE_KIND_CRATE), "crate") == 0, "words", "");
}

static void presses_to(const char *repeated, uint32_t flags, const char *pressed)
{
    symdemangle_result result;
    memset(buffer, '#', sizeof buffer);
    check(symdemangle_press(repeated, strlen(repeated), flags, buffer, sizeof buffer, &result) == SYMDEMANGLE_OK, "press", repeated);
    check(result.length == strlen(pressed) && memcmp(buffer, pressed, result.length) == 0 && is_kept(result.length), "pressed", repeated);
}

static void is_unpressed(const char *name, uint32_t flags, uint32_t status, uint32_t offset)
{
    symdemangle_result result;
    memset(buffer, '#', sizeof buffer);
    check(symdemangle_press(name, strlen(name), flags, buffer, sizeof buffer, &result) == status && result.offset == offset && is_kept(0),
          "press what is refused", name);
}

static void pressed_spellings(void)
{
    presses_to("_RINvC3foo3barNtC3foo1AE", 0, "_RINvC3foo3barNtB2_1AE");
    presses_to("_ZN3foo3barEN3foo3bazE", 0, "_ZN3foo3barENS_3bazE");
    presses_to("_ZN3foo3barENS_3bazE", SYMDEMANGLE_BRIEF + SYMDEMANGLE_LEGACY, "_ZN3foo3barENS_3bazE");
    presses_to("__ZN3foo3barEN3foo3bazE", SYMDEMANGLE_UNDERSCORE, "__ZN3foo3barENS_3bazE");
    is_unpressed("_ZN1AC4Ev", 0, SYMDEMANGLE_MALFORMED, 6);
    is_unpressed("_Z1fS_", 0, SYMDEMANGLE_BAD_REFERENCE, 4);
    is_unpressed("main", 0, SYMDEMANGLE_NO_SYMBOL, 0);
    presses_to("_Z1f1AIiENS_IcEE", SYMDEMANGLE_WIDE, "_Z1f1AIiES_IcE");
    is_unpressed("_ZN1AC6Ev", SYMDEMANGLE_WIDE, SYMDEMANGLE_MALFORMED, 6);
    is_unpressed("_Z1fIiEDTstT_ES0_", SYMDEMANGLE_WIDE, SYMDEMANGLE_NO_SPELLING, 0);
    is_unpressed("PKc", SYMDEMANGLE_TYPES, SYMDEMANGLE_NO_SYMBOL, 0);
    is_unpressed("_Z1fv", 1024, SYMDEMANGLE_FLAGS, 0);
}

static void bad_arguments(void)
{
    symdemangle_result result = {9, 9, 9};
    symdemangle_counts counts;
    memset(buffer, '#', sizeof buffer);
    check(symdemangle_text(NULL, 0, 99, 0, buffer, sizeof buffer, &result) == SYMDEMANGLE_NO_SYMBOL && is_kept(0), "no bytes", "");
    check(symdemangle_text(NULL, 1, 99, 0, buffer, sizeof buffer, &result) == SYMDEMANGLE_NULL && result.status == 9 && is_kept(0), "null name", "");
    check(symdemangle_text("_R", 2, 99, 0, NULL, 1, &result) == SYMDEMANGLE_NULL, "null buffer", "");
    check(symdemangle_text("_R", 2, 99, 0, buffer, 1, NULL) == SYMDEMANGLE_NULL && is_kept(0), "null result", "");
    check(symdemangle_filter(NULL, 1, 99, 0, buffer, 1, NULL, &result) == SYMDEMANGLE_NULL, "null text", "");
    check(symdemangle_filter("a", 1, 99, 0, buffer, 1, NULL, NULL) == SYMDEMANGLE_NULL && is_kept(0), "null result of a filter", "");
    check(symdemangle_count("_R", 2, 0, NULL, &result) == SYMDEMANGLE_NULL, "null counts", "");
    check(symdemangle_count("_R", 2, 0, &counts, NULL) == SYMDEMANGLE_NULL, "null result of counts", "");
    check(symdemangle_press(NULL, 1, 0, buffer, 1, &result) == SYMDEMANGLE_NULL && is_kept(0), "null name to press", "");
    check(symdemangle_version() == SYMDEMANGLE_VERSION, "version", "");
}

static void has_message(uint32_t status, const char *message)
{
    check(strcmp(symdemangle_message(status), message) == 0, "message", message);
}

static void messages(void)
{
    uint32_t status;
    has_message(SYMDEMANGLE_OK, "done");
    has_message(SYMDEMANGLE_MALFORMED, "malformed symbol");
    has_message(SYMDEMANGLE_MEMORY, "out of memory");
    has_message(SYMDEMANGLE_ENDS, "the ends of names are out of order");
    has_message(SYMDEMANGLE_NO_SYMBOL, "not a symbol");
    has_message(SYMDEMANGLE_NO_SPELLING, "no spelling yet");
    has_message(13, "an unknown status");
    has_message(0xffffffffu, "an unknown status");
    for (status = 0; status < 12; status++)
        check(*symdemangle_message(status) != 0, "a message", "");
}

/* A C string of its own, short and long. */
static void strings(void)
{
    static char name[5100];
    char *text = symdemangle_string("_ZN3foo3barEPKc", SYMDEMANGLE_WIDE);
    check(text && strcmp(text, "foo::bar(char const*)") == 0, "string", "_ZN3foo3barEPKc");
    symdemangle_free(text);
    memset(name, 'a', sizeof name);
    memcpy(name, "_RNvC3foo5000", 13);
    name[5013] = 0;
    text = symdemangle_string(name, 0);
    check(text && strlen(text) == 5005 && memcmp(text, "foo::aaa", 8) == 0, "long string", "");
    symdemangle_free(text);
    text = symdemangle_string("PKc", SYMDEMANGLE_TYPES);
    check(text && strcmp(text, "char const*") == 0, "string", "PKc");
    symdemangle_free(text);
    check(symdemangle_string("main", SYMDEMANGLE_TYPES) == NULL, "string that is no type", "main");
    check(symdemangle_string("main", SYMDEMANGLE_UNDERSCORE) == NULL, "string", "main");
    check(symdemangle_string("_Z1fv", 1024) == NULL, "flags of a string", "");
    check(symdemangle_string(NULL, 0) == NULL, "null string", "");
    symdemangle_free(NULL);
}

int main(void)
{
    texts();
    wide_texts();
    legacy_texts();
    names_of_other_kinds();
    types();
    short_texts();
    many();
    many_of_other_kinds();
    filtered_texts();
    parts_of_texts();
    counted();
    pressed_spellings();
    bad_arguments();
    messages();
    strings();
    puts(failed ? "FAILED" : "ok");
    return failed;
}
