// symdemangle.h for C++: texts as std::string, and std::optional where a name may have none. It needs C++17.
//
//     std::cout << symdemangle::text_or_name("_ZN3foo3barEPKc");      // foo::bar(char const*)
//     std::cout << symdemangle::type_or_name("PKc");                  // char const*
//
// A call that runs out of memory throws std::bad_alloc; nothing else throws. Over a shared library of an earlier version, which doesn't
// know SYMDEMANGLE_WITHIN or SYMDEMANGLE_TYPES, these calls do without: words begin where runs do, and no types are read.
#ifndef SYMDEMANGLE_HPP
#define SYMDEMANGLE_HPP

#if (defined(_MSVC_LANG) ? _MSVC_LANG : __cplusplus) < 201703L
#error "symdemangle.hpp needs C++17 (-std=c++17); symdemangle.h serves from C++11 on"
#else

#include "symdemangle.h"

#include <cstdint>
#include <memory>
#include <new>
#include <optional>
#include <string>
#include <string_view>
#include <utility>
#include <vector>

namespace symdemangle {

// What is requested: a sum of symdemangle_flags, and what a text may cost. A text is filtered by the words of the program demangle.
struct options {
    std::uint32_t flags = SYMDEMANGLE_WIDE | SYMDEMANGLE_LEGACY | SYMDEMANGLE_UNDERSCORE | SYMDEMANGLE_WITHIN;
    std::uint32_t limit = SYMDEMANGLE_DEFAULT_LIMIT;
};

// Why a name has no text, and how many bytes are before the first bad one.
struct refusal {
    std::uint32_t status = SYMDEMANGLE_OK;
    std::uint32_t offset = 0;
    const char *what() const noexcept { return symdemangle_message(status); }
};

// A part of a text: its role (symdemangle_roles), what the text has of it, and the bytes that spell it. `text` is a view of the text, and
// `bytes` one of the name that was given, which has to be there as long as it is used. Parts that the text doesn't have, as the hash of an
// older Rust name, have an empty `text`.
struct part {
    std::uint32_t role = 0;
    std::string_view text;
    std::string_view bytes;
};

// The text of a name, what the name is (symdemangle_kinds, symdemangle_manglings), and the parts of the text, in the order of their starts.
struct parsed {
    std::string_view text;
    std::uint32_t kind = 0;
    std::uint32_t mangling = 0;
    std::vector<part> parts;
    std::shared_ptr<const char[]> held; // the text, which copies share

    // What the text has of the first part of a role; none where there is no such part.
    std::string_view first(std::uint32_t role) const noexcept
    {
        for (const part &which : parts)
            if (which.role == role)
                return which.text;
        return {};
    }

    std::string_view base() const { return first(SYMDEMANGLE_ROLE_BASE); }
    std::string_view scope() const { return first(SYMDEMANGLE_ROLE_SCOPE); }
};

// The work that a symbol made.
using counts = symdemangle_counts;

// Of a text's words that begin like symbols: how many there are, how many were replaced by a text, and how many weren't.
using tally = symdemangle_tally;

namespace detail {

// The flags that matter to a call that takes names. Flags for the words of a text are left out, so that a library that doesn't know
// these flags yet doesn't get them.
constexpr std::uint32_t of_names(std::uint32_t flags) noexcept
{
    return flags & ~std::uint32_t{SYMDEMANGLE_WITHIN};
}

// Calls with a buffer on the stack, and once more with a buffer of the reported length; null where there is no text.
template <class Call> std::optional<std::string> written(Call call, symdemangle_result &result)
{
    char few[4096];
    std::optional<std::string> text;
    if (call(few, sizeof few) == SYMDEMANGLE_OK) {
        text.emplace(few, result.length);
    } else if (result.status == SYMDEMANGLE_BUFFER) {
        text.emplace(result.length, '\0');
        if (call(&(*text)[0], text->size()) != SYMDEMANGLE_OK)
            text.reset();
    }
    if (result.status == SYMDEMANGLE_MEMORY)
        throw std::bad_alloc();
    return text;
}

inline void tell(const symdemangle_result &result, refusal *why) noexcept
{
    if (why)
        *why = {result.status, result.offset};
}

} // namespace detail

// The text of a name, if it has one; otherwise `why`, if given, says why not.
inline std::optional<std::string> text(std::string_view name, options asked = {}, refusal *why = nullptr)
{
    symdemangle_result result;
    auto made = detail::written(
        [&](char *buffer, std::size_t capacity) {
            return symdemangle_text(name.data(), name.size(), asked.limit, detail::of_names(asked.flags), buffer, capacity, &result);
        },
        result);
    detail::tell(result, why);
    return made;
}

// The text of a name with its parts, if it has one; otherwise `why`, if given, says why not. Short texts and types have no parts:
// with their flags there is none.
inline std::optional<parsed> parts(std::string_view name, options asked = {}, refusal *why = nullptr)
{
    symdemangle_name told;
    std::size_t length = 4096;
    std::vector<symdemangle_part> found(32);
    std::shared_ptr<char[]> held;
    do {
        held.reset(new char[length]);
        symdemangle_parts(name.data(), name.size(), asked.limit, detail::of_names(asked.flags), held.get(), length, found.data(),
                          found.size(), &told);
        length = told.length;
        found.resize(told.count);
    } while (told.status == SYMDEMANGLE_BUFFER);
    if (told.status == SYMDEMANGLE_MEMORY)
        throw std::bad_alloc();
    detail::tell({told.length, told.offset, told.status}, why);
    if (told.status != SYMDEMANGLE_OK)
        return std::nullopt;
    parsed made;
    made.text = {held.get(), told.length};
    made.kind = told.kind;
    made.mangling = told.mangling;
    made.parts.reserve(found.size());
    for (const symdemangle_part &one : found)
        made.parts.push_back({one.role, made.text.substr(one.start, one.length), name.substr(one.from, one.to - one.from)});
    made.held = std::move(held);
    return made;
}

// The text of a name, or the name where it has none.
inline std::string text_or_name(std::string_view name, options asked = {})
{
    auto made = text(name, asked);
    return made ? *made : std::string(name);
}

// The text of a type, as typeid(x).name() gives it, or of a symbol; the name where it has none.
inline std::string type_or_name(std::string_view name, options asked = {})
{
    refusal why;
    auto made = text(name, {asked.flags | SYMDEMANGLE_TYPES, asked.limit}, &why);
    return made ? *made : why.status == SYMDEMANGLE_FLAGS ? text_or_name(name, asked) : std::string(name);
}

// The texts of many names, or the names of those that have none, with one set of lists for all of them.
inline std::vector<std::string> texts_or_names(const std::vector<std::string_view> &names, options asked = {})
{
    std::string all;
    std::vector<std::size_t> ends;
    for (std::string_view name : names)
        ends.push_back(all.append(name).size());
    std::string buffer(4 * all.size() + 4096, '\0');
    std::vector<symdemangle_result> results(names.size());
    if (symdemangle_texts(all.data(), all.size(), ends.data(), ends.size(), asked.limit, detail::of_names(asked.flags), &buffer[0],
                          buffer.size(), results.data()) != SYMDEMANGLE_OK)
        return std::vector<std::string>(names.begin(), names.end()); // a number that is no flag
    std::vector<std::string> texts;
    std::size_t from = 0;
    for (std::size_t i = 0; i < names.size(); i++) {
        if (results[i].status == SYMDEMANGLE_OK) {
            texts.emplace_back(buffer, from, results[i].length);
            from += results[i].length;
        } else if (results[i].status == SYMDEMANGLE_BUFFER || results[i].status == SYMDEMANGLE_MEMORY) {
            texts.push_back(text_or_name(names[i], asked));
        } else {
            texts.emplace_back(names[i]);
        }
    }
    return texts;
}

// A text with each word that is a symbol replaced by its text, and how many such words it has; null where a number is no flag.
inline std::optional<std::string> filtered(std::string_view log, options asked = {}, tally *found = nullptr)
{
    symdemangle_result result;
    auto made = detail::written(
        [&](char *buffer, std::size_t capacity) {
            return symdemangle_filter(log.data(), log.size(), asked.limit, asked.flags, buffer, capacity, found, &result);
        },
        result);
    if (result.status == SYMDEMANGLE_FLAGS && detail::of_names(asked.flags) != asked.flags)
        return filtered(log, {detail::of_names(asked.flags), asked.limit}, found);
    return made;
}

// The spelling of a name in which each part that repeats is a reference, so that different spellings of the same symbol become
// equal; null where it has none. Of the flags only SYMDEMANGLE_WIDE matters here: newer and rarer C++ forms are spelled, too.
inline std::optional<std::string> pressed(std::string_view name, options asked, refusal *why = nullptr)
{
    symdemangle_result result;
    const std::uint32_t flags = SYMDEMANGLE_UNDERSCORE | (asked.flags & SYMDEMANGLE_WIDE);
    auto made = detail::written(
        [&](char *buffer, std::size_t capacity) {
            return symdemangle_press(name.data(), name.size(), flags, buffer, capacity, &result);
        },
        result);
    detail::tell(result, why);
    return made;
}

// The same without these forms.
inline std::optional<std::string> pressed(std::string_view name, refusal *why = nullptr)
{
    return pressed(name, options{SYMDEMANGLE_UNDERSCORE}, why);
}

// The work that reading a name takes; null where it isn't read.
inline std::optional<counts> counted(std::string_view name, options asked = {}, refusal *why = nullptr)
{
    symdemangle_result result;
    counts made = {0, 0, 0};
    symdemangle_count(name.data(), name.size(), detail::of_names(asked.flags), &made, &result);
    if (result.status == SYMDEMANGLE_MEMORY)
        throw std::bad_alloc();
    detail::tell(result, why);
    return result.status == SYMDEMANGLE_OK ? std::optional<counts>(made) : std::nullopt;
}

} // namespace symdemangle
#endif
#endif
