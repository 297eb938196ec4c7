#!/usr/bin/env python3
"""Checks short texts against their definition, and the laws of short and full texts, over real texts and made-up texts.

    tests/short_texts.py [--seed N] [--made COUNT] [--shown N] SYMFILT [FILE..]

Files have symbols, one per line; without files, the symbols are those of `crates/check_rows/stdin` and of `bench`. The definitions are
those of `crates/short_names/specs`, with the table of `tools/tables/short_names.txt`. What SYMFILT prints with `--short`, with and without
`--keep-inline`, has to be the short text of what it prints without `--short`. Symbols of each template of the table are tested, too. Three
laws have to hold for each of these texts, and for texts made of names of the table, arguments and members, with defaults and without: a
text and its short text have the same full text, a text and its full text have the same short text, and no short text is longer than its
text. The status is 1 where one of these fails. The script prints the number of texts for which the laws are proved."""

import argparse
import os
import random
import re
import subprocess
import sys
from functools import lru_cache

HERE = os.path.dirname(os.path.abspath(__file__))
sys.path.insert(0, os.path.join(HERE, "..", "tools"))

from files import entries  # noqa: E402

# ---- the table

LISTED = entries("short_names.txt")
DEFAULTS = {}
for words in LISTED["template"]:
    colon = words.index(":")
    for name in words[:colon]:
        DEFAULTS[name] = ["" if word == "-" else word for word in words[colon + 1:]]
# in the order of the code's table: by the sizes of the templates' names
ALIASES = sorted(LISTED["alias"], key=lambda it: (len(it[1]), list(DEFAULTS).index(it[1])))
PMR = {name for words in LISTED["pmr"] for name in words}
WHOLE, PART, OTHER, INNER, NESTED = (LISTED[sort][0] for sort in ("whole", "part", "other", "inner", "nested"))


def filled(pattern, first, second, whole):
    """A pattern with its holes filled."""
    holes = {"%0": first, "%1": second, "std::": whole, "%t": "long" if whole == "std::" else "long long"}
    return re.sub("%0|%1|%t|std::", lambda hole: holes[hole[0]], pattern)


def filled_for(whole, elements, pattern):
    return filled(pattern, *[elements[k] if k < len(elements) else "" for k in (0, 1)], whole)


def polymorphic(name):
    """The pattern of the default argument by `std::pmr`; none where a template has no such default."""
    return DEFAULTS[name][-1].replace("std::allocator", "std::pmr::polymorphic_allocator") if name in PMR else ""


# ---- names (specs/Names, Runs)

LETTER = re.compile(r"[\w$.\x80-\xff]", re.ASCII)
RUN = re.compile(r"[\w$.:\x80-\xff]+", re.ASCII)
SIGN = re.compile("<=>|<<|>>|->|<|>")
AFTER = r"(?![\w$.\x80-\xff])"


@lru_cache(maxsize=None)
def std_name(run):
    """The `std::` of a name of std, and what follows it; none where the name isn't one of std."""
    for inline in WHOLE:
        if run.startswith(f"std::{inline}::"):
            whole = f"std::{inline}::"
            break
    else:
        if not run.startswith("std::"):
            return None
        whole = "std::"
    name = run[len(whole):]
    for part in PART:
        if name.startswith(f"{part}::"):
            return whole, name[len(part) + 2:]
    return whole, name


def named(run):
    """The `std::` and the template of a name of the table; none where the table doesn't have the name."""
    std = std_name(run)
    return std if std and std[1] in DEFAULTS else None


def last_part(name):
    return name.rsplit(":", 1)[-1]


def class_of(alias, template):
    return min(last_part(alias), last_part(template), key=len)


def constructs(rest, name):
    """What precedes a constructor's or destructor's name at the beginning of a text; none where the text begins otherwise."""
    found = re.match(f"(::~?){re.escape(name)}{AFTER}", rest, re.ASCII)
    return found[1] if found else None


def ends_name(rest):
    return not rest or rest.startswith("::") or not (LETTER.match(rest) or rest[0] in ":<")


# ---- the walk (specs/Walk)


def by_rules(opens, for_name, for_list, text):
    """A text by rules, and whether its brackets pair."""
    opened, last, at = [], "", 0
    while at < len(text):
        run = RUN.match(text, at)
        if run:
            run = run[0]
            rest = text[at + len(run):]
            if rest.startswith("<") and opens(run):
                opened.append(("<", run, last, []))
                last, at = "", at + len(run) + 1
                continue
            answer = for_name(run, rest)
            if answer:
                last, at = last + answer[0], at + answer[1]
                continue
            if opened and re.search(r"(?<![\w$.\x80-\xff])operator\Z", run, re.ASCII):
                sign = SIGN.match(rest)
                run += sign[0] if sign else ""
            last, at = last + run, at + len(run)
        elif not opened:
            last, at = last + text[at], at + 1
        elif text[at] in "<([{":
            opened.append((text[at], "", last, []))
            last, at = "", at + 1
        elif text[at] in ">)]}":
            bracket, name, before, elements = opened.pop()
            if (text[at] == ">") != (bracket == "<"):
                return text, False
            if bracket == "<":
                written, size = for_list(name, elements + [last], text[at + 1:])
                last, at = before + written, at + 1 + size
            else:
                last, at = before + bracket + last + text[at], at + 1
        elif opened[-1][0] == "<" and text.startswith(", ", at):
            opened[-1][3].append(last)
            last, at = "", at + 2
        else:
            size = 2 if text.startswith("->", at) else 1
            last, at = last + text[at:at + size], at + size
    return (text, False) if opened else (last, True)


def listed(name, elements):
    return f"{name}<{', '.join(elements)}>"


# ---- short texts (specs/Short, Elements, Inlines)


def is_default(whole, name, elements, place):
    pattern = DEFAULTS[name][place] if place < len(DEFAULTS[name]) else ""
    return pattern != "" and elements[place] == filled_for(whole, elements, pattern)


def left_of(whole, name, elements, count):
    while count > 0 and is_default(whole, name, elements, count - 1):
        count -= 1
    return count


def short_list(run, elements, rest):
    if not named(run):
        return listed(run, elements), 0
    whole, name = named(run)
    all_of = len(DEFAULTS[name])
    left = left_of(whole, name, elements, len(elements)) if len(elements) <= all_of else len(elements)
    before = run[:len(run) - len(name)]
    for alias, template, arguments in ALIASES:
        if template == name and ", ".join(elements[:left]) == filled_for(whole, elements, arguments):
            own, other = constructs(rest, last_part(template)), constructs(rest, class_of(alias, template))
            if ends_name(rest) and (own or not other):
                return before + alias + (own + class_of(alias, template) if own else ""), len(own) + len(last_part(template)) if own else 0
            break
    pattern = polymorphic(name)
    if len(elements) == all_of and pattern and elements[-1] == filled_for(whole, elements, pattern):
        return listed(before + "pmr::" + name, elements[:left_of(whole, name, elements, all_of - 1)]), 0
    return listed(run, elements[:left]), 0


def short_name(run, rest):
    std = std_name(run)
    for alias, template, _ in ALIASES if std else ():
        if std[1].startswith(alias):
            behind = len(run) - len(std[1]) + len(alias)
            own = constructs((run + rest)[behind:], last_part(template))
            if own:
                return run[:behind] + own + class_of(alias, template), behind + len(own) + len(last_part(template))
    return None


@lru_cache(maxsize=None)
def short(text):
    """The short text, and whether its brackets pair."""
    return by_rules(lambda run: named(run), short_name, short_list, text)


INLINES = "|".join(PART + WHOLE + OTHER)
INLINE = re.compile(rf"(?<![\w$.:\x80-\xff])std::(?:(?:{INLINES})::)*(?:({'|'.join(INNER)})::(?:(?:{'|'.join(NESTED)})::)*)?", re.ASCII)


def without_inlines(text):
    return INLINE.sub(lambda it: f"std::{it[1]}::" if it[1] else "std::", text)


# ---- full texts (specs/Full)


def pmr_in(run):
    std = std_name(run)
    return (std[0], std[1][5:]) if std and std[1].startswith("pmr::") and std[1][5:] in PMR else None


def defaulted(full, whole, name, count, elements):
    for pattern in DEFAULTS[name][len(elements):count]:
        if not pattern:
            break
        elements = elements + [full(filled_for(whole, elements, pattern))]
    return elements


def full_list(full, run, elements):
    if named(run):
        whole, name = named(run)
        return listed(run, defaulted(full, whole, name, len(DEFAULTS[name]), elements)), 0
    if pmr_in(run):
        whole, name = pmr_in(run)
        every = defaulted(full, whole, name, len(DEFAULTS[name]) - 1, elements)
        if len(every) + 1 == len(DEFAULTS[name]) and left_of(whole, name, elements, len(elements)) == len(elements):
            front = run[:len(run) - len(name)]
            return listed(front[:-5] + name, every + [full(filled_for(whole, every, polymorphic(name)))]), 0
    return listed(run, elements), 0


def full_name(full, run, rest):
    std = std_name(run)
    for alias, template, arguments in ALIASES if std else ():
        text = std[1] + rest
        if std[1].startswith(alias) and ends_name(text[len(alias):]):
            front = run[:len(run) - len(std[1])]
            own = constructs(text[len(alias):], class_of(alias, template))
            written = full(f"{front}{template}<{filled(arguments, '', '', std[0])}>")
            return written + (own + last_part(template) if own else ""), len(front) + len(alias) + (len(own) + len(class_of(alias, template)) if own else 0)
    return None


@lru_cache(maxsize=None)
def full_to(depth, text):
    if depth == 0:
        return text, True

    def within(inner):
        return full_to(depth - 1, inner)[0]

    return by_rules(lambda run: named(run) or pmr_in(run), lambda run, rest: full_name(within, run, rest),
                    lambda run, elements, rest: full_list(within, run, elements), text)


def full(text):
    """The full text, and whether its brackets pair."""
    return full_to(4, text)


# ---- texts for which the laws are proved (specs/Parts, Usual)

FORMS = {"std::less<%0>", "std::allocator<%0>", "std::char_traits<%0>", "std::char_traits<%1>", "std::hash<%0>", "std::equal_to<%0>", "std::default_delete<%0>",
         "std::default_accessor<%0>", "std::regex_traits<%0>", "std::allocator<std::sub_match<%0>>", "std::allocator<std::pair<%0 const, %1>>", "std::layout_right",
         "std::unreachable_sentinel_t", "long", "char", "void", "false", "1l", "18446744073709551615ul", "%1*", "%1&"}
INNER_FORMS = {"std::deque<%0>", "std::vector<%0>", "std::vector<%1>", "std::istreambuf_iterator<%0>", "std::ostreambuf_iterator<%0>", "std::ratio<1l>"}
WITH_ALIAS = {template for _, template, _ in ALIASES}


class NotMade(Exception):
    """Says that a text, or a part of one, isn't made of the parts for which the laws are proved."""


def is_simple(name):
    return all(not pattern or pattern in FORMS | INNER_FORMS for pattern in DEFAULTS[name])


def pass_other(run):
    """Passes a name that isn't one of the table, whatever follows the name."""
    std = std_name(run)
    if named(run) or pmr_in(run) or std and any(std[1].startswith(alias) and not LETTER.match(std[1], len(alias)) for alias, _, _ in ALIASES):
        raise NotMade


def instance(name):
    """The list that a usual name denotes, and the list's template; none where the name isn't a usual name."""
    std = std_name(name)
    for alias, template, arguments in ALIASES if std else ():
        if std[1] == alias:
            return f"{name[:len(name) - len(alias)]}{template}<{filled(arguments, '', '', std[0])}>", template
    return None


@lru_cache(maxsize=None)
def is_usual(name):
    std = std_name(name)
    others = [alias for alias, _, _ in ALIASES if std and std[1].startswith(alias) and len(alias) != len(std[1]) and not LETTER.match(std[1], len(alias))]
    return instance(name) is not None and not others and not named(name) and not pmr_in(name) and full_to(4, instance(name)[0]) == full_to(3, instance(name)[0])


def pass_free(text, at):
    """Passes a place at which neither a name nor a list begins."""
    if at < len(text) and (text[at] == "<" or RUN.match(text, at)):
        raise NotMade
    return at


def pass_list(text, at):
    """The end of the list at a place, which is spelled out or is written by its usual name; none where there is no list."""
    run = RUN.match(text, at)
    if run and text.startswith("<", run.end()) and named(run[0]):
        name = named(run[0])[1]
        if not is_simple(name):
            raise NotMade
        end = pass_elements(text, run.end() + 1, run[0])
        return pass_free(text, end) if name in WITH_ALIAS else end
    if run and instance(run[0]):
        if not is_usual(run[0]) or not is_simple(instance(run[0])[1]):
            raise NotMade
        return pass_free(text, run.end())
    return None


def pass_parts(text, at, in_list):
    """The end of parts that are within brackets."""
    while at < len(text):
        run = RUN.match(text, at)
        end = pass_list(text, at)
        if end is not None:
            at = end
        elif run:
            if re.search(r"(?<![\w$.\x80-\xff])operator\Z", run[0], re.ASCII):
                raise NotMade
            pass_other(run[0])
            at = run.end()
        elif text[at] == "<":
            at = pass_elements(text, at + 1, "")
        elif text[at] in "([{":
            at = pass_parts(text, at + 1, False) + 1
            if text[at - 1:at] not in (")", "]", "}"):
                raise NotMade
        elif text[at] in ")]}>" or in_list and text.startswith(", ", at):
            return at
        elif in_list and text[at] == "," or text[at] == "-" and text[at + 1:at + 2] in (">", ")", "]", "}", ","):
            raise NotMade
        else:
            at += 1
    raise NotMade


def pass_elements(text, at, run):
    """The end of a list. The list's name is given if the table has it."""
    elements = []
    while not elements or text[at - 1] != ">":
        end = pass_parts(text, at, True)
        if text[end] not in ",>":
            raise NotMade
        elements.append(short(text[at:end])[0])
        at = end + (1 if text[end] == ">" else 2)
    if run:
        whole, name = named(run)
        pattern = polymorphic(name)
        if len(elements) == len(DEFAULTS[name]) and pattern and elements[-1] == filled_for(whole, elements, pattern):
            raise NotMade
        left = left_of(whole, name, elements, len(elements)) if len(elements) <= len(DEFAULTS[name]) else len(elements)
        called = short_list(run, elements, "")[0]
        if called != listed(run, elements[:left]) and not (is_usual(called) and instance(called)[0] == listed(run, elements[:left])):
            raise NotMade
    return at


@lru_cache(maxsize=None)
def list_of(name):
    """The full list that a usual name denotes; none where the name isn't a usual one."""
    if not instance(name):
        return None
    front = len(instance(name)[0].split("<", 1)[0]) + 1
    return full(name)[0] if pass_elements(full(name)[0], front, "") == len(full(name)[0]) else None


def behind_usual(behind, alias, template, is_list):
    """The length of the name of a member, constructor or destructor after a usual name or its list; none where something else
    follows."""
    own, usual = last_part(template), class_of(alias, template)
    front = constructs(behind, own if is_list else usual)
    if front and own != usual:
        size = len(front) + len(own if is_list else usual)
        return None if RUN.match(behind, size) else size
    member = RUN.match(behind)
    if not member:
        return None if behind.startswith("<") else 0
    return len(member[0]) if member[0].startswith("::") and len(member[0]) > 2 and not member[0][2:].startswith((own, usual)) else None


def pass_usual(text, at):
    """The end of the usual name at a place of a text, or of the list that it denotes, with a member after it; none where there is neither."""
    run = RUN.match(text, at)[0]
    std = std_name(run)
    for alias, template, _ in ALIASES if std else ():
        front, is_list = None, std[1] == template
        if std[1].startswith(alias) and not LETTER.match(std[1], len(alias)):
            front = run[:len(run) - len(std[1])]
        elif is_list and list_of(run[:len(run) - len(template)] + alias):
            front = run[:len(run) - len(template)]
        item = front is not None and (list_of(front + alias) if is_list else front + alias)
        if item and list_of(front + alias) and text.startswith(item, at):
            size = behind_usual(text[at + len(item):], alias, template, is_list)
            return None if size is None else at + len(item) + size
    return None


def is_made(text):
    """Whether the laws are proved for a text."""
    at = 0
    try:
        while at < len(text):
            run = RUN.match(text, at)
            if not run:
                at += 1
            elif pass_usual(text, at):
                at = pass_usual(text, at)
            elif pass_list(text, at) is not None:
                at = pass_list(text, at)
            else:
                pass_other(run[0])
                at = run.end()
    except NotMade:
        return False
    return True


# ---- what is checked


def broken(text):
    """The laws that a text breaks."""
    brief, _ = short(text)
    whole, pairs = full(text)
    if len(brief) > len(text):
        yield "longer", brief
    if pairs and full(brief)[0] != whole:
        yield "another full text", brief
    if pairs and short(whole)[0] != brief:
        yield "the full text has another short text", whole


def made_texts(count, seed):
    """Texts of names of the table, arguments and members."""
    chosen = random.Random(seed)
    wholes = ["std::"] * 4 + ["std::__1::", "std::__cxx11::", "my::std::", "my::"]
    names = list(DEFAULTS) + ["pmr::" + name for name in sorted(PMR)] + [alias for alias, _, _ in ALIASES] * 2 + ["pair", "less", "x"]
    behind = ["", "", "", "::size()", "::iterator", " const&", "*", "::string()", "::~basic_string()", "::basic_string()", ".cold", "<int>", "operator<", "->x"]

    def text(depth):
        if depth == 0 or chosen.random() < 0.3:
            return chosen.choice(["int", "char", "wchar_t", "A", "long", "std::string", "f(int)", "(x)", "&(operator<<)", "char (&) [3]", "1l", "60l"])
        whole, name = chosen.choice(wholes), chosen.choice(names)
        alias = [it for it in ALIASES if it[0] == name]
        if alias and chosen.random() < 0.7:
            return whole + name + chosen.choice(behind)
        plain = name[5:] if name.startswith("pmr::") else name
        defaults = DEFAULTS.get(plain, ["", ""])
        elements = [text(depth - 1) for pattern in defaults if not pattern] or ["char"]
        for pattern in defaults[len(elements):len(elements) + chosen.choice([0, 0, 1, 2, 3, 3, 3])]:
            pattern = polymorphic(plain) if chosen.random() < 0.15 and polymorphic(plain) else pattern
            elements.append(text(1) if chosen.random() < 0.1 else filled_for(whole if whole == "std::__1::" else "std::", elements, pattern))
        if chosen.random() < 0.1:
            elements.append(text(1))
        return listed(whole + name, elements) + chosen.choice(behind)

    for _ in range(count):
        yield f"f({text(3)})" if chosen.random() < 0.4 else text(3)


LETTERS = {"int": "i", "char": "c", "wchar_t": "w", "char8_t": "Du", "char16_t": "Ds", "char32_t": "Di", "long": "l", "long long": "x", "unsigned long": "m", "void": "v", "false": "Lb0E"}


def mangled(text):
    """A type, or a number, as a symbol has it without substitutions."""
    if text in LETTERS:
        return LETTERS[text]
    for end, letter in ((" const", "K"), ("*", "P"), ("&", "R")):
        if text.endswith(end):
            return letter + mangled(text[:-len(end)])
    if text[0].isdigit():
        return f"Lm{text[:-2]}E" if text.endswith("ul") else f"Ll{text[:-1]}E"
    name, *arguments = text.split("<", 1)
    arguments = "I" + "".join(map(mangled, elements_of(arguments[0][:-1]))) + "E" if arguments else ""
    first, *others = [part if part == "std" else f"{len(part)}{part}" for part in name.split("::")]
    written = first.replace("std", "St") + "".join(others) + arguments
    return f"N{written}E" if len(others) > (first == "std") else written


def elements_of(text):
    """The elements that `, ` outside of lists separates."""
    found, depth = [""], 0
    for piece in re.split("(, |<|>)", text):
        depth += (piece == "<") - (piece == ">")
        if piece == ", " and depth == 0:
            found.append("")
        else:
            found[-1] += piece
    return found


def made_symbols():
    """Symbols of each template of the table with some of its defaults, and with others."""
    for whole in ("std::", "std::__1::", "std::__cxx11::", "my::"):
        inner = whole if whole == "std::__1::" else "std::"
        for name, defaults in DEFAULTS.items():
            for argument in ("char", "A", "long long" if inner == "std::__1::" else "long"):
                elements = [argument]
                for pattern in defaults[1:]:
                    elements.append(filled_for(inner, elements, pattern) if pattern else "int")
                lists = [elements[:count] for count in range(1, len(elements) + 1)] + [elements + ["int"]]
                if polymorphic(name):
                    lists.append(elements[:-1] + [filled_for(inner, elements, polymorphic(name))])
                for each in lists:
                    text = listed(whole + name, each)
                    yield "_Z1f" + mangled(text)
                    yield "_Z1f" + mangled(f"std::vector<{text}, std::allocator<{text}>>")
    for alias, template, arguments in ALIASES:
        yield "_Z1f" + mangled(f"std::{template}<{filled(arguments, '', '', 'std::')}>")
        yield "_Z1f" + mangled(f"std::{alias}")


def lines_of(program, options, symbols):
    """What the program prints for symbols, one per line."""
    printed = subprocess.run([program, "--wide", *options], input="\n".join(symbols).encode("latin-1") + b"\n", stdout=subprocess.PIPE, check=True)
    return printed.stdout.decode("latin-1").split("\n")[:-1]


def symbols_in(path):
    with open(path, "rb") as file:
        return sorted(set(re.findall(r"(?<![\w$.])_Z[\w$.]+", file.read().decode("latin-1").replace("\\n", "\n"), re.ASCII)))


def main():
    parser = argparse.ArgumentParser()
    parser.add_argument("--seed", type=int, default=1)
    parser.add_argument("--made", type=int, default=5000)
    parser.add_argument("--shown", type=int, default=5)
    parser.add_argument("program")
    parser.add_argument("files", nargs="*")
    options = parser.parse_args()
    rows = [os.path.join(HERE, "..", *path) for path in (("crates", "check_rows", "stdin"), ("bench", "fresh_cpp.txt"), ("bench", "fresh_instances.txt"))]
    symbols = sorted({symbol for path in options.files or rows for symbol in symbols_in(path)} | set(made_symbols()))
    texts = lines_of(options.program, [], symbols)
    kept = lines_of(options.program, ["--short", "--keep-inline"], symbols)
    plain = lines_of(options.program, ["--short"], symbols)
    wrong = []
    for symbol, text, keeps, leaves in zip(symbols, texts, kept, plain, strict=True):
        if text == symbol:
            continue
        if short(text)[0] != keeps or short(without_inlines(text))[0] != leaves:
            wrong.append(("not its short text", symbol, text, keeps, leaves))
    changed = sum(text != keeps for text, keeps in zip(texts, kept))
    made = list(made_texts(options.made, options.seed))
    wrong += [(law, text, other) for text in sorted({*texts, *made}) for law, other in broken(text)]
    for it in wrong[:options.shown]:
        print(*it, sep="\n    ")
    print(f"{len(symbols)} symbols, {changed} of whose texts become shorter, and {len(made)} made texts: {len(wrong)} wrong")
    read = {text for symbol, text in zip(symbols, texts) if text != symbol}
    print(f"the laws are proved of {sum(map(is_made, read))} of the {len(read)} texts of symbols")
    return 1 if wrong or not changed else 0


if __name__ == "__main__":
    sys.exit(main())
