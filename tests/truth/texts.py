"""From texts of C++ to tokens, and from the tokens of a function's text to its parts."""
import collections
import re

# In a pattern ANYTHING represents any balanced tokens without a comma, for what debug information doesn't have. MORE represents any further
# arguments up to the end of a list.
ANYTHING, MORE = "\x7f", "\x06"
SIGNS = "->* <=> <<= >>= -> () [] << >> <= >= += -= *= /= %= &= |= ^= == != && || ++ -- < > + - * / % & | ^ ~ ! = ,".split()
OPERATOR = re.compile(r"\boperator(?: (new\[\]|delete\[\]|new|delete|co_await)\b| ?(" + "|".join(map(re.escape, SIGNS)) + "))")
NEW_OF_ARRAYS = re.compile(r"\boperator (new|delete) +\[\]")
LITERAL_OPERATOR = re.compile(r'\boperator ?"" ?(\w+)')
TOKEN = re.compile(rf"{ANYTHING}|{MORE}|\(anonymous namespace\)|operator@\w+|@arrow|[\w$]+|::|[^\s\w]")
OPENING, CLOSING = {"(": ")", "<": ">", "[": "]", "{": "}"}, {")", ">", "]", "}"}
QUALIFIERS = {"const", "volatile"}
# Full names, and the abbreviations that symbols have for them. Arguments with a default may be missing in a pattern.
DEFAULTS = rf"(?: [{MORE}{ANYTHING}])*"
CHARACTER = rf"< (?:char|{ANYTHING}){DEFAULTS} >"
ABBREVIATED = [
    (re.compile(rf"std :: basic_string < char , std :: char_traits {CHARACTER} , std :: allocator {CHARACTER}{DEFAULTS} >"), "std :: string"),
    (re.compile(rf"std :: basic_(istream|ostream|iostream) < char , std :: char_traits {CHARACTER}{DEFAULTS} >"), r"std :: \1"),
]

Parts = collections.namedtuple("Parts", "result name parameters qualifiers")


def with_plain_operators(text):
    """A text whose operators are one word each, so that brackets are pairs: `operator@3c_3c` for `operator<<`."""
    text = LITERAL_OPERATOR.sub(r"operator@literal_\1", NEW_OF_ARRAYS.sub(r"operator \1[]", text))

    def word(found):
        return "operator@" + "_".join(f"{ord(it):x}" for it in found[1] or found[2])
    return OPERATOR.sub(word, text).replace("->", " @arrow ")


def without_marks(text):
    """A text of a demangler without tags, modules (`f@shop.prices`), the suffix of a clone, constraints, `noexcept`, `this` before an object
    parameter, and the tagged namespace."""
    text = re.sub(r" \(\.[^()]*\)$", "", re.sub(r"(?<=\w)(?<!\boperator)@[\w.]+(?::(?!:)[\w.]+)?|\[abi:[^\]]*\]", "", text))
    return re.sub(r" noexcept\b", "", text).replace("(this ", "(").replace("std::__cxx11::", "std::")


def tokens_of(text):
    """The tokens of a text, without the casts and the letters of numbers, with qualifiers in one order, and with names abbreviated."""
    text = re.sub(r"\b(\d+)[uUlL]+\b", r"\1", with_plain_operators(without_marks(text)))
    tokens = in_one_order(without_casts(TOKEN.findall(text)))
    joined = " ".join(tokens)
    for whole, short in ABBREVIATED:
        joined = whole.sub(short, joined)
    return re.findall(r"\(anonymous namespace\)|\S+", joined)


def in_one_order(tokens):
    """`volatile const` becomes `const volatile`: symbols and debug information have them in any order."""
    for place in range(1, len(tokens)):
        if tokens[place] == "const" and tokens[place - 1] == "volatile":
            tokens[place - 1:place + 1] = ["const", "volatile"]
    return tokens


def without_casts(tokens):
    """`(Level)-1` as a template argument becomes `-1`: debug information has only the number there, and the type elsewhere."""
    partners, left, place = partners_of(tokens), [], 0
    while place < len(tokens):
        if tokens[place] == "(" and left and left[-1] in ("<", ",") and place in partners:
            after = tokens[partners[place] + 1:partners[place] + 3]
            if after and (after[0].isdigit() or after[0] == "-" and after[1:] and after[1].isdigit()):
                place = partners[place] + 1
        left.append(tokens[place])
        place += 1
    return left


def partners_of(tokens):
    """For each bracket, the place of its partner. A `<` or `>` without a partner is an operator."""
    partners, opened = {}, []
    for place, token in enumerate(tokens):
        if token in OPENING:
            opened.append(place)
        elif token in CLOSING:
            while opened and token != ">" and OPENING[tokens[opened[-1]]] != token and tokens[opened[-1]] == "<":
                opened.pop()
            if opened and OPENING[tokens[opened[-1]]] == token:
                partners[place] = opened.pop()
                partners[partners[place]] = place
    return partners


def split(tokens):
    """The parts of a list between its commas."""
    partners, parts, place, begin = partners_of(tokens), [], 0, 0
    while place < len(tokens):
        if tokens[place] == ",":
            parts.append(tokens[begin:place])
            begin = place + 1
        place = max(place, partners.get(place, 0)) + 1
    return parts + [tokens[begin:]] if tokens else []


def begin_of_piece(tokens, partners, end):
    """The beginning of the piece of a scoped name that ends at a place. Such pieces are `f<int>(char) const` and `{lambda()#1}`."""
    place = end
    while place > 1 and tokens[place - 1] in {*QUALIFIERS, "&"}:
        place -= 1
    if place != end and (place == 0 or tokens[place - 1] != ")"):
        return end
    while place > 0 and tokens[place - 1] in (")", ">", "]") and place - 1 in partners:
        place = partners[place - 1]
    if place > 0:
        place = partners.get(place - 1, place - 1) if tokens[place - 1] == "}" else place - 1
    return place - 1 if place > 0 and tokens[place - 1] == "~" else place


def begin_of_name(tokens):
    """The beginning of the scoped name at the end of these tokens, after the return type of the function."""
    partners = partners_of(tokens)
    place = len(tokens)
    conversions = [it for it in outside_brackets(tokens) if tokens[it] == "operator"]
    place = conversions[-1] if conversions else begin_of_piece(tokens, partners, place)
    while place > 0 and tokens[place - 1] == "::":
        place = begin_of_piece(tokens, partners, place - 1)
    return place


def outside_brackets(tokens):
    """The places that are in no brackets."""
    partners, place = partners_of(tokens), 0
    while place < len(tokens):
        yield place
        place = max(place, partners.get(place, 0)) + 1


def scope_and_own(tokens):
    """A scoped name's scope, and its last piece."""
    scopes = [it for it in outside_brackets(tokens) if tokens[it] == "::"]
    operators = [it for it in outside_brackets(tokens) if tokens[it] == "operator"]
    scopes = [it for it in scopes if not operators or it < operators[-1]]
    return (tokens[:scopes[-1]], tokens[scopes[-1] + 1:]) if scopes else ([], tokens)


def parts_of(text):
    """A function's text in parts; None where the function returns a pointer to a function, or where the text is no function's."""
    tokens = tokens_of(text)
    end = len(tokens)
    while end > 0 and tokens[end - 1] in {*QUALIFIERS, "&"}:
        end -= 1
    begin = partners_of(tokens).get(end - 1) if end and tokens[end - 1] == ")" else None
    if not begin or tokens[begin - 1] == ")":
        return None
    name = begin_of_name(tokens[:begin])
    return Parts(tokens[:name], tokens[name:begin], split(tokens[begin + 1:end - 1]), tokens[end:])
