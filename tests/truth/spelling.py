"""From the entries of debug information to patterns of C++ text: names with their scopes and arguments, types, functions.

Names and types may be nested to any depth. So each step is a generator that yields the steps whose answers it needs, and `answer` keeps the
steps that wait in a list.
"""
import collections
import re

from .entries import CLASSES, NAMED_TYPES, UNITS
from .texts import ANYTHING, MORE, partners_of, parts_of, scope_and_own, split, tokens_of, with_plain_operators

# Base types as g++ names them, and as the ABI's text has them.
BASE_TYPES = {
    "long long unsigned int": "unsigned long long", "long unsigned int": "unsigned long", "short unsigned int": "unsigned short",
    "long long int": "long long", "long int": "long", "short int": "short", "__int128 unsigned": "unsigned __int128",
    "_Bool": "bool", "__bf16": "std::bfloat16_t", "__unknown__": ANYTHING,
}
QUALIFIERS = {"DW_TAG_const_type": " const", "DW_TAG_volatile_type": " volatile", "DW_TAG_restrict_type": " restrict"}
MARKS = {"DW_TAG_pointer_type": "*", "DW_TAG_reference_type": "&", "DW_TAG_rvalue_reference_type": "&&"}
ALIASES = {"DW_TAG_typedef", "DW_TAG_template_alias"}
BLOCKS = {"DW_TAG_lexical_block", "DW_TAG_inlined_subroutine"}
UNSIGNED_CHARACTERS = {"char8_t", "char16_t", "char32_t"}
# The beginnings of names that compilers make up for what has no name.
MADE_UP = ("<", "(", "{", "._anon", "__lambda")

Function = collections.namedtuple("Function", "name parameters qualifiers result")


def answer(step):
    """What a step answers, after the steps that it waits for have answered."""
    steps, said = [step], None
    while steps:
        try:
            steps.append(steps[-1].send(said))
            said = None
        except StopIteration as end:
            steps.pop()
            said = end.value
    return said


def is_conversion(name):
    return name.startswith("operator ") and with_plain_operators(name) == name


def without_arguments(name):
    """A name without its template arguments. The sign of an operator, as `<`, isn't taken for a bracket."""
    name, depth = with_plain_operators(name).rstrip(), 0
    if not name.endswith(">"):
        return name
    for place in range(len(name) - 1, 0, -1):
        depth += (name[place] == ">") - (name[place] == "<")
        if depth == 0:
            return name[:place].rstrip()
    return name


def is_made_up(name):
    return not name or name.startswith(MADE_UP)


def length(subrange):
    """How many elements an array has, as a text has it."""
    count, last = subrange.number("DW_AT_count"), subrange.number("DW_AT_upper_bound")
    return "" if count is None and last is None else count if last is None else last + 1


def names_of(entries):
    """The own names of all classes and namespaces, without arguments."""
    return {without_arguments(it.text()) for it in entries if it.tag in NAMED_TYPES | {"DW_TAG_namespace"} and it.text()}


class Speller:
    """Spells what the entries of an object file declare. It has the texts of all symbols of the file, since some entries have no name of
    their own: a lambda's name is in the symbol of its operator, and a local class's name in the symbol of the function around it."""

    def __init__(self, entries, texts):
        self.entries, self.texts = entries, texts
        self.is_of_gcc = "GNU" in entries.producer()

    def unnamed(self, entry):
        """The name of a lambda or an unnamed class, from the symbol of a member."""
        for it in entry.entries:
            symbol = it.text("DW_AT_linkage_name") if it.tag == "DW_TAG_subprogram" else None
            parts = parts_of(self.texts[symbol]) if symbol in self.texts else None
            scope = scope_and_own(parts.name)[0] if parts else []
            if scope and scope[-1] == "}":
                return " ".join(scope)
        return ANYTHING

    def within(self, entry, own):
        """A name with the scopes in which it is declared."""
        outer = entry.parent
        while outer is not None and outer.tag in BLOCKS:
            outer = outer.parent
        if outer is None or outer.tag in UNITS:
            return own
        if outer.tag in NAMED_TYPES or outer.tag == "DW_TAG_namespace":
            return (yield self.name(outer)) + "::" + own
        return (self.function_around(outer) if outer.tag == "DW_TAG_subprogram" else ANYTHING) + "::" + own

    def function_around(self, entry):
        """A function as the scope of a local name: its text without the type that it returns."""
        declared = self.entries.declared(entry)
        symbol = declared.text("DW_AT_linkage_name") or entry.text("DW_AT_linkage_name")
        if symbol is None:
            return declared.text() or ANYTHING
        parts = parts_of(self.texts.get(symbol, symbol))
        if parts is None:
            return ANYTHING
        return " ".join([*parts.name, "(", " , ".join(" ".join(it) for it in parts.parameters), ")", *parts.qualifiers])

    def name(self, entry):
        entry = self.entries.declared(entry)
        if entry.spelled is None:
            # (a class may be an argument of itself)
            entry.spelled = ANYTHING
            entry.spelled = yield self.own_name(entry)
        return entry.spelled

    def own_name(self, entry):
        name = entry.text()
        if entry.tag == "DW_TAG_namespace":
            return (yield self.within(entry, name or "(anonymous namespace)"))
        if is_made_up(name):
            return self.unnamed(entry) if entry.tag in NAMED_TYPES else ANYTHING
        arguments = yield self.arguments(entry)
        if entry.tag in CLASSES and len(arguments or []) < shown_arguments(name):
            # (g++ has no entries for the arguments of what is only declared, and none for those of some packs)
            arguments = arguments_of(name)
        return (yield self.within(entry, with_arguments(without_arguments(name), arguments)))

    def arguments(self, entry):
        """The template arguments of an entry, or None where it has none."""
        packs = [it for it in entry.entries if it.tag == "DW_TAG_GNU_template_parameter_pack"]
        found = []
        for it in entry.entries:
            for one in it.entries if it in packs else [it]:
                if one.tag.startswith(("DW_TAG_template_", "DW_TAG_GNU_template_template_")):
                    found.append((yield self.argument(one)))
        if found and self.is_of_gcc:
            # (g++ has no entry for a parameter without a name)
            found[-1] += MORE
        return found if found or packs else None

    def argument(self, entry):
        if entry.tag == "DW_TAG_template_type_parameter":
            return "".join((yield self.type(self.entries.at(entry))))
        if entry.tag == "DW_TAG_GNU_template_template_param":
            name = entry.text("DW_AT_GNU_template_name")
            return ANYTHING if not name or "lambda" in name else name if "::" in name else ANYTHING + " " + name
        return self.value(entry)

    def value(self, entry):
        """A number or truth value as an argument. Addresses and values of classes aren't spelled."""
        kind = self.entries.without({*ALIASES, *QUALIFIERS}, self.entries.at(entry))
        number = entry.number("DW_AT_const_value")
        if number is None or kind is None or kind.tag not in ("DW_TAG_base_type", "DW_TAG_enumeration_type"):
            return ANYTHING
        of = kind if kind.tag == "DW_TAG_base_type" else self.entries.without(ALIASES, self.entries.at(kind))
        name = of.text() if of is not None else ""
        if kind.tag == "DW_TAG_base_type" and name in ("bool", "_Bool"):
            return "true" if number else "false"
        if "float" in name or "double" in name:
            return ANYTHING
        bits = 8 * (kind.number("DW_AT_byte_size") or 16)
        number %= 1 << bits
        is_signed = name and "unsigned" not in name and name not in UNSIGNED_CHARACTERS
        return str(number - (1 << bits) if is_signed and number >> (bits - 1) else number)

    def type(self, entry):
        """A type in two parts, which are left and right of a declared name."""
        entry = self.entries.without(ALIASES, entry)
        if entry is None:
            return "void", ""
        if entry.tag in QUALIFIERS:
            left, right = yield self.type(self.entries.at(entry))
            inner = self.entries.without(ALIASES, self.entries.at(entry))
            return (left if inner is not None and inner.tag == entry.tag else left + QUALIFIERS[entry.tag]), right
        if entry.tag in MARKS:
            return (yield self.marked(self.entries.at(entry), MARKS[entry.tag]))
        if entry.tag == "DW_TAG_ptr_to_member_type":
            holder = self.entries.at(entry, "DW_AT_containing_type")
            named = ANYTHING if holder is None else (yield self.name(holder))
            return (yield self.marked(self.entries.at(entry), f" {named}::*"))
        if entry.tag in ("DW_TAG_array_type", "DW_TAG_subroutine_type"):
            return (yield self.list_type(entry))
        if entry.tag == "DW_TAG_base_type":
            return BASE_TYPES.get(entry.text(), entry.text()), ""
        if entry.tag == "DW_TAG_unspecified_type":
            return ("std::nullptr_t" if "nullptr" in (entry.text() or "") else ANYTHING), ""
        return ((yield self.name(entry)) if entry.tag in NAMED_TYPES else ANYTHING), ""

    def list_type(self, entry):
        """An array or a function."""
        if entry.has("DW_AT_GNU_vector"):
            return ANYTHING, ""
        left, right = yield self.type(self.entries.at(entry))
        if entry.tag == "DW_TAG_array_type":
            return left, "".join(f" [{length(it)}]" for it in entry.entries if it.tag == "DW_TAG_subrange_type") + right
        parameters = yield self.parameters(entry)
        return left + " ", f"({', '.join(parameters)}){self.qualifiers(entry)}{right}"

    def marked(self, inner, mark):
        """A pointer to a type, or a reference."""
        left, right = yield self.type(inner)
        bare = self.entries.without({*ALIASES, *QUALIFIERS}, inner)
        if bare is not None and bare.tag in ("DW_TAG_array_type", "DW_TAG_subroutine_type") and not bare.has("DW_AT_GNU_vector"):
            return f"{left} ({mark.strip()}", ")" + right
        return left + mark, right

    def qualifiers(self, entry):
        """What follows a member function's parameters."""
        found = set()
        first = next((it for it in entry.entries if it.tag == "DW_TAG_formal_parameter"), None)
        if first is not None and first.has("DW_AT_artificial"):
            pointer = self.entries.without(QUALIFIERS, self.entries.at(first))
            pointed = self.entries.at(pointer) if pointer is not None else None
            while pointed is not None and pointed.tag in {*ALIASES, *QUALIFIERS}:
                found.add(pointed.tag)
                pointed = self.entries.at(pointed)
        marks = [" &"] * entry.has("DW_AT_reference") + [" &&"] * entry.has("DW_AT_rvalue_reference")
        return "".join([QUALIFIERS[it] for it in QUALIFIERS if it in found] + marks)

    def parameters(self, entry):
        """The types of a function's parameters, without the outermost qualifiers, which a symbol doesn't have."""
        found, has_ellipsis = [], False
        for it in entry.entries:
            has_ellipsis = has_ellipsis or it.tag == "DW_TAG_unspecified_parameters"
            for copy in it.entries if it.tag == "DW_TAG_GNU_formal_parameter_pack" else [it]:
                one = self.entries.declared(copy)
                # (g++ gives these two to constructors and destructors of classes with virtual bases)
                if one.text() in ("__in_chrg", "__vtt_parm"):
                    continue
                if one.tag == "DW_TAG_formal_parameter" and not one.has("DW_AT_artificial"):
                    kind = self.entries.without(QUALIFIERS, self.entries.at(one))
                    found.append("".join((yield self.type(kind))))
        # (g++ gives the ellipsis of a lambda twice, once before its parameters)
        return found + ["..."] * has_ellipsis

    def function(self, entry):
        """A function in parts; None where it has no name."""
        name = entry.text()
        if name is None:
            return None
        arguments = yield self.arguments(entry)
        plain = without_arguments(name)
        if arguments is None and plain != with_plain_operators(name).rstrip() and not name.startswith(("<", "~<")):
            arguments = [ANYTHING + MORE]
        result = "".join((yield self.type(self.entries.at(entry))))
        own = "operator " + result if is_conversion(name) else ANYTHING if name.startswith(("<", "~<")) else plain
        whole = yield self.within(entry, with_arguments(own, arguments))
        return Function(whole, (yield self.parameters(entry)), self.qualifiers(entry), result)

    def variable(self, entry, definition):
        """A variable with its scopes; None where it has no name."""
        name = entry.text()
        if name is None:
            return None
        arguments = (yield self.arguments(definition)) or (yield self.arguments(entry))
        return (yield self.within(entry, with_arguments(without_arguments(name), arguments)))


def with_arguments(name, arguments):
    return name if arguments is None else f"{name}<{', '.join(arguments)}>"


def shown_list(name):
    """The tokens of the arguments that a name shows at its end."""
    tokens = tokens_of(name)
    return tokens[partners_of(tokens)[len(tokens) - 1] + 1:-1] if without_arguments(name) != with_plain_operators(name).rstrip() else []


def shown_arguments(name):
    """How many arguments a name shows at its end."""
    return len(split(shown_list(name)))


def arguments_of(name):
    """The arguments that a name shows, with a gap for each argument that symbols spell in another way: one with qualifiers, which are
    elsewhere in a symbol, and one with brackets, which is a lambda, a local type, or an expression."""
    found = []
    for it in split(shown_list(name)):
        one = " ".join(it)
        for base, plain in BASE_TYPES.items():
            one = re.sub(rf"\b{base}\b", plain, one)
        found.append(ANYTHING if {"const", "volatile", "(", "{", "["} & {*it} else one)
    return [*found[:-1], (found[-1] if found else "") + MORE]
