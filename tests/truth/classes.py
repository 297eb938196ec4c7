"""The classes of differences with a known reason. Each class has a rule over the symbol, its text and what debug information says."""
import re

from .matching import matches
from .texts import ANYTHING, MORE, OPENING, QUALIFIERS, begin_of_name, partners_of, scope_and_own, split, tokens_of


def is_of_template(case):
    """Whether a text is a function template's: it has arguments at the end of its name, or a return type."""
    return bool(case.shown) and bool(case.shown.result or case.shown.name[-1] == ">")


def without_last_arguments(tokens):
    return tokens[:partners_of(tokens)[len(tokens) - 1]] if tokens[-1:] == [">"] else tokens


def with_gaps(tokens):
    """Tokens with a gap for each name that is a member of an instance, each `auto` (with its concept), `decltype` and type trait of the compiler
    (`__decay<T>`), with the marks after it."""
    left, place = [], 0
    partners = partners_of(tokens)
    while place < len(tokens):
        token = tokens[place]
        if token.startswith("__") and tokens[place + 1:place + 2] == ["<"] and left[-1:] != ["::"]:
            place = partners[place + 1]
            left.append(ANYTHING)
        elif token in ("auto", "decltype"):
            place = partners.get(place + 1, place) if token == "decltype" else place
            has_concept = left and left[-1] not in OPENING and left[-1] != ","
            left = [*left[:begin_of_name(left) if has_concept else len(left)], ANYTHING]
        elif token == "::" and left and left[-1] in (">", ANYTHING):
            begin = begin_of_name(left)
            left = [*left[:begin], ANYTHING]
            place += 1
            place = partners.get(place, place) if tokens[place] == "{" else place
            place = partners[place + 1] if tokens[place + 1:place + 2] == ["<"] else place
        elif not (token in ("&", "const", "volatile") and left[-1:] == [ANYTHING]):
            left.append(token)
        place += 1
    return left


def depends(case, difference):
    """A function template's symbol has its types as they are declared: a member of an instance (`iterator_traits<T>::value_type`),
    `decltype(..)`, `auto`. Debug information has the types that these denote. What is around them has to be the same."""
    if not is_of_template(case) or difference.part not in ("type", "result") and "operator" not in case.shown.name:
        return False
    shown = with_gaps(tokens_of(difference.shown))
    return ANYTHING in shown and matches(tokens_of(difference.told), shown)


def is_alias(case, difference):
    """g++ writes a member of an alias template (`__iter_traits<T>::value_type`, where the alias denotes one of two templates) without the
    arguments of the alias. No class or namespace of the debug information has the alias's name."""
    if not is_of_template(case) or not case.is_of_gcc or difference.part not in ("type", "result"):
        return False
    left = []
    for token in tokens_of(difference.shown):
        if token == "::" and left and left[-1] not in case.names and left[-1] not in (">", "}", ")", ANYTHING):
            left = [*left[:begin_of_name(left)], ANYTHING, token]
        elif left[-2:] == [ANYTHING, "::"]:
            # (the member)
            left.pop()
        elif not (token in ("&", "const", "volatile") and left[-1:] == [ANYTHING]):
            left.append(token)
    return ANYTHING in left and matches(tokens_of(difference.told), with_gaps(left))


def is_variable_template(case, difference):
    """g++ gives no arguments of a variable template, and no class of a variable template that is a member."""
    if difference.part != "variable" or not case.is_of_gcc:
        return False
    (scope, own), (told_scope, told_own) = scope_and_own(tokens_of(difference.shown)), scope_and_own(tokens_of(difference.told))
    return own[-1] == ">" and without_last_arguments(own) == told_own and (not told_scope or matches(told_scope, scope))


def repeats_arguments(case, difference):
    """For a call of a generic lambda g++ writes the arguments that `auto`, or what the lambda declares, denotes twice, one after the other."""
    if difference.part != "name" or not case.is_of_gcc:
        return False
    (scope, own), (told_scope, told_own) = scope_and_own(case.shown.name), scope_and_own(tokens_of(difference.told))
    is_generic = any(it == "auto" or it.startswith("$") for it in scope)
    if scope[-1:] != ["}"] or not is_generic or own[-1] != ">" or told_own[-1] != ">" or not matches(told_scope, scope):
        return False
    arguments, told = split(own[2:-1]), split([it for it in told_own[2:-1] if it != MORE])
    return len(told) > len(arguments) and all(any(matches(one, it) for it in arguments) for one in told)


def leaves_arguments_out(case, difference):
    """g++ has no entry for the argument of a parameter without a name, even where other arguments follow. The entries that it has are in
    the order of the arguments."""
    if difference.part != "name" or not case.is_of_gcc:
        return False
    (scope, own), (told_scope, told_own) = scope_and_own(case.shown.name), scope_and_own(tokens_of(difference.told))
    if own[-1] != ">" or told_own[-1] != ">" or not matches(told_scope, scope):
        return False
    if without_last_arguments(own) != without_last_arguments(told_own):
        return False
    begin = len(without_last_arguments(own)) + 1
    arguments = iter(split(own[begin:-1]))
    return all(any(matches(one, it) for it in arguments) for one in split([it for it in told_own[begin:-1] if it != MORE]))


def is_array(case, difference):
    """g++ leaves out the qualifiers of an array's elements where the array has a name."""
    shown = [it for it in tokens_of(difference.shown) if it not in QUALIFIERS]
    told = [it for it in tokens_of(difference.told) if it not in QUALIFIERS]
    return case.is_of_gcc and difference.part == "type" and "[" in shown and matches(told, shown)


def repeats_qualifier(case, difference):
    """`T const` has a qualifier twice where the argument has that qualifier already: a symbol's text writes both."""
    shown = tokens_of(difference.shown)
    once = [it for place, it in enumerate(shown) if it not in QUALIFIERS or shown[place - 1:place] != [it]]
    return once != shown and is_of_template(case) and matches(tokens_of(difference.told), once)


def is_hidden_friend(case, difference):
    """A friend that is defined in a class is a member of the class in a symbol that has the friend's constraints (`N1SIiEF1hE`). In debug
    information the friend is declared in the namespace around the class."""
    if difference.part != "name":
        return False
    (scope, own), (told_scope, told_own) = scope_and_own(case.shown.name), scope_and_own(tokens_of(difference.told))
    is_friend = own[:1] == ["friend"] or re.search(r"E?F(\d|[a-z][a-z])", case.symbol)
    own = own[1:] if own[:1] == ["friend"] else own
    return bool(is_friend) and len(scope) > len(told_scope) and scope[:len(told_scope)] == told_scope and matches(told_own, own)


def is_of_linkage_block(case, difference):
    """What is declared by `extern "C++" {..}` within a namespace has no scope in Clang's debug information."""
    if difference.part != "name" or case.is_of_gcc:
        return False
    (scope, own), (told_scope, told_own) = scope_and_own(case.shown.name), scope_and_own(tokens_of(difference.told))
    return bool(scope) and not told_scope and matches(told_own, own) and {*scope} <= {"::", *case.names}


def is_vtable(case, difference):
    """A table of virtual functions is a member `__clang_vtable` (`_vtable$` by Clang 22) in Clang's debug information."""
    shown, (told_scope, told_own) = tokens_of(difference.shown), scope_and_own(tokens_of(difference.told))
    return "".join(told_own) in ("__clang_vtable", "_vtable$") and shown[:2] == ["vtable", "for"] and matches(told_scope, shown[2:])


def is_inherited(case, difference):
    """An inherited constructor (`CI2`) has the name of the class that inherits it. Clang gives the name of the class that the constructor
    belongs to, without arguments."""
    if difference.part != "name" or not re.search(r"CI[1-5]", case.symbol):
        return False
    (scope, own), (told_scope, told_own) = scope_and_own(case.shown.name), scope_and_own(tokens_of(difference.told))
    return own[:1] == without_last_arguments(scope)[-1:] and matches(told_scope, scope) and f"{len(told_own[0])}{told_own[0]}" in case.symbol


def leaves_parameter_out(case, difference):
    """In some definitions Clang says nothing of a last parameter without a name that is an empty class by value (a tag that
    chooses an overload). The parameters before it have to be the same. That the class is empty isn't looked at."""
    if case.is_of_gcc or difference.part != "number of parameters" or len(case.shown.parameters) != len(case.told.parameters) + 1:
        return False
    is_class = case.shown.parameters[-1][-1] in case.names
    return is_class and all(matches(tokens_of(told), shown) for told, shown in zip(case.told.parameters, case.shown.parameters))


def is_of_stream(case, difference):
    """`So` and similar abbreviations are spelled short, and so is a constructor's own name: `std::ostream::ostream()`."""
    if difference.part != "name" or case.shown.name[:2] != ["std", "::"]:
        return False
    whole = [f"basic_{it}" if place > 3 and it == case.shown.name[2] else it for place, it in enumerate(case.shown.name)]
    return whole == tokens_of(difference.told)


CLASSES = [
    ("types that depend on arguments", depends),
    ("members of alias templates", is_alias),
    ("variable templates whose arguments g++ doesn't tell", is_variable_template),
    ("calls of generic lambdas whose arguments g++ repeats", repeats_arguments),
    ("arguments without a name that g++ doesn't tell", leaves_arguments_out),
    ("qualifiers of arrays that g++ doesn't tell", is_array),
    ("qualifiers that an argument has already", repeats_qualifier),
    ("friends that debug information has outside of their class", is_hidden_friend),
    ("functions of a linkage block, whose namespace Clang doesn't tell", is_of_linkage_block),
    ("tables of virtual functions", is_vtable),
    ("inherited constructors", is_inherited),
    ("constructors and destructors of streams", is_of_stream),
    ("last parameters without a name that Clang doesn't tell", leaves_parameter_out),
]


def class_of(case, difference):
    """The class of a difference, or None where the difference has no known reason."""
    return next((name for name, is_of_class in CLASSES if is_of_class(case, difference)), None)
