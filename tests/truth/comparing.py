"""Compares what debug information says of a symbol with the symbol's text, and counts what was compared and what differs."""
import collections

from .classes import class_of
from .matching import matches
from .texts import ANYTHING, MORE, parts_of, tokens_of

Difference = collections.namedtuple("Difference", "part told shown")
# What is known of a symbol: a program's text, the text's parts, what debug information says, which compiler made it, and the names of its
# classes and namespaces.
Case = collections.namedtuple("Case", "symbol text shown told is_of_gcc names")


# The parameters that g++ declares for constructors and destructors of a class with virtual bases (`C4EiPPKv..`), besides their own.
HIDDEN = ["int", "void const**"]


def without_hidden(told, shown):
    """What debug information says of a function, without the hidden parameters if the symbol's text doesn't have them."""
    if told.parameters[:2] == HIDDEN and len(told.parameters) == len(shown.parameters) + 2:
        return told._replace(parameters=told.parameters[2:])
    return told


def differences_of(case, counts):
    """The parts of a function's text that differ from what debug information says. The other parts are counted."""
    shown, told = case.shown, case.told
    pairs = [("name", told.name, shown.name), ("qualifiers", told.qualifiers, shown.qualifiers)]
    if len(told.parameters) == len(shown.parameters):
        pairs += [("type", *it) for it in zip(told.parameters, shown.parameters)]
    else:
        yield Difference("number of parameters", str(len(told.parameters)), str(len(shown.parameters)))
    if shown.result:
        pairs.append(("result", told.result, shown.result))
    for part, one, other in pairs:
        if matches(tokens_of(one), other):
            counts[part] += 1
        else:
            yield Difference(part, one, " ".join(other))


class Tally:
    """The results for a compiler's functions and variables."""

    def __init__(self):
        self.producer, self.names, self.seen = "", set(), set()
        self.counts, self.classes, self.wrong = collections.Counter(), collections.Counter(), []

    def is_new(self, symbol, text):
        """Whether a symbol has a text that isn't compared yet."""
        if symbol in self.seen:
            return False
        self.seen.add(symbol)
        self.counts["mangled"] += text == symbol
        return text != symbol

    def add_function(self, symbol, text, told):
        shown = parts_of(text)
        if shown is None or told is None:
            self.counts["other forms"] += 1
            return
        self.counts["functions"] += 1
        case = Case(symbol, text, shown, without_hidden(told, shown), "GNU" in self.producer, self.names)
        for it in differences_of(case, self.counts):
            if not self.add_difference(case, it):
                return

    def add_variable(self, symbol, text, told):
        if told is None:
            self.counts["other forms"] += 1
            return
        self.counts["variables"] += 1
        shown = tokens_of(text)
        if not matches(tokens_of(told), shown):
            case = Case(symbol, text, None, None, "GNU" in self.producer, self.names)
            self.add_difference(case, Difference("variable", told, " ".join(shown)))

    def add_difference(self, case, difference):
        """Whether a difference has a known reason. A difference without one is noted as wrong."""
        known = class_of(case, difference)
        if known is None:
            self.wrong.append((case.symbol, case.text, difference))
        else:
            self.classes[known] += 1
        return known is not None

    def tell(self, compiler, most):
        """Prints the first of the wrong differences, at most as many as given, and the counts."""
        for symbol, text, it in self.wrong[:most]:
            told = it.told.replace(ANYTHING, "?").replace(MORE, "")
            print(f"{compiler}: {symbol}\n  shown  {text}\n  {it.part}: {it.shown}\n  is: {told}")
        counts = self.counts
        print(f"{compiler} ({self.producer.split(' -')[0]}): {counts['functions']} functions and {counts['variables']} variables compared with"
              f" {counts['type']} types and {counts['result']} results, {len(self.wrong)} differ; {counts['mangled']} stay mangled,"
              f" {counts['other forms']} of other forms")
        for name, count in sorted(self.classes.items()):
            print(f"  {count} {name}")
