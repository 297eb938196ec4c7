"""How the scripts write what code and definitions have in common: from a Python name, list or text to its form in Rattle and in antt."""
import re
from functools import reduce

def snake(name):
    """`SomeName` as `some_name`."""
    return re.sub(r"(?<!^)(?=[A-Z])", "_", name).lower()

def camel(name):
    """`some_name` as `SomeName`."""
    return "".join(part.capitalize() for part in name.split("_"))

def dashed(name):
    """`SomeName` as `some-name`."""
    return snake(name).replace("_", "-")

def braced(text):
    """An argument, in parentheses if it is more than a word."""
    return f"({text})" if " " in text else text

def applied(name, arguments):
    """A function with its arguments."""
    return " ".join([name, *arguments])

def listed(items):
    """A list in antt."""
    return "".join(f"{item} ∷ " for item in items) + "[]"

def alone_or(parts, joined):
    """The only part, or several parts joined."""
    return parts[0] if len(parts) == 1 else joined(parts)

def greatest(numbers):
    """The greatest of some numbers, if there are any."""
    return reduce(lambda whole, more: f"max {braced(whole)} {braced(more)}", numbers) if numbers else ""

def together(facts):
    """Several facts as one: the trivial fact if there are none, the only one, or all in parentheses."""
    return alone_or(facts, lambda several: f"({', '.join(several)})") if facts else "tt"

def rewritten(facts):
    """The proof that both sides are the same once these facts are rewritten."""
    return f"rw ({', '.join(facts)}) refl" if facts else "refl"

def answer(goal, value, unfolding=None, given="c"):
    """The lines of an answer to a goal: `value` follows the equals sign, in the same line or in lines of its own."""
    return [f"pub {goal} : goal.{goal}", *([f"unfolding {unfolding}"] if unfolding else []), f"{goal} {given} ={value}"]

class Steps:
    """The calls so far, each with the arms in which it occurred: a step has the arm's name from the second call of its function on."""
    def __init__(self):
        self.arms = {}

    def __call__(self, call, arm):
        """The step of a call in an arm."""
        arms = self.arms.setdefault(call, [])
        arms.append(arm)
        again = arms.count(arm)
        return call + (f"-in-{arm}" if len(arms) > 1 else "") + (f"-{again}" if 1 < again < len(arms) else "")

def is_used(name, text):
    """Whether a text of definitions uses this name."""
    if "◌" in name:
        return f" {name.strip('◌')} " in text
    return re.search(rf"(?<![\w.:-]){re.escape(name)}(?![\w-])", text) is not None

def quoted(text):
    """A text between quotes."""
    return '"' + text.replace("\\", "\\\\").replace('"', '\\"') + '"'

def runs(chars, least):
    """The ranges of at least `least` bytes among these, as pairs, and the other bytes."""
    ranges = []
    for code in sorted(ord(char) for char in chars):
        if ranges and ranges[-1][1] + 1 == code:
            ranges[-1][1] = code
        else:
            ranges.append([code, code])
    singles = "".join(chr(code) for low, high in ranges if high - low + 1 < least for code in range(low, high + 1))
    return [(chr(low), chr(high)) for low, high in ranges if high - low + 1 >= least], singles
