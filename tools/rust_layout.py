"""Expressions of Rust as `rt fmt` lays them out: from the text of an expression, in one line, to its lines in an arm of a match."""
import re

def split(text):
    """The pieces of a text between the commas that are in no brackets. A bracket or a comma may be a letter in quotes."""
    parts, depth = [""], 0
    for i, char in enumerate(text):
        if text[i - 1:i] != "'" or text[i + 1:i + 2] != "'":
            depth += (char in "([{") - (char in ")]}")
        if char == "," and not depth:
            parts.append("")
        else:
            parts[-1] += char
    return [part.strip() for part in parts if part.strip()]

class Made:
    """A call with its arguments, or a structure with its named fields."""
    def __init__(self, name, given, is_named):
        self.name, self.given, self.is_named = name, given, is_named

    def inside(self):
        """What is between the brackets."""
        return ", ".join(f"{name}{': ' if name else ''}{part}" for name, part in self.given)

    def __str__(self):
        return f"{self.name} {{ {self.inside()} }}" if self.is_named else f"{self.name}({self.inside()})"

    def fits(self):
        """Whether it may be in one line."""
        if self.is_named:
            return len(self.inside()) <= 18
        return all(isinstance(part, str) or part.fits() for _, part in self.given) and len(self.inside()) <= 60

def parsed(text):
    """The call or the structure that a text is, or otherwise the text."""
    if found := re.fullmatch(r"([\w.:]+)\((.*)\)", text):
        return Made(found[1], [("", parsed(part)) for part in split(found[2])], False)
    if found := re.fullmatch(r"([\w:]+) { (.*) }", text):
        fields = (field.split(": ", 1) for field in split(found[2]))
        return Made(found[1], [(name, parsed(part)) for name, part in fields], True)
    return text

def lines(tree, indent, broken=False):
    """The lines of an expression that doesn't fit in one, the first without its indentation."""
    if isinstance(tree, str) or not broken and tree.fits() and len(f"{indent}{tree}") < 100:
        return [str(tree)]
    if not tree.is_named and len(tree.given) == 1:
        # a single argument goes on in the line of its call, down to what is read from a part
        only = tree.given[0][1]
        is_read = isinstance(only, Made) and only.name.startswith("self.") and all(isinstance(part, str) for _, part in only.given)
        first, *rest = [f"\n{indent}    {only},\n{indent}"] if is_read else lines(only, indent, True)
        return f"{tree.name}({chr(10).join([first, *rest])})".split("\n")
    out = [f"{tree.name} {{" if tree.is_named else f"{tree.name}("]
    for name, part in tree.given:
        first, *rest = lines(part, indent + "    ")
        out += [f"{indent}    {name}{': ' if name else ''}{first}", *rest]
        out[-1] += ","
    return [*out, indent + ("}" if tree.is_named else ")")]

def arm(left, text, indent="            "):
    """An arm of a match, as its lines."""
    front, tree = f"{indent}{left} => ", parsed(text)
    if isinstance(tree, str) or tree.fits():
        if len(front.split("\n")[-1] + text) < 100:
            return [f"{front}{text},"]
        if len(indent + "    " + text) <= 100:
            return [front + "{", f"{indent}    {text}", indent + "}"]
    first, *rest = lines(tree, indent)
    return [front + first, *rest[:-1], rest[-1] + ","] if rest else [f"{front}{first},"]
