"""What the tables of both languages' grammars have in common, as code: from the rules of kinds and from the symbols of rules to the rows of
a table."""

# a table has a column for each of these bytes, with the letter of what is taken at the byte, or a blank
COLUMNS = [chr(byte) for byte in range(ord("$"), ord("z") + 1)]
MOST_SYMBOLS = 5

def letter_row(letters):
    """The row of a kind: what is taken by byte, within a byte string."""
    return "".join(letters.get(column, " ") for column in COLUMNS)

def symbol_row(symbols):
    """The symbols of a rule, in as many places as the longest may have."""
    given = list(symbols)
    return ", ".join([*given, *["NONE"] * (MOST_SYMBOLS - len(given))])

def in_rows(numbers, size):
    """The rows of an array, with this many numbers each."""
    return [", ".join(map(str, numbers[first:first + size])) for first in range(0, len(numbers), size)]

def after_each(rules):
    """How many symbols come after each of the six places of a list of symbols, which has the start kind, these rules' symbols, and an
    end."""
    places = range(MOST_SYMBOLS + 1)
    sizes = list(zip([1, *map(len, rules)], [*map(len, rules), 0]))
    counts = [after if place == MOST_SYMBOLS else max(size - 1 - place, 0) for size, after in sizes for place in places]
    return {"after": in_rows(counts, 32), "places": len(counts)}
