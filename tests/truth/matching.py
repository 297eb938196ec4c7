"""Whether two rows of tokens are the same, gaps aside."""
from .texts import ANYTHING, MORE, partners_of


def ends_of_lists(tokens):
    """For each place, where the brackets around it end."""
    partners, ends, opened = partners_of(tokens), [], [len(tokens)]
    for place in range(len(tokens)):
        if partners.get(place, len(tokens)) < place:
            opened.pop()
        ends.append(opened[-1])
        if partners.get(place, -1) > place:
            opened.append(partners[place])
    return ends + [len(tokens)]


def matches(one, other):
    """Tries the ways in which the gaps of both rows can be filled. Each pair of places is tried once, so that it ends soon for any rows."""
    if one == other:
        return True
    if not {ANYTHING, MORE} & {*one, *other}:
        return False
    sides = [(it, partners_of(it), ends_of_lists(it)) for it in (one, other)]
    waiting, seen = [(0, 0)], set()
    while waiting:
        pair = waiting.pop()
        if pair == (len(one), len(other)):
            return True
        if pair not in seen:
            seen.add(pair)
            waiting += steps(sides[0], pair[0], sides[1], pair[1])
            waiting += [it[::-1] for it in steps(sides[1], pair[1], sides[0], pair[0])]
    return False


def steps(one, at, other, place):
    """The pairs of places that follow one, by the token of the first side."""
    (wanted, _, _), (tokens, partners, ends) = one, other
    more = place < len(tokens)
    if at == len(wanted):
        return []
    if wanted[at] == MORE:
        return [(at + 1, place)] + ([(at + 1, ends[place])] if more and tokens[place] == "," else [])
    if wanted[at] == ANYTHING:
        after = max(place, partners.get(place, 0)) + 1
        is_of_it = more and tokens[place] != "," and place != ends[place] and partners.get(place, place) >= place
        return [(at + 1, place)] + ([(at, after)] if is_of_it else [])
    return [(at + 1, place + 1)] if more and tokens[place] == wanted[at] else []
