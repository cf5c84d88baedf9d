"""What is shown where parts have to hold, and the cells that are asked for on the way.

What a formula can show is a set: empty where it doesn't hold. Each that it shows is a row of a state and a line.
"""

EMPTY = frozenset()
SHOWS_NOTHING = frozenset([()])


class Need(Exception):
    """A cell is read that has no shape. `forced`: no other shape than this one can make the formula true."""

    def __init__(self, cell, hints=(), forced=None):
        super().__init__()
        self.cell, self.hints, self.forced = cell, hints, forced


def merged(needs):
    """The need to go on with where several parts have to hold: one with a single shape first."""
    for need in needs:
        if need.forced is not None:
            return need
    first = needs[0]
    hints = set(first.hints)
    for need in needs[1:]:
        if need.cell == first.cell:
            hints.update(need.hints)
    return Need(first.cell, tuple(hints))


def all_of(parts):
    """Parts that all have to hold: what is shown by each, in order."""
    found, needs = [], []
    for part in parts:
        try:
            shows = part()
        except Need as need:
            needs.append(need)
            continue
        if not shows:
            return EMPTY
        found.append(shows)
    if needs:
        raise merged(needs)
    result = SHOWS_NOTHING
    for shows in found:
        if shows is not SHOWS_NOTHING:
            result = frozenset(a + b for a in result for b in shows)
    return result


def any_of(choices):
    """Choices of which one has to hold: what is shown by any of them."""
    found, needs = set(), []
    for choice in choices:
        try:
            found |= choice()
        except Need as need:
            needs.append(need)
    if not needs:
        return frozenset(found)
    if len(needs) == 1 and not found:
        raise needs[0]
    hints = set()
    for need in needs:
        if need.cell == needs[0].cell:
            hints.update(need.hints)
            if need.forced is not None:
                hints.add(need.forced)
    raise Need(needs[0].cell, tuple(hints))


def rising(last):
    """All rows of cuts that rise from 0 to last."""
    rows = [(0,)]
    for cut in range(1, last + 1):
        rows += [row + (cut,) for row in rows] if cut < last else []
    return [row + (last,) for row in rows] if last else rows


def all_of_apart(parts):
    """As all_of, but what each part shows stays apart."""
    found = all_of([lambda part=part, i=i: frozenset([((i, shows),) for shows in part()]) for i, part in enumerate(parts)])
    return frozenset(tuple(shows for _, shows in row) for row in found)


def woven(shows, cuts):
    """At a cut: what the piece shows that ends, then what the right side shows, then the piece that begins."""
    pieces, right = shows[:-1], shows[-1]
    row = ()
    for k, cut in enumerate(cuts):
        row += tuple(entry for entry in right if entry[0] == cut)
        row += pieces[k] if k < len(pieces) else ()
    return row
