"""The intervals that satisfy a program, found by giving each cell that is asked for each shape in turn."""

from meaning import OutOfWork
from needs import EMPTY, Need

DOMAIN = (0, 1, 2, 'true', 'false', ('list', 0), ('list', 1))


def shapes_for(need, cells, hints, every):
    """The shapes that are tried for a cell; `every`: also those that can't make the formula true."""
    if need.forced is not None and not every:
        return [need.forced]
    variable, state, path = need.cell
    inside = [other[2][len(path)] for other in cells
              if other[0] == variable and other[1] == state and len(other[2]) > len(path) and other[2][:len(path)] == path]
    if inside:
        return [('list', max(inside) + 1), ('list', max(inside) + 2)]
    wanted = list(DOMAIN)
    for shape in (need.forced,) + tuple(need.hints) + tuple(hints.get(need.cell, ())):
        if shape is not None and shape not in wanted:
            wanted.append(shape)
    return wanted


class Search:
    """Looks through intervals with at most so many looks in all; `whole` tells whether that was enough."""

    def __init__(self, world, looks, hints):
        self.world, self.looks, self.hints, self.whole = world, looks, hints, True

    def look(self, cells, length):
        self.looks -= 1
        self.world.cells = cells
        try:
            return self.world.shows(length)
        except (OutOfWork, RecursionError):
            self.whole = False
            return EMPTY

    def satisfying(self, length, cells, only_locals=False):
        """The intervals of this length with these cells that satisfy, each with its cells and what it can show. With
        `only_locals` a variable of the program's that is asked for is raised."""
        waiting = [cells]
        while waiting:
            if self.looks <= 0:
                self.whole = False
                return
            here = waiting.pop()
            try:
                shows = self.look(here, length)
            except Need as need:
                if only_locals and isinstance(need.cell[0], str):
                    raise
                for shape in reversed(shapes_for(need, here, self.hints, False)):
                    waiting.append({**here, need.cell: shape})
                continue
            if shows:
                yield here, shows

    def failing(self, length, cells):
        """An interval of this length with these cells that doesn't satisfy, or None; and all that the others can show."""
        waiting, shown = [cells], set()
        while waiting and self.looks > 0:
            here = waiting.pop()
            found = self.world.cut_short = False
            try:
                for _, shows in self.satisfying(length, here, only_locals=True):
                    found = True
                    shown |= shows
            except Need as need:
                for shape in reversed(shapes_for(need, here, self.hints, True)):
                    waiting.append({**here, need.cell: shape})
                continue
            if not found and self.whole and not self.world.cut_short:
                return here, shown
        self.whole = self.whole and not waiting
        return None, shown
