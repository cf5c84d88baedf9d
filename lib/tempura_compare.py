"""Compares two printed runs of tempura, as lib/tempura_text.py reads them.

Python 3.9 or later, with its standard library alone; as a program, it prints what it is and does nothing.
"""

import os

NOTHING = "-"  # in the place of a value that isn't printed
CELL = 40  # a longer value is cut


class Difference:
    """The first state in which two runs differ, or their ends.

    `number` is the state's, or None where the ends differ; `rows` are what each of the two says of a place, as
    (place, first, second), with None where it says nothing.
    """

    def __init__(self, number, rows):
        self.number, self.rows = number, rows


def _told(state):
    """What a state's lines say, by place; the lines `show` by their number."""
    said = {part.place: part.text for part in state.parts}
    said.update((f"show {at}" if at else "show", text) for at, text in enumerate(state.shows))
    return said


def _rows(first, second):
    places = list(dict.fromkeys([*first, *second]))
    return [(place, first.get(place), second.get(place)) for place in places]


def end_line(run):
    """The line that ends a run, or what stands for it where the text was cut off."""
    return run.end.line if run.end else "no end line"


def first_difference(first, second):
    """The `Difference` of two runs, or None where they are the same but for the order on their lines."""
    for one, two in zip(first.states, second.states):
        told_one, told_two = _told(one), _told(two)
        if told_one != told_two:
            return Difference(one.number, _rows(told_one, told_two))
    common = min(len(first.states), len(second.states))
    ends = ("end", end_line(first), end_line(second))
    if len(first.states) == len(second.states):
        return None if ends[1] == ends[2] else Difference(None, [ends])
    longer = (first if len(first.states) > common else second).states[common]
    told = _told(longer)
    rows = _rows(told, {}) if len(first.states) > common else _rows({}, told)
    rows.append(("end", None, ends[2]) if len(first.states) > common else ("end", ends[1], None))
    return Difference(common, rows)


def told_count(count, noun):
    return f"{count} {noun}" if count == 1 else f"{count} {noun}s"


def _cells(one, two):
    """Both values as they are shown: of long ones the part where they begin to differ."""
    one, two = (NOTHING if it is None else it for it in (one, two))
    differs = len(os.path.commonprefix([one, two])) if one != two else 0
    begin = max(0, differs - CELL // 2) if max(len(one), len(two)) > CELL else 0
    return [_cut(it, begin) for it in (one, two)]


def _cut(text, begin):
    shown = text[begin : begin + CELL]
    return ".." * (begin > 0) + shown + ".." * (begin + CELL < len(text))


def side_by_side(difference, names):
    """The lines that show a difference, with a mark in front of each place that differs."""
    if difference.number is None:
        head = "the states are the same, and the ends differ"
    elif difference.number == 0:
        head = "state 0 differs"
    else:
        head = f"state {difference.number} differs, and the states before it are the same"
    rows = [("", *names)]
    for place, one, two in difference.rows:
        rows.append((place, one or NOTHING, two or NOTHING) if place == "end" else (place, *_cells(one, two)))
    widths = [max(len(row[at]) for row in rows) for at in range(3)]
    lines = [head]
    for at, row in enumerate(rows):
        differs = at > 0 and difference.rows[at - 1][1] != difference.rows[at - 1][2]
        cells = "  ".join(text.ljust(width) for text, width in zip(row, widths))
        lines.append(f"{'*' if differs else ' '} {cells}".rstrip())
    return lines


def agrees(first, second):
    """Whether two programs agree on the inputs of these runs: no interval satisfies either, or they print the same
    states, and both finish or both go on at the limit of states."""
    kinds = {run.end.kind for run in (first, second) if run.end}
    if kinds <= {"contradictory", "input missing"}:
        return True
    return len(kinds) == 1 and kinds <= {"finished", "state limit"} and first_difference(first, second) is None


if __name__ == "__main__":
    print(__doc__)
