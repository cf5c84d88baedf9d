#!/usr/bin/env python3
"""Draws what a run of tempura printed as a timing diagram in SVG.

usage: tempura_svg.py [--width N] [--cell N] [--show] [--light | --dark]

It reads the text of a run from its input by `tempura_text`, and prints the picture: a row for each place, on two levels
where its values are all truth values and else in boxes, and a column for each state. `bin/tempura-wave --svg` calls it;
the options are those of that script, which tells what they do. `draw` gives the same picture to other scripts. The same
text gives the same bytes. Python 3.8 or later, with its standard library alone.
"""

import math
import os
import re
import sys
from bisect import bisect_right
from itertools import groupby

sys.dont_write_bytecode = True
import tempura_text  # noqa: E402

# Lengths are in px, which are whole numbers.
ADVANCE = 7.3  # of a character in the fonts below at 12 px, and a little more
MARGIN = 12
ROW = 26
HIGH, MIDDLE, LOW = 5, 13, 21  # in a row
SLANT = 4  # half of the width of an edge
PADDING = 2 * SLANT + 4  # beside the text of a box
COLUMN = 36  # the least width of a state
AXIS = 18  # the height of the numbers of states
CAPTION = 16  # the height of a line of text
GAP = 14  # between two blocks
LABEL = 24  # the characters of a name that stands beside its row; a longer one stands above it
WORN = 8  # the most characters of a `show` line that columns are widened for
END_LINES = 4  # the most lines that the end line takes

# each colour on light paper and on dark
COLOURS = {
    "paper": ("#ffffff", "#0d1117"),
    "ink": ("#1f2328", "#e6edf3"),
    "faint": ("#656d76", "#8d96a0"),
    "grid": ("#d5dae0", "#2d333b"),
    "line": ("#0b57a4", "#6cb2ff"),
    "level": ("#d6e7fa", "#163355"),
    "box": ("#f1f4f8", "#1b222c"),
    "hatch": ("#aab2bb", "#4c555f"),
    "mark": ("#8a4b00", "#e3a04f"),
    "bad": ("#b3261e", "#ff7b72"),
    "bad-column": ("#fbe3e1", "#3d1a1c"),
    "open-column": ("#fbf0d9", "#33290f"),
}
# what is coloured how
PAINTED = (
    (".paper", "fill", "paper"),
    ("text", "fill", "ink"),
    (".axis, .name-show", "fill", "faint"),
    (".grid", "stroke", "grid"),
    (".level, .box", "stroke", "line"),
    (".under", "fill", "level"),
    (".box, .inside", "fill", "box"),
    (".hatch", "stroke", "hatch"),
    (".show", "fill", "mark"),
    (".bar", "stroke", "ink"),
    (".bad", "stroke", "bad"),
    (".bad-column", "fill", "bad-column"),
    (".open", "fill", "mark"),
    (".open-column", "fill", "open-column"),
)
SHAPED = """text { font: 12px ui-monospace, "DejaVu Sans Mono", Menlo, Consolas, "Liberation Mono", monospace }
text { white-space: pre }
.axis { font-size: 10px; text-anchor: middle }
.name, .name-show { text-anchor: end }
.value { text-anchor: middle }
.open { font-size: 18px; text-anchor: middle }
.level, .bar, .bad { fill: none }
.level, .box { stroke-width: 1.3; stroke-linejoin: round }
.bad { stroke-width: 2.5; stroke-linecap: round }"""


def escaped(text):
    """Text as it may stand in XML, also in an attribute; what XML has no sign for is replaced by U+FFFD."""
    text = re.sub("[^\t\n\r\x20-\ud7ff\ue000-\ufffd\U00010000-\U0010ffff]", "\ufffd", text)
    for sign, name in (("&", "amp"), ("<", "lt"), (">", "gt"), ('"', "quot")):
        text = text.replace(sign, f"&{name};")
    return text


def text_width(text):
    return math.ceil(len(text) * ADVANCE)


def cut(text, most):
    """The text, or its beginning and a mark where it has more than so many characters."""
    return text if len(text) <= most else f"{text[: max(most - 1, 0)]}…"


class Row:
    """A place: its name, whether it is on two levels, and its spans, each (first state, end, text or None)."""

    def __init__(self, name, texts, is_truth):
        self.name, self.is_truth, self.spans, at = name, is_truth, [], 0
        for text, group in groupby(texts):
            count = sum(1 for _ in group)
            self.spans.append((at, at + count, text))
            at += count
        self.ends = [end for _, end, _ in self.spans]

    def between(self, begin, end):
        """The spans of these states, each with whether it begins and whether it ends there."""
        for at in range(bisect_right(self.ends, begin), len(self.spans)):
            first, last, text = self.spans[at]
            if first >= end:
                return
            yield max(first, begin), min(last, end), text, first >= begin, last <= end


def rows_of(run):
    values, truths = {}, {}
    for number, state in enumerate(run.states):
        for part in state.parts:
            values.setdefault(part.place, [None] * len(run.states))[number] = part.text
            truths[part.place] = truths.get(part.place, True) and isinstance(part.value, bool) and not part.is_length
    return [Row(place, texts, truths[place]) for place, texts in values.items()]


def most_in_a_block(first, end, per_block):
    """The most of these states that one block has."""
    before = min(end, first + per_block - first % per_block) - first
    return max(before, min(end - first - before, per_block))


class Picture:
    """The layout of a run, and the elements that are drawn."""

    def __init__(self, run, width, cell, show):
        self.run, self.show, self.out = run, show, []
        self.rows, self.states = rows_of(run), len(run.states)
        self.shows = ["; ".join(state.shows) if state.shows else None for state in run.states]
        self.has_shows = any(state.shows for state in run.states)
        # a state that the end line names has no line of its own, but a column
        self.columns = self.states + (run.end is not None and run.end.state == self.states)
        beside = [len(row.name) for row in self.rows if len(row.name) <= LABEL] + [len("state")]
        self.left = MARGIN + text_width("m" * max(beside)) + 8
        room = max(int(width * ADVANCE) - self.left + MARGIN, COLUMN)
        self.column = self.column_width(room, min(int(cell * ADVANCE) + PADDING, room))
        self.per_block = max(room // self.column, 1)
        drawn = min(self.columns, self.per_block) * self.column
        # what stands below the blocks and above long names goes as far as the blocks, or as far as it has to
        self.line = max(width, 20)
        self.right = self.left + drawn + 10

    def column_width(self, room, most):
        """The least width with which each text, or as much of it as `most` allows, stands whole in one block."""
        column = max(COLUMN, text_width(str(self.columns)) + 4)
        while True:
            per_block, wanted = max(room // column, 1), column
            for row in self.rows:
                for first, end, text in row.spans:
                    if text is not None and not row.is_truth:
                        share = most_in_a_block(first, end, per_block)
                        wanted = max(wanted, -(-min(text_width(text) + PADDING, most) // share))
            for text in self.shows:
                if text is not None and len(text) <= WORN:
                    wanted = max(wanted, min(text_width(text) + 16, most))
            if wanted <= column:
                return column
            column = wanted

    # --- elements

    def add(self, name, content=None, **attributes):
        names = {key: key.rstrip("_").replace("_", "-") for key in attributes}  # `class` is a word of Python
        told = "".join(f' {names[key]}="{escaped(str(value))}"' for key, value in attributes.items())
        self.out.append(f"<{name}{told}/>" if content is None else f"<{name}{told}>{content}</{name}>")

    def text(self, kind, x, y, text, whole=None):
        """A text; where it was cut, the whole of it is shown by a viewer that is asked."""
        title = "" if whole is None or whole == text else f"<title>{escaped(whole)}</title>"
        self.add("text", escaped(text) + title, x=x, y=y, **({"class": kind} if kind else {}))

    def path(self, kind, steps):
        self.add("path", class_=kind, d=steps)

    def x(self, state, begin):
        return self.left + (state - begin) * self.column

    # --- rows

    def draw_levels(self, row, begin, end, top):
        line, under, before = "", "", None
        spans = list(row.between(begin, end))
        for (first, last, text, _, _), behind in zip(spans, [*(span[2] for span in spans[1:]), None]):
            x, to = self.x(first, begin), self.x(last, begin)
            if text is None:
                self.hatch(x, to, top)
            else:
                # an edge goes from SLANT in front of the new state to SLANT behind its beginning
                y = top + (HIGH if text == "true" else LOW)
                at, stop = x + SLANT * bool(before), to - SLANT * bool(behind)
                line += f"{'L' if before else 'M'}{at} {y}H{stop}"
                if text == "true":
                    rise = f"M{x - SLANT * bool(before)} {top + LOW}L{at} {y}"
                    under += f"{rise}H{stop}L{to + SLANT * bool(behind)} {top + LOW}Z"
            before = text
        for kind, steps in (("under", under), ("level", line)):
            if steps:
                self.path(kind, steps)

    def hatch(self, x, to, top):
        self.add("rect", x=x, y=top + HIGH, width=to - x, height=LOW - HIGH, fill="url(#hatch)")

    def draw_boxes(self, row, begin, end, top):
        high, middle, low = top + HIGH, top + MIDDLE, top + LOW
        for first, last, text, begins, ends in row.between(begin, end):
            x, to = self.x(first, begin), self.x(last, begin)
            if text is None:
                self.hatch(x, to, top)
                continue
            left, right = (x + SLANT if begins else x), (to - SLANT if ends else to)
            front = f"L{x} {middle}L{left} {high}" if begins else f"V{high}"
            back = f"L{to} {middle}L{right} {low}" if ends else f"V{low}"
            self.path("box" if begins and ends else "inside", f"M{left} {high}H{right}{back}H{left}{front}Z")
            if not (begins and ends):  # no wall where another block has more of it
                upper = f"M{x} {middle}L{left} {high}H{right}" if begins else f"M{left} {high}H{right}"
                lower = (back if ends else f"M{right} {low}") + f"H{left}" + f"L{x} {middle}" * begins
                self.path("level", upper + lower)
            told = cut(text, int((to - x - PADDING) / ADVANCE + 0.01))
            self.text("value", (x + to) // 2, middle + 4, told, text)

    def draw_shows(self, begin, end, top):
        self.text("name-show", self.left - 8, top + MIDDLE + 4, "show")
        for state in range(begin, min(end, self.states)):
            text = self.shows[state]
            if text is None:
                continue
            x, y = self.x(state, begin) + 3, top + MIDDLE
            title = f"<title>{escaped(f'state {state}: show {text}')}</title>"
            self.add("path", title, class_="show", d=f"M{x} {y}l4 -4l4 4l-4 4Z")
            room = int((self.column - 13) / ADVANCE)
            if len(text) <= room or room >= WORN:
                self.text("", x + 11, y + 4, cut(text, room), text)

    # --- blocks

    def height_of_rows(self):
        captions = sum(len(row.name) > LABEL for row in self.rows)
        return max(ROW * (len(self.rows) + self.has_shows), ROW) + CAPTION * captions

    def draw_block(self, begin, top):
        """Draws the states from this one on, as many as one block has, and tells where it ends."""
        end = min(begin + self.per_block, self.columns)
        bottom = top + AXIS + self.height_of_rows()
        if self.columns > self.states and end == self.columns:
            self.draw_open_state(begin, top + AXIS, bottom)
        self.draw_grid(begin, end, top + AXIS)
        self.text("name-show", self.left - 8, top + 12, "state")
        for state in range(begin, end):
            self.text("axis", self.x(state, begin) + self.column // 2, top + 12, str(state))
        y = top + AXIS
        for row in self.rows:
            if len(row.name) > LABEL:
                self.text("", MARGIN, y + 13, cut(row.name, self.line), row.name)
                y += CAPTION
            else:
                self.text("name", self.left - 8, y + MIDDLE + 4, row.name)
            (self.draw_levels if row.is_truth else self.draw_boxes)(row, begin, min(end, self.states), y)
            y += ROW
        if self.has_shows:
            self.draw_shows(begin, end, y)
        if end == self.columns:
            self.draw_end(self.x(end, begin), top + AXIS, bottom)
        return bottom

    def draw_grid(self, begin, end, top):
        """Lines between the states, but for where a long name stands."""
        bands, y = [], top
        for row in self.rows or [Row("", [], False)]:
            y += CAPTION * (len(row.name) > LABEL)
            if bands and bands[-1][1] == y:
                bands[-1][1] += ROW
            else:
                bands.append([y, y + ROW])
            y += ROW
        bands[-1][1] += ROW * bool(self.rows and self.has_shows)
        states = range(begin, end + 1)
        self.path("grid", "".join(f"M{self.x(state, begin)} {y}V{low}" for y, low in bands for state in states))

    def draw_open_state(self, begin, top, bottom):
        """The state that the end line names: a cross where no interval has it, and else a question."""
        x, y = self.x(self.states, begin), (top + bottom) // 2
        is_bad = self.run.end.kind in ("contradictory", "input missing")
        kind = "bad-column" if is_bad else "open-column"
        self.add("rect", class_=kind, x=x, y=top, width=self.column, height=bottom - top)
        middle = x + self.column // 2
        if is_bad:
            self.path("bad", f"M{middle - 6} {y - 6}l12 12m0 -12l-12 12")
        else:
            self.text("open", middle, y + 6, "?" if self.run.end.kind == "undetermined" else "…")

    def draw_end(self, x, top, bottom):
        """A double bar where the run finished, a torn edge where it was cut off or stopped at the limit of states."""
        if self.run.end is not None and self.run.end.kind == "finished":
            self.add("path", class_="bar", d=f"M{x + 2} {top}V{bottom}")
            self.add("path", class_="bar", d=f"M{x + 6} {top}V{bottom}", stroke_width=3)
        elif self.columns == self.states and self.states > 0:
            teeth = "".join(f"l{3 if at % 2 else -3} 5" for at in range((bottom - top) // 5))
            self.add("path", class_="bar", d=f"M{x + 5} {top}{teeth}")

    # --- the whole

    def lines_below(self):
        if self.show:
            for number, state in enumerate(self.run.states):
                for text in state.shows:
                    told = f"state {number}: show {text}"
                    yield cut(told, self.line), told
        end = self.run.end.line if self.run.end else "no end line: this is a part of a run"
        for at in range(0, len(end), self.line):
            if at == self.line * (END_LINES - 1) and len(end) > at + self.line:
                yield cut(end[at:], self.line), end
                return
            yield end[at : at + self.line], None

    def draw(self):
        y = MARGIN
        for begin in range(0, self.columns, self.per_block):
            y = self.draw_block(begin, y) + GAP
        wide = [len(row.name) for row in self.rows if len(row.name) > LABEL]
        for line, whole in self.lines_below():
            self.text("", MARGIN, y + 8, line, whole)
            wide.append(len(line))
            y += CAPTION
        written = MARGIN + text_width("m" * min(max(wide), self.line))
        return max(self.right if self.columns else 0, written) + MARGIN, y + MARGIN - 4


def styles(scheme):
    """The style sheet; without a scheme that of light paper, and where the reader prefers it, that of dark."""

    def painted(at):
        return "\n".join(f"{what} {{ {how}: {COLOURS[colour][at]} }}" for what, how, colour in PAINTED)

    told = [SHAPED, painted(scheme == "dark")]
    if scheme is None:
        told.append("@media (prefers-color-scheme: dark) {\n" + painted(1) + "\n}")
    return "\n".join(told)


def draw(run, width=100, cell=41, show=False, scheme=None):
    """The picture of a run, as text: `scheme` is "light", "dark", or None for both."""
    picture = Picture(run, width, cell, show)
    wide, high = picture.draw()
    size = f'width="{wide}" height="{high}" viewBox="0 0 {wide} {high}"'
    end = run.end.line if run.end else "no end line"
    count = "1 state" if picture.states == 1 else f"{picture.states} states"
    return "\n".join(
        [
            f'<svg xmlns="http://www.w3.org/2000/svg" {size} role="img">',
            f"<title>A run of {count}: {escaped(cut(end, 200))}</title>",
            f"<style>\n{styles(scheme)}\n</style>",
            '<pattern id="hatch" width="5" height="5" patternUnits="userSpaceOnUse" patternTransform="rotate(45)">'
            '<path class="hatch" d="M0 0V5"/></pattern>',
            f'<rect class="paper" width="{wide}" height="{high}"/>',
            *picture.out,
            "</svg>\n",
        ]
    )


def refuse(why, status):
    print(why, file=sys.stderr)
    raise SystemExit(status)


def main(words):
    if words in (["--help"], ["-h"]):
        print(__doc__.strip())
        return
    usage = __doc__.split("\n")[2]
    options, schemes = {}, []
    while words:
        word = words.pop(0)
        if word in ("--light", "--dark"):
            schemes.append(word[2:])
        elif word == "--show":
            options["show"] = True
        elif word in ("--width", "--cell") and words and re.fullmatch("[0-9]{1,5}", words[0]):
            options[word[2:]] = int(words.pop(0))
        else:
            refuse(usage, 2)
    if len(schemes) > 1:
        refuse(usage, 2)
    data = sys.stdin.buffer.read()
    try:
        run = tempura_text.read_run(data)
    except tempura_text.Refused as refused:
        refuse(f"tempura-wave: {refused if data else 'the text is empty'}", 1)
    out = open(sys.stdout.fileno(), "w", encoding="utf-8", newline="", closefd=False)
    out.write(draw(run, scheme=schemes[0] if schemes else None, **options))
    out.flush()


if __name__ == "__main__":
    try:
        main(sys.argv[1:])
    except BrokenPipeError:
        os.dup2(os.open(os.devnull, os.O_WRONLY), sys.stdout.fileno())
        raise SystemExit(1) from None
