"""Reads what a run of tempura printed: its states, what they show, their trace lines, and how it ended.

`read_run` takes the bytes of any run, and `read_trace` those with a state at least, exactly as the proved reader of
traces (`read_trace` of the crate tp_show) takes them: the states' lines word by word, the lines `show`, `reductions` and
`residual:` behind a state, and one end line, the last, by its beginning. examples/text-check compares the two on the
same texts. Python 3.8 or later, with its standard library alone; as a program, it prints what it is and does nothing.
"""

import re

NUMBER_LIMIT = 2**127 - 1
ITEM_LIMIT = 65_536  # items of a value, at every depth
DEPTH_LIMIT = 100  # lists in each other
INDEX_LIMIT = 65_535
PATH_LIMIT = 100  # indices of a place
LENGTH_LIMIT = 65_536
NAME_LIMIT = 64

# the words of the language, which name no variable
WORDS = frozenset(
    b"if then else while do repeat until for forall exists define run true false and or not div mod empty more skip next "
    b"always keep fin halt stable sometimes gets len list input display proj".split()
)

# how the line begins that ends the text of a run
ENDS = (
    "finished:",
    "contradictory:",
    "undetermined:",
    "state limit:",
    "reduction limit:",
    "number limit:",
    "list limit:",
    "call limit:",
    "nest limit:",
    "input missing:",
    "source refused:",
    "inputs refused:",
    "too long:",
    "read fault:",
    "words refused",
)
PASSED_OVER = (b"show", b"reductions ", b"residual: ")


class Refused(Exception):
    """A text that no run prints: `line` is the first that isn't allowed where it stands, from 1."""

    def __init__(self, line, text=b""):
        super().__init__(f"line {line} is of no run: {text[:60].decode('utf-8', 'replace')}")
        self.line = line


class NoValue(Exception):
    """A text with no value where one is due, or with one past the limits."""


class Part:
    """What a state's line says of a place: its value, or the length of the list there.

    `name` and `at` are the variable and the indices, `value` is an int, a bool or a list, or the length where
    `is_length`; `place` and `text` are both sides of the `=` as they are printed.
    """

    def __init__(self, name, at, value, is_length, place, text):
        self.name, self.at, self.value, self.is_length = name, at, value, is_length
        self.place, self.text = place, text

    def facts(self):
        """The facts of the part, as (name, indices, shape): a list's length before the facts of its items."""
        if self.is_length:
            return [(self.name, self.at, ("Items", self.value))]
        return [(self.name, at, shape) for at, shape in _facts_at(self.at, self.value)]


class State:
    """A printed state: its parts in order, and the lines behind its own."""

    def __init__(self, number, parts):
        self.number, self.parts = number, parts
        self.shows = []  # what stands behind the word `show`, a text each
        self.reductions = None
        self.residual = None

    def facts(self):
        return [fact for part in self.parts for fact in part.facts()]


class End:
    """How a run ended: the line, its kind, as `state limit`, and the state that it names or None."""

    def __init__(self, line):
        self.line = line
        self.kind = next(kind for kind in ENDS if line.startswith(kind)).rstrip(":")
        behind = line[len(self.kind) :].lstrip(":").strip()
        named = re.match(r"state ([0-9]+)(?:: |$)", behind)
        self.state = int(named[1]) if named else None
        self.told = behind[named.end() :] if named else behind


class Run:
    """The states of a run from number 0 on, and its end, which is None where the text was cut off."""

    def __init__(self, states, end):
        self.states, self.end = states, end

    def places(self):
        """The places of the states' lines, in the order in which they first appear."""
        return list(dict.fromkeys(part.place for state in self.states for part in state.parts))


def _facts_at(at, value):
    found, todo = [], [(at, value)]
    while todo:
        at, value = todo.pop()
        if isinstance(value, list):
            found.append((at, ("Items", len(value))))
            todo.extend((at + (k,), value[k]) for k in reversed(range(len(value))))
        else:
            found.append((at, ("Truth" if isinstance(value, bool) else "Num", value)))
    return found


def read_value(text, start=0):
    """The value whose text begins there, the longest, and the place behind it; blanks may stand in a list."""
    unclosed, begun, at = [], 0, start
    may_value, may_close, may_comma = True, False, False
    while True:
        if unclosed:
            while text[at : at + 1] in (b" ", b"\t"):
                at += 1
        byte = text[at : at + 1]
        if byte == b"," and may_comma:
            may_value, may_close, may_comma, at = True, False, False, at + 1
            continue
        if byte == b">" and may_close:
            value, at = unclosed.pop(), at + 1
        elif not may_value:
            raise NoValue
        else:
            if unclosed:
                if begun >= ITEM_LIMIT:
                    raise NoValue
                begun += 1
            if byte == b"<":
                if len(unclosed) >= DEPTH_LIMIT:
                    raise NoValue
                unclosed.append([])
                may_value, may_close, may_comma, at = True, True, False, at + 1
                continue
            word = re.compile(rb"true|false|-?[0-9]+").match(text, at)
            if not word:
                raise NoValue
            value, at = _scalar(word[0]), word.end()
        if not unclosed:
            return value, at
        unclosed[-1].append(value)
        may_value, may_close, may_comma = False, True, True


def _scalar(word):
    if word in (b"true", b"false"):
        return word == b"true"
    digits = word.lstrip(b"-").lstrip(b"0") or b"0"
    if len(digits) > len(str(NUMBER_LIMIT)) or int(digits) > NUMBER_LIMIT:
        raise NoValue
    return -int(digits) if word.startswith(b"-") else int(digits)


def _within(limit, digits):
    """The number that digits spell, where it is within the limit."""
    if not re.fullmatch(rb"[0-9]+", digits):
        raise NoValue
    digits = digits.lstrip(b"0") or b"0"
    if len(digits) > len(str(limit)) or int(digits) > limit:
        raise NoValue
    return int(digits)


def _read_path(text):
    name = re.match(rb"[A-Za-z0-9_]*", text)[0]
    if not name[:1].isalpha() or len(name) > NAME_LIMIT or name in WORDS:
        raise NoValue
    at, rest = [], text[len(name) :]
    while rest:
        index, closed, behind = rest[1:].partition(b"]")
        if rest[:1] != b"[" or not closed:
            raise NoValue
        at.append(_within(INDEX_LIMIT, index))
        rest = behind
    if len(at) > PATH_LIMIT:
        raise NoValue
    return name.decode("ascii"), tuple(at)


def _read_part(text, start):
    """The part that begins there, and the place behind it."""
    left, found, _ = text[start:].partition(b"=")
    if not found:
        raise NoValue
    begin = start + len(left) + 1
    is_length = len(left) >= 2 and left[:1] == left[-1:] == b"|"
    name, at = _read_path(left[1:-1] if is_length else left)
    if is_length:
        end = text.find(b" ", begin)
        end = len(text) if end < 0 else end
        value = _within(LENGTH_LIMIT, text[begin:end])
    else:
        value, end = read_value(text, begin)
        if text[end : end + 1] not in (b"", b" "):
            raise NoValue
    return Part(name, at, value, is_length, left.decode("ascii"), text[begin:end].decode("ascii")), end


def facts_clash(facts):
    """Whether some two of the facts give one place two shapes, or one gives a shape that lacks another's place."""
    shapes = {}
    for name, at, shape in facts:
        if shapes.setdefault((name, at), shape) != shape:
            return True
    for name, at in shapes:
        for length in range(len(at)):
            kind, count = shapes.get((name, at[:length]), ("Items", ITEM_LIMIT + 1))
            if kind != "Items" or at[length] >= count:
                return True
    return False


def _read_state(number, line):
    front = b"state %d:" % number
    if not line.startswith(front):
        return None
    parts, at = [], len(front)
    try:
        while at < len(line):
            if line[at : at + 1] != b" ":
                return None
            part, at = _read_part(line, at + 1)
            parts.append(part)
    except NoValue:
        return None
    state = State(number, parts)
    return None if facts_clash(state.facts()) else state


def lines_of(data):
    """The lines of a text: each ends with a line feed, perhaps behind a carriage return, which the last may lack."""
    rows = data.split(b"\n")
    last = rows.pop()
    return [row[:-1] if row.endswith(b"\r") else row for row in rows] + [last] * (last != b"")


def _pass_over(state, line):
    text = line.decode("utf-8", "replace")
    if line.startswith(b"show"):
        state.shows.append(text[4:].lstrip(" "))
    elif line.startswith(b"reductions "):
        state.reductions = text[len("reductions ") :]
    else:
        state.residual = text[len("residual: ") :]


def _read(data, wants_state):
    states, rows = [], lines_of(data)
    for at, line in enumerate(rows):
        state = _read_state(len(states), line)
        if state is not None:
            states.append(state)
        elif line.startswith(tuple(kind.encode() for kind in ENDS)) and (states or not wants_state):
            if at + 1 < len(rows):
                raise Refused(at + 2, rows[at + 1])
            return Run(states, End(line.decode("utf-8", "replace")))
        elif states and line.startswith(PASSED_OVER):
            _pass_over(states[-1], line)
        else:
            raise Refused(at + 1, line)
    if not states:
        raise Refused(1)
    return Run(states, None)


def read_run(data):
    """The run whose text these bytes are, also one that ended before a state was settled; or `Refused`."""
    return _read(data, False)


def read_trace(data):
    """The same for a text with a state at least, as the proved reader of traces takes it."""
    return _read(data, True)


def show_values(text):
    """The values of a `show` line, or None where the text isn't a row of values."""
    values, at, data = [], 0, text.encode("utf-8", "replace")
    try:
        while at < len(data):
            value, at = read_value(data, at)
            values.append(value)
            if data[at : at + 1] not in (b"", b" "):
                return None
            at += 1
    except NoValue:
        return None
    return values


if __name__ == "__main__":
    print(__doc__)
