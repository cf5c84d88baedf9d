"""Reads tables of inputs of both formats, and writes them.

`read_inputs` takes the bytes of a file exactly as the proved reader does: which table it is, or its first wrong line.
`converted` is the canonical text of format 2, as `tempura convert` writes it, and `expanded` the text of format 1 with a
line for each state. examples/inputs-check compares these with the proved program.

Python 3.9 or later, with its standard library alone; as a program, it prints what it is and does nothing.
"""

import bisect
import re

import tempura_text

LAST_STATE = 99_999_999
SIZE_LIMIT = 16_777_216  # bytes of a file
FIRST_LINE = b"inputs 2"
RANGE = re.compile(rb"[ \t]*(?:(\*)|([0-9]{1,8})(?:(-)([0-9]{1,8})?)?)[ \t]*:")
PORT = re.compile(rb"([a-z][A-Za-z0-9_]*)=")


class Refused(Exception):
    """A text that is no table: `line` is its first wrong line, from 1."""

    def __init__(self, line):
        super().__init__(f"inputs refused: line {line}")
        self.line = line


class _BadLine(Exception):
    pass


class Rows:
    """The rows of a port, in order and apart: their first states, and what each ends with, (last state, value)."""

    def __init__(self):
        self.firsts, self.ends = [], []

    def add(self, first, last, value):
        """Adds a row; whether there was no value in any of its states."""
        at = bisect.bisect_right(self.firsts, last)
        if at and self.ends[at - 1][0] >= first:
            return False
        self.firsts.insert(at, first)
        self.ends.insert(at, (last, value))
        return True

    def at(self, state):
        """The value in that state, or None."""
        at = bisect.bisect_right(self.firsts, state)
        return self.ends[at - 1][1] if at and self.ends[at - 1][0] >= state else None

    def __iter__(self):
        return ((first, *end) for first, end in zip(self.firsts, self.ends))


class Table:
    """The rows of each port, and the defaults."""

    def __init__(self):
        self.rows, self.defaults = {}, {}

    def add(self, first, last, port, value):
        """Adds a row; whether the port had no value in any of its states."""
        return self.rows.setdefault(port, Rows()).add(first, last, value)

    def add_default(self, port, value):
        """Adds a default; whether the port had none."""
        if port in self.defaults:
            return False
        self.defaults[port] = value
        return True

    def at(self, state, port):
        """The value of the port in that state, or None."""
        value = self.rows[port].at(state) if port in self.rows else None
        return self.defaults.get(port) if value is None else value

    def ports(self):
        return sorted({*self.rows, *self.defaults}, key=str.encode)

    def joined(self):
        """The rows by port, those of one value that follow each other without a gap as one."""
        for port in sorted(self.rows, key=str.encode):
            kept = None
            for first, last, value in self.rows[port]:
                if kept and kept[1] + 1 == first and is_same(kept[2], value):
                    kept = (kept[0], last, value)
                    continue
                if kept:
                    yield (port, *kept)
                kept = (first, last, value)
            if kept:
                yield (port, *kept)

    def converted(self):
        """The canonical text of format 2."""
        lines = [FIRST_LINE.decode()]
        lines += [f"{spelled_range(*row)}: {port}={spelled(value)}" for port, *row, value in self.joined()]
        lines += [f"*: {port}={spelled(self.defaults[port])}" for port in sorted(self.defaults, key=str.encode)]
        return "".join(f"{line}\n" for line in lines).encode()

    def expanded(self, states):
        """The text of format 1 with the values in so many states."""
        lines, ports = [], self.ports()
        for state in range(states):
            values = [(port, self.at(state, port)) for port in ports]
            lines.append(" ".join(f"{port}={spelled(value)}" for port, value in values if value is not None))
        return "".join(f"{line}\n" for line in lines).encode()


def is_same(one, other):
    """Whether two values are the same: 1 is not true."""
    return type(one) is type(other) and spelled(one) == spelled(other)


def spelled(value):
    if isinstance(value, bool):
        return "true" if value else "false"
    return f"<{','.join(spelled(it) for it in value)}>" if isinstance(value, list) else str(value)


def spelled_range(first, last):
    if first == last:
        return str(first)
    return f"{first}-" if last == LAST_STATE else f"{first}-{last}"


def is_port(name):
    """Whether this can be a port: a name with a lower-case first letter, of 64 bytes at most, that is no word."""
    data = name.encode()
    is_name = re.fullmatch(rb"[a-z][A-Za-z0-9_]*", data) is not None
    return is_name and len(data) <= tempura_text.NAME_LIMIT and data not in tempura_text.WORDS


def _pairs(line, at):
    """The pairs of a line from that place on, which blanks stand between."""
    while at < len(line):
        if line[at : at + 1] in (b" ", b"\t"):
            at += 1
            continue
        port = PORT.match(line, at)
        if not port or not is_port(port[1].decode()):
            raise _BadLine
        try:
            value, at = tempura_text.read_value(line, port.end())
        except tempura_text.NoValue:
            raise _BadLine from None
        if line[at : at + 1] not in (b"", b" ", b"\t"):
            raise _BadLine
        yield port[1].decode(), value


def _range(line):
    """The first and the last state of a line's range, or two times None for defaults; and where the pairs begin."""
    found = RANGE.match(line)
    if not found:
        raise _BadLine
    if found[1]:
        return None, None, found.end()
    first = int(found[2])
    last = first if not found[3] else int(found[4] or LAST_STATE)
    if last < first:
        raise _BadLine
    return first, last, found.end()


def _read_line(table, line):
    """Adds what a line of format 2 gives."""
    if not line.strip(b" \t"):
        return
    first, last, at = _range(line)
    for port, value in _pairs(line, at):
        if not (table.add_default(port, value) if first is None else table.add(first, last, port, value)):
            raise _BadLine


def read_inputs(data):
    """The table whose text these bytes are, or `Refused`."""
    table, lines = Table(), tempura_text.lines_of(data)
    is_second = lines[:1] == [FIRST_LINE]
    for number, line in enumerate(lines):
        try:
            if not is_second:
                for port, value in _pairs(line, 0):
                    if not table.add(number, number, port, value):
                        raise _BadLine
            elif number:
                _read_line(table, line)
        except _BadLine:
            raise Refused(number + 1) from None
    return table


if __name__ == "__main__":
    print(__doc__)
