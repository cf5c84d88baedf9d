"""Reads a value change dump of a simulator: its variables, and its values at each time.

`Dump` reads the declarations; `slots` then goes through the times once, keeping the values of some variables alone, so
a dump may be of any length. What is read is the dump with four values of IEEE 1364: `0`, `1`, `x` and `z`.

Python 3.9 or later, with its standard library alone; as a program, it prints what it is and does nothing.
"""

import re

# kinds of variables whose changes are no bits
NO_BITS = frozenset("real realtime shortreal string event".split())
# kinds that a simulator writes in two's complement
SIGNED = frozenset("integer int shortint longint byte".split())
RANGE = re.compile(r"(.*?)((?:\[-?[0-9]+:-?[0-9]+\])?)", re.S)
BITS = re.compile(r"[01xz]+", re.I)
SWITCHES = frozenset("$dumpvars $dumpall $dumpon $dumpoff $end".split())


class Refused(Exception):
    """A text that is no value change dump: `line` is the one that is wrong, from 1."""

    def __init__(self, line, why):
        super().__init__(f"line {line}: {why}")
        self.line = line


class Variable:
    """A variable that a dump declares. Variables with one `code` are one signal.

    `scope` has the names of the scopes around it; `name` its own name, without the `\\` of an escaped one and without
    its range, but with the index of a bit or of an element; `range` is `[7:0]`, or nothing; `size` counts bits.
    """

    def __init__(self, kind, size, code, scope, name, span):
        self.kind, self.size, self.code, self.scope, self.name, self.range = kind, size, code, scope, name, span

    @property
    def path(self):
        return ".".join((*self.scope, self.name))

    @property
    def is_signed(self):
        return self.kind in SIGNED

    @property
    def has_bits(self):
        return self.kind not in NO_BITS


class Slot:
    """A time at which something changes, with the new values of some variables, as texts of bits by code.

    `stretch` counts how often the dump was switched on before. `is_first` says that nothing is known of the time before,
    as the dump begins, or was switched on, at this one.
    """

    def __init__(self, time, stretch, changes, is_first):
        self.time, self.stretch, self.changes, self.is_first = time, stretch, changes, is_first


class Edge:
    """A rising edge of a clock, with the values of some variables, as texts of bits by code; a code that isn't there has
    no known bit. `changed` has the codes whose values may be others than at the edge before."""

    def __init__(self, slot, values, changed):
        self.time, self.stretch, self.values, self.changed = slot.time, slot.stretch, values, changed


class Dump:
    """A dump whose declarations are read from the lines of a file: `variables` in their order."""

    def __init__(self, file):
        self._tokens, self._line = self._words(file), 0
        self.variables = []
        self.off_from = []  # the times at which the dump was switched off, as far as it is read
        self.end = 0  # the last time that was read
        self._read_declarations()

    def _words(self, file):
        for self._line, line in enumerate(file, 1):
            yield from line.split()

    def _refuse(self, why):
        raise Refused(max(self._line, 1), why)

    def _section(self, keyword):
        """The words of a section up to its `$end`."""
        words = []
        for word in self._tokens:
            if word == "$end":
                return words
            words.append(word)
        return self._refuse(f"{keyword} has no $end")

    def _read_declarations(self):
        scope = []
        for word in self._tokens:
            if not word.startswith("$"):
                self._refuse(f"{word[:40]} stands in front of $enddefinitions")
            words = self._section(word)
            if word == "$scope":
                if len(words) != 2:
                    self._refuse("$scope has a kind and a name")
                scope.append(words[1].lstrip("\\"))
            elif word == "$upscope":
                if not scope:
                    self._refuse("$upscope without a scope")
                scope.pop()
            elif word == "$var":
                self.variables.append(self._declared(words, tuple(scope)))
            elif word == "$enddefinitions":
                return
        self._refuse("the text ends without $enddefinitions")

    def _declared(self, words, scope):
        if len(words) < 4 or not re.fullmatch(r"[0-9]{1,9}", words[1]):
            self._refuse("$var has a kind, a size, a code and a name")
        kind, size, code, name = words[:4]
        rest = "".join(words[4:])
        if name.startswith("\\"):
            name, (index, span) = name[1:], RANGE.fullmatch(rest).groups()
            name += index
        else:
            name, span = RANGE.fullmatch(name + rest).groups()
        return Variable(kind, int(size), code, scope, name, span)

    def slots(self, variables):
        """Goes through the times of the dump once, with the values of these variables; gives a `Slot` for each."""
        self._sizes = {it.code: it.size for it in variables}
        self._codes = {it.code for it in self.variables}
        self._changes, self._is_empty, self._is_first, self._is_on = {}, True, True, True
        time, stretch = None, 0
        for word in self._tokens:
            if not word.startswith("#"):
                stretch += word == "$dumpon" and not self._is_on
                self._read_change(word, time)
                continue
            before, time = time, self._later(time, word)
            self.end = time
            if self._is_empty or before == time:
                continue
            if self._is_on:
                yield Slot(before, stretch, self._changes, self._is_first)
            self._changes, self._is_empty, self._is_first = {}, True, False
        if not self._is_empty and self._is_on:
            yield Slot(time, stretch, self._changes, self._is_first)

    def edges(self, clock, variables, after=False):
        """The rising edges of a clock: where it is 1 and wasn't just before, which has to be known. Each has the values
        just before it or, with `after`, those that all changes of its time make."""
        values, changed = {}, set()
        for slot in self.slots([clock, *variables]):
            if slot.is_first:
                values.clear()
                changed = {it.code for it in variables}
            rises = not slot.is_first and slot.changes.get(clock.code) == "1" != values.get(clock.code)
            if rises and not after:
                yield Edge(slot, values, changed)
                changed = set()
            values.update(slot.changes)
            changed.update(slot.changes)
            if rises and after:
                yield Edge(slot, values, changed)
                changed = set()

    def times(self, variables):
        """Each whole time up to the last one, which is the end alone, with the values that stand there."""
        values, at, stretch = {}, None, 0
        for slot in self.slots(variables):
            for time in range(slot.time if at is None else at, slot.time):
                yield Edge(Slot(time, stretch, {}, False), values, set())
            if slot.is_first:
                values.clear()
            values.update(slot.changes)
            at, stretch = slot.time, slot.stretch
        for time in range(self.end if at is None else at, self.end):
            yield Edge(Slot(time, stretch, {}, False), values, set())

    def _later(self, time, word):
        if not re.fullmatch(r"#[0-9]{1,30}", word):
            self._refuse(f"{word[:40]} is no time")
        if time is not None and int(word[1:]) < time:
            self._refuse(f"the time goes back from {time} to {word[1:]}")
        return int(word[1:])

    def _read_change(self, word, time):
        self._is_empty = False
        head = word[0]
        if head in "01xzXZ":
            self._change(word[1:], head)
        elif head in "bB":
            self._change(next(self._tokens, ""), word[1:])
        elif head in "rRsS":
            if next(self._tokens, "") not in self._codes:
                self._refuse(f"no variable has the code behind {word[:40]}")
        elif word in SWITCHES:
            self._switch(word, time)
        elif word == "$comment":
            self._section(word)
        else:
            self._refuse(f"{word[:40]} is no change of a dump with four values")

    def _switch(self, word, time):
        if word == "$dumpoff" and self._is_on:
            self._is_on = False
            self.off_from.append(time)
        elif word == "$dumpon" and not self._is_on:
            self._is_on, self._is_first = True, True
            self._changes.clear()
        elif word == "$dumpvars":
            self._is_first = True

    def _change(self, code, bits):
        if code not in self._codes:
            self._refuse(f"no variable has the code {code[:40]}")
        size = self._sizes.get(code)
        if size is None or not self._is_on:
            return
        if not BITS.fullmatch(bits) or len(bits) > size:
            self._refuse(f"{bits[:40]} is no value of {size} bits")
        self._changes[code] = bits


def number_of(bits, size, is_signed):
    """The number that these bits of a variable of that size are, or None where one of them isn't known."""
    if not bits.isdigit():
        return None
    value = int(bits, 2)
    return value - (1 << size) if is_signed and len(bits) == size and bits[0] == "1" else value


if __name__ == "__main__":
    print(__doc__)
