"""A printed run, as docs/LANGUAGE.md says it is to be read, and what it then promises."""

import re

ENDS = [
    ('finished', r'finished: length (\d+)', 0),
    ('contradictory', r'contradictory: state (\d+): .+', 1),
    ('undetermined', r'undetermined: state (\d+): (.+)', 2),
    ('state limit', r'state limit: (\d+)', 3),
    ('reduction limit', r'reduction limit: state (\d+): \d+ reductions', 4),
    ('number limit', r'number limit: state (\d+)', 5),
    ('list limit', r'list limit: state (\d+)', 6),
    ('call limit', r'call limit: state (\d+)', 7),
    ('nest limit', r'nest limit: state (\d+)', 8),
    ('input missing', r'input missing: state (\d+): port [a-z]\w*', 9),
]
FAILURES = {'contradictory', 'input missing', 'reduction limit', 'number limit', 'list limit', 'call limit', 'nest limit'}
PLACE = re.compile(r'([A-Za-z]\w*)((?:\[\d+\])*)$')


class Malformed(Exception):
    """The text isn't that of a run."""


def read_value(text, at=0):
    """The value that is written from there on, and where it ends."""
    if text.startswith('<', at):
        items, at = [], at + 1
        while not text.startswith('>', at):
            if items:
                if not text.startswith(',', at):
                    raise Malformed(text)
                at += 1
            item, at = read_value(text, at)
            items.append(item)
        return tuple(items), at + 1
    found = re.compile(r'true|false|-?\d+').match(text, at)
    if not found:
        raise Malformed(text)
    word = found.group()
    return (word if word in ('true', 'false') else int(word)), found.end()


def read_place(text):
    found = PLACE.match(text)
    if not found:
        raise Malformed(text)
    return found.group(1), tuple(int(i) for i in re.findall(r'\d+', found.group(2)))


class Run:
    """The states of a printed run, as cells, what they show, and the end."""

    def __init__(self, text, status):
        self.cells, self.shows, self.names, self.states = {}, [], [], 0
        if not text.endswith('\n'):
            raise Malformed('the last line has no end')
        lines = text[:-1].split('\n')
        for line in lines[:-1]:
            self.read_line(line)
        self.read_end(lines[-1], status)

    def read_line(self, line):
        if line.startswith(('reductions ', 'residual: ')) and self.states:
            return
        if line.startswith('show ') and self.states:
            self.shows.append((self.states - 1, line[len('show '):]))
            return
        start = f'state {self.states}:'
        if not line.startswith(start):
            raise Malformed(line)
        self.states += 1
        self.names.append([])
        rest = line[len(start):]
        for part in rest[1:].split(' ') if rest else []:
            self.read_fact(part)

    def read_fact(self, part):
        left, equals, right = part.partition('=')
        if not equals:
            raise Malformed(part)
        sized = left.startswith('|') and left.endswith('|')
        variable, path = read_place(left[1:-1] if sized else left)
        value, end = read_value(right)
        if end != len(right):
            raise Malformed(part)
        if self.names[-1][-1:] != [variable]:
            self.names[-1].append(variable)
        if sized:
            self.add((variable, path), ('list', value))
        else:
            self.add_value(variable, path, value)

    def add_value(self, variable, path, value):
        if isinstance(value, tuple):
            self.add((variable, path), ('list', len(value)))
            for i, item in enumerate(value):
                self.add_value(variable, path + (i,), item)
        else:
            self.add((variable, path), value)

    def add(self, place, shape):
        variable, path = place
        cell = (variable, None if variable[0].islower() else self.states - 1, path)
        if self.cells.setdefault(cell, shape) != shape:
            raise Malformed(f'two values of {variable}')

    def read_end(self, line, status):
        for name, form, wanted in ENDS:
            found = re.fullmatch(form, line)
            if not found:
                continue
            self.end, number = name, int(found.group(1))
            self.cell = found.group(2) if name == 'undetermined' else None
            states = {'finished': number + 1}.get(name, number)
            if states != self.states:
                raise Malformed(f'{self.states} states, and then {line}')
            if status != wanted:
                raise Malformed(f'status {status} with {line}')
            return
        raise Malformed(line)


def misplaced(run, order):
    """A state whose variables don't stand in the order of the program's text, or None; static ones stay once they are told."""
    told = set()
    for state, names in enumerate(run.names):
        places = [order.index(name) if name in order else -1 for name in names]
        if -1 in places or places != sorted(set(places)):
            return f'state {state}: the order of its variables'
        if not told <= set(names):
            return f'state {state}: a static variable isn\'t told again'
        told |= {name for name in names if name[0].islower()}
    return None


def already_told(run):
    """The cell that a run is said to be open at, where an earlier state's line has its value: that of a static variable."""
    if run.cell and PLACE.match(run.cell):
        variable, path = read_place(run.cell)
        if (variable, None, path) in run.cells and variable[0].islower():
            return f'is open at {run.cell}, which is told before'
    return None


def disagreement(run, cells):
    """What is printed and isn't so in an interval with these cells, or None."""
    for cell, shape in run.cells.items():
        if cells.get(cell) != shape:
            return cell, shape
    return None


def in_order(shows):
    return tuple(sorted(shows, key=lambda entry: entry[0]))


def judge(run, search, bound):
    """What of the run's promise is wrong, in words with an interval; None where nothing is found."""
    if run.end == 'finished':
        failing, shown = search.failing(run.states - 1, dict(run.cells))
        if failing is not None:
            return f'doesn\'t satisfy: length {run.states - 1}, {told(failing)}'
        if any(in_order(shows) != in_order(run.shows) for shows in shown):
            return f'shows something else: {sorted(shown)[:2]}'
    for length in range(bound + 1):
        for cells, shows in search.satisfying(length, {}):
            wrong = wrong_with(run, length, cells, shows)
            if wrong:
                return f'{wrong}: length {length}, {told(cells)}, shows {sorted(shows)[:2]}'
    return None


def wrong_with(run, length, cells, shows):
    """What is wrong with the run where an interval satisfies that has these cells and can show this."""
    if run.end in ('contradictory', 'input missing'):
        return 'satisfies, and it is said that none does'
    if run.end == 'finished' and length != run.states - 1:
        return 'satisfies with another length'
    if length < run.states - 1 or (run.end != 'finished' and length < run.states):
        return 'satisfies and has no more states than are printed'
    unlike = disagreement(run, cells)
    if unlike:
        return f'satisfies without what is printed of {unlike[0]}'
    for entries in shows:
        if in_order(e for e in entries if e[0] < run.states) != in_order(run.shows):
            return 'shows something else'
    return None


def told(cells):
    def name(cell):
        variable, state, path = cell
        own = variable if isinstance(variable, str) else 'local ' + variable[1]
        return own + ''.join(f'[{i}]' for i in path) + ('' if state is None else f' in state {state}')
    return ', '.join(f'{name(cell)}: {shape}' for cell, shape in cells.items()) or 'any states'
