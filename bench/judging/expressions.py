"""Expressions made by chance, over the names that are known where they are read."""

from changes import number

NUMBERS, TRUTHS, LISTS = 'ABCDN', 'PQR', 'LM'
KIND_OF = {**{v: 'number' for v in NUMBERS + 'n' + 'm'}, **{v: 'truth' for v in TRUTHS + 'b'},
           **{v: 'list' for v in LISTS + 't'}}


def name(n):
    return ('name', n)


def operator(o, a, b):
    return ('operator', o, a, b)


def equation(a, b):
    return operator('=', a, b)


class Known:
    """What can be read: names that are known in the first state, those known in each state, and bound numbers."""

    def __init__(self, now=(), steady=(), bound=()):
        self.now, self.steady, self.bound = set(now), set(steady), set(bound)

    def each(self):
        return Known(self.steady, self.steady, self.bound)

    def also(self, now=(), steady=(), bound=()):
        return Known(self.now | set(now) | set(steady), self.steady | set(steady), self.bound | set(bound))


class Expressions:
    """Expressions of each kind, and the functions that they call."""

    def __init__(self, chance, with_inputs=True):
        self.chance, self.with_inputs = chance, with_inputs
        self.definitions, self.inputs, self.fresh, self.is_whole = {}, {}, 0, True

    def pick(self, *choices):
        return self.chance.choice(choices)

    def odds(self, share):
        return self.chance.random() < share

    def small(self, most=3):
        return number(self.chance.randint(0, most))

    def of_kind(self, kind, known):
        names = sorted(v for v in known.now if KIND_OF.get(v[0]) == kind)
        if kind == 'number':
            names += sorted(known.bound)
        return names

    def expression(self, kind, known, depth=2):
        return getattr(self, kind)(known, depth)

    def number(self, known, depth):
        names = self.of_kind('number', known)
        if depth <= 0 or self.odds(0.4):
            return name(self.pick(*names)) if names and self.odds(0.75) else self.small()
        chosen = self.chance.random()
        if chosen < 0.5:
            o = self.pick('+', '+', '-', '*')
            return operator(o, self.number(known, depth - 1), self.number(known, depth - 1))
        if chosen < 0.62:
            return operator(self.pick('mod', 'div'), self.number(known, depth - 1), number(self.pick(2, 3, 2, -2)))
        if chosen < 0.76:
            return ('if', self.truth(known, depth - 1), self.number(known, depth - 1), self.number(known, depth - 1))
        if chosen < 0.82:
            return ('negative', self.number(known, depth - 1))
        if chosen < 0.9 and self.of_kind('list', known):
            of = name(self.pick(*self.of_kind('list', known)))
            return ('size', of) if self.odds(0.7) else ('index', of, self.small(1))
        if chosen < 0.97:
            return self.function(known, depth)
        return self.small()

    def truth(self, known, depth):
        names = self.of_kind('truth', known)
        if names and (depth <= 0 or self.odds(0.3)):
            return name(self.pick(*names))
        if depth <= 0:
            return (self.pick('true', 'false'),)
        chosen = self.chance.random()
        if chosen < 0.6:
            o = self.pick('<', '<=', '>', '>=', '=', '<>')
            return operator(o, self.number(known, depth - 1), self.number(known, depth - 1))
        if chosen < 0.85:
            return operator(self.pick('and', 'or'), self.truth(known, depth - 1), self.truth(known, depth - 1))
        if chosen < 0.95:
            return ('not', self.truth(known, depth - 1))
        return (self.pick('true', 'false'),)

    def list(self, known, depth):
        names = self.of_kind('list', known)
        if names and (depth <= 0 or self.odds(0.5)):
            return name(self.pick(*names))
        if names and depth > 0 and self.odds(0.2):
            return operator('+', name(self.pick(*names)), ('items', [self.number(known, depth - 1)]))
        kinds = [self.pick('number', 'number', 'truth') for _ in range(self.chance.randint(0, 2))]
        return ('items', [self.expression(kind, known, depth - 1) for kind in kinds])

    def function(self, known, depth):
        chosen = self.pick('larger', 'sum', 'first', 'red')
        a, b = self.number(known, 0), self.number(known, 0)
        if chosen == 'larger':
            body = ('if', operator('>', name('a'), name('b')), name('a'), name('b'))
            self.definitions['larger'] = (['a', 'b'], body)
            return ('call', 'larger', [a, b])
        if chosen == 'sum':
            again = ('call', 'sum', [operator('-', name('k'), number(1))])
            self.definitions['sum'] = (['k'], ('if', operator('<=', name('k'), number(0)), number(0),
                                               operator('+', name('k'), again)))
            return ('call', 'sum', [self.small()])
        if chosen == 'first' and self.of_kind('list', known):
            self.definitions['first'] = (['X', 'd'], ('if', operator('>', ('size', name('X')), number(0)),
                                                      ('index', name('X'), number(0)), name('d')))
            return ('call', 'first', [name(self.pick(*self.of_kind('list', known))), a])
        self.definitions['red'] = ([], number(2))
        return ('call', 'red', [])
