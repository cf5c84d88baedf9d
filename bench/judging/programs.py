"""Programs made by chance. Mostly they are put together so that a run finds its way; some are then changed in one place."""

import random

from changes import Changes, conjunction, number
from expressions import KIND_OF, NUMBERS, Expressions, Known, equation, name, operator
from written import source

class Maker(Expressions, Changes):
    """Formulas that set variables over intervals, and say where these end."""

    # -- what variables do ---------------------------------------------------------------------------------------

    def settle(self, variables, known, ends_known=False):
        """Conjuncts that set these variables over an interval, and which of them are known at its end, and in each state."""
        parts, ends, steady = [], set(), set(known.steady)
        for v in variables:
            kind, here, there = KIND_OF[v[0]], known.also(), Known(steady, steady, known.bound)
            if v[0].islower():
                parts.append(self.constant(v, kind, known))
                ends.add(v)
                steady.add(v)
                continue
            starts = v in known.now
            ways = ['gets', 'gets', 'stable', 'last'] if starts else ['gets', 'gets', 'stable', 'always', 'keep', 'last',
                                                                      'now', 'fin', 'next', 'item', 'input', 'rule', 'cases']
            if kind == 'list' and not starts:
                ways += ['wired'] * 4
            if ends_known:
                ways = [w for w in ways if w in ('gets', 'stable', 'always', 'last', 'rule')] or ways
            way = self.pick(*ways)
            if way in ('gets', 'stable', 'rule') and not starts:
                parts.append(self.start(v, kind, here))
            own = there.also(steady=[v])
            parts += self.way(way, v, kind, here, there, own)
            if way in ('gets', 'stable', 'always', 'rule', 'cases'):
                steady.add(v)
            if way in ('gets', 'stable', 'always', 'last', 'fin', 'rule', 'cases'):
                ends.add(v)
        return parts, ends, steady - set(known.steady)

    def constant(self, v, kind, known):
        value = equation(name(v), self.expression(kind, Known(bound=known.bound), 1))
        if self.odds(0.1):
            self.is_whole = False
            return ('fin', value)
        return value

    def start(self, v, kind, known):
        value = self.expression(kind, known, 1)
        if self.odds(0.15):
            return equation(value, name(v))
        if kind == 'truth' and self.odds(0.3):
            return self.pick(name(v), ('not', name(v)))
        return equation(name(v), value)

    def way(self, way, v, kind, here, there, own):
        place = name(v)
        if way == 'gets':
            return [('gets', place, self.expression(kind, own, 2))]
        if way == 'stable':
            return [('stable', place)]
        if way == 'always':
            return [('always', equation(place, self.expression(kind, there, 2)))]
        if way == 'keep':
            both = [('keep', equation(place, self.expression(kind, there, 1)))]
            return both + [('fin', equation(place, self.expression(kind, there, 1)))] if self.odds(0.4) else both
        if way == 'last':
            return [('last', place, self.expression(kind, here, 1))]
        if way == 'now':
            return [self.start(v, kind, here)]
        if way == 'fin':
            return [('fin', equation(place, self.expression(kind, there, 1)))]
        if way == 'next':
            ahead = ('next', place) if self.odds(0.8) else ('next', ('next', place))
            value = self.expression(kind, here, 1)
            return [equation(ahead, value) if self.odds(0.8) else equation(value, ahead)]
        if way == 'rule':
            then = equation(('next', place), self.expression(kind, own, 1))
            other = equation(('next', place), self.expression(kind, own, 1))
            return [('keep', ('if', self.truth(own, 1), then, other))]
        if way == 'cases':
            return [('always', ('if', self.truth(there, 1), equation(place, self.expression(kind, there, 1)),
                                equation(place, self.expression(kind, there, 1))))]
        if way == 'input' and self.with_inputs:
            return [self.from_inputs(place, kind)]
        if way == 'wired':
            return [self.wired(place, here, there)]
        return self.items(v, here, there)

    def from_inputs(self, place, kind):
        port = self.pick('p', 'q')
        asked = ('input', place, port)
        for state in range(9):
            if self.odds(0.93):
                self.inputs.setdefault((state, port), self.a_value(kind))
        return self.pick(('always', asked), ('keep', asked), asked)

    def a_value(self, kind):
        if kind == 'number':
            return self.chance.randint(-1, 3)
        if kind == 'truth':
            return self.pick('true', 'false')
        return tuple(self.a_value(self.pick('number', 'truth')) for _ in range(self.chance.randint(0, 2)))

    def items(self, v, here, there):
        """A list by its size and its items."""
        if KIND_OF[v[0]] != 'list':
            return [equation(name(v), self.expression(KIND_OF[v[0]], here, 1))]
        if self.odds(0.25):
            return self.each_item(name(v), here, there)
        if self.odds(0.15):
            return self.nested(name(v), here)
        size = self.chance.randint(0, 2)
        sized = self.pick(('list', name(v), number(size)), equation(('size', name(v)), number(size)),
                          equation(number(size), ('size', name(v))))
        parts = [sized] if self.odds(0.8) else []
        if self.odds(0.5):
            value = self.number(here.also(bound=['i']), 1)
            parts.append(('forall', 'i', number(size), equation(('index', name(v), name('i')), value)))
        else:
            for i in range(size):
                if self.odds(0.7):
                    parts.append(equation(('index', name(v), number(i)), self.number(here, 1)))
        if not parts:
            parts = [equation(('index', name(v), number(0)), self.small())]
        whole = conjunction(parts)
        if not self.odds(0.6):
            return parts
        chosen = self.pick(whole, ('always', whole), ('keep', whole))
        # what is read there may be known in the first state alone
        self.is_whole = self.is_whole and chosen is whole
        return [chosen]

    def each_item(self, place, here, there):
        """A list of a steady length, each item by a rule of its own."""
        first, second = ('index', place, number(0)), ('index', place, number(1))
        more = self.number(there, 1)
        item = self.pick(number(0), number(1), operator('-', number(1), number(1)))
        called = 'bump'
        self.definitions[called] = (['X', 'n'], ('gets', name('X'), operator('+', name('X'), name('n'))))
        return [('always', ('list', place, number(2))), equation(first, self.number(here, 1)),
                equation(second, self.number(here, 1)),
                self.pick(('gets', first, operator('+', first, more)), ('call', called, [('index', place, item), number(1)])),
                self.pick(('gets', second, ('if', operator('>', first, number(2)), number(0), second)), ('stable', second),
                          ('last', second, operator('+', second, first)))]

    def nested(self, place, here):
        """A list in a list, known in part."""
        inner = ('index', place, number(self.pick(0, 1)))
        parts = [self.pick(('list', inner, number(2)), equation(inner, ('items', [self.number(here, 0), number(1)])),
                           equation(('index', inner, number(1)), self.number(here, 1))),
                 self.pick(equation(('size', place), number(2)), ('list', place, number(2))),
                 equation(('index', inner, number(0)), self.number(here, 1))]
        return [p for p in parts if self.odds(0.8)] or parts

    def wired(self, place, here, there):
        """A list that is equal to another one, perhaps through a third or by a call; each item is said of one of them."""
        over = self.pick('now', 'now', 'always', 'keep')
        known = here if over == 'now' else there
        names = ['W', 'W1'][:self.pick(1, 1, 2)]
        row = [place] + [name(n) for n in names]
        size = self.pick(1, 2, 2, 3)
        said = self.pick(('list', self.pick(*row), number(size)), equation(('size', self.pick(*row)), number(size)),
                         equation(number(size), ('size', self.pick(*row))))
        parts = [said] + [self.joined(a, b) for a, b in zip(row, row[1:])]
        for i in range(size):
            if self.odds(0.08):
                self.is_whole = False
                continue
            kind = self.pick('number', 'number', 'truth', 'list')
            parts.append(equation(('index', self.pick(*row), number(i)), self.expression(kind, known, 1)))
        self.chance.shuffle(parts)
        body = ('exists', names, conjunction(parts))
        return body if over == 'now' else (over, body)

    def joined(self, one, other):
        if self.odds(0.3):
            self.definitions['joined'] = (['X', 'Y'], equation(name('X'), name('Y')))
            return ('call', 'joined', [one, other])
        return equation(one, other) if self.odds(0.5) else equation(other, one)

    def shown(self, known):
        """A display, or a test, that stands beside."""
        over = self.pick('now', 'each', 'each', 'fin')
        read = known if over == 'now' else known.each()
        if self.odds(0.75):
            kinds = [self.pick('number', 'number', 'truth', 'list') for _ in range(self.pick(1, 1, 2))]
            said = ('display', [self.expression(kind, read, 1) for kind in kinds])
        else:
            said = operator(self.pick('<', '<=', '<>', '>='), self.number(read, 1), number(self.pick(4, 5, 9)))
        if self.odds(0.15):
            said = ('if', self.truth(read, 1), said, None)
        if over == 'fin':
            return ('fin', said)
        return said if over == 'now' else (self.pick('always', 'keep'), said)

    # -- intervals with an end -----------------------------------------------------------------------------------

    def timed(self, variables, known, depth):
        """A formula that says how long its interval is and sets the variables, and which of them are known at its end."""
        ways = ['steps', 'steps', 'assign', 'halt', 'nothing']
        if depth > 0:
            ways = ['steps', 'chop', 'chop', 'while', 'for', 'repeat', 'proj', 'if', 'exists', 'call', 'recursion', 'beside',
                    'side', 'split', 'ahead']
        return getattr(self, 'timed_' + self.pick(*ways))(list(variables), known, depth)

    def timed_steps(self, variables, known, depth):
        parts, ends, steady = self.settle(variables, known)
        length = self.chance.randint(0, 3)
        end = ('len', number(length))
        if length == 1 and self.odds(0.6):
            end = ('skip',)
        elif self.odds(0.15):
            end = ('empty',)
            for _ in range(length):
                end = ('next', end)
        elif self.odds(0.15):
            end = ('len', self.number(known, 1))
        now = known.also(steady=steady)
        if self.odds(0.4):
            parts.append(self.shown(now))
        parts.append(end)
        return self.mixed(parts), ends

    def timed_nothing(self, variables, known, depth):
        fresh = [v for v in variables if v not in known.now and self.odds(0.7)]
        parts = [self.start(v, KIND_OF[v[0]], known) for v in fresh]
        return self.mixed(parts + [('empty',)]), set(fresh) | (known.now & set(variables))

    def timed_assign(self, variables, known, depth):
        parts, ends = [], set()
        for v in variables:
            kind = KIND_OF[v[0]]
            if v[0].islower():
                parts.append(self.constant(v, kind, known))
            elif v in known.now or self.odds(0.6):
                parts.append(('assign', name(v), self.expression(kind, known, 2)))
                ends.add(v)
        if self.odds(0.3):
            parts.append(self.shown(Known(known.now & known.steady, known.steady, known.bound)))
        return (self.mixed(parts), ends) if ends else (self.mixed(parts + [('skip',)]), ends)

    def timed_halt(self, variables, known, depth):
        counters = [v for v in variables if KIND_OF[v[0]] == 'number' and v[0].isupper()]
        if not counters:
            return self.timed_steps(variables, known, depth)
        counter = counters[0]
        parts, ends, steady = self.settle([v for v in variables if v != counter], known)
        if counter not in known.now:
            parts.append(equation(name(counter), self.small(2)))
        parts.append(('gets', name(counter), operator('+', name(counter), number(self.pick(1, 1, 2)))))
        parts.append(('halt', operator(self.pick('>', '>=', '>', '='), name(counter), number(self.pick(2, 3, 4)))))
        if self.odds(0.3):
            parts.append(self.shown(known.also(steady=steady | {counter})))
        return self.mixed(parts), ends | {counter}

    def timed_chop(self, variables, known, depth):
        first, ends = self.timed(variables, known, depth - 1)
        # what the first part sets is known where the second begins, and is no more what it was
        now = (known.now & known.steady) | ends
        rest = variables if self.odds(0.8) else self.some(variables)
        second, last = self.timed(rest, Known(now, known.steady, known.bound), depth - 1)
        return ('chop', first, second), last

    def some(self, variables):
        return [v for v in variables if self.odds(0.6)]

    def timed_while(self, variables, known, depth):
        counter = self.counter(variables)
        others = [v for v in variables if v != counter]
        carried = [v for v in others if v in known.now and v[0].isupper()]
        start = [] if counter in known.now else [equation(name(counter), self.small(3))]
        step = operator('-', name(counter), number(1))
        # what a turn doesn't say is known where the first one begins, and no more where the next one does
        if self.odds(0.6):
            inside = Known(known.steady | {counter} | set(carried), known.steady, known.bound)
            turn = [('assign', name(counter), step)]
            turn += [('assign', name(v), self.expression(KIND_OF[v[0]], inside, 1)) for v in carried]
        else:
            body, _ = self.timed_steps(self.some(others), Known(known.steady | {counter}, known.steady, known.bound), 0)
            turn = [body, ('last', name(counter), step)]
        if self.odds(0.25):
            turn.append(self.shown(Known(set(known.steady) | {counter}, known.steady, known.bound)))
        if self.odds(0.06):
            turn = [('len', self.small(1)), ('keep', self.start(counter, 'number', known))]
            self.is_whole = False
        condition = self.pick(operator('>', name(counter), number(0)), ('not', operator('<=', name(counter), number(0))),
                              operator('<>', name(counter), number(0)))
        loop = ('while', condition, self.mixed(turn))
        return self.mixed(start + [loop]), {counter}

    def counter(self, variables):
        counters = [v for v in variables if v in NUMBERS]
        if counters and self.odds(0.8):
            return self.pick(*counters)
        self.fresh += 1
        return f'N{self.fresh}'

    def timed_repeat(self, variables, known, depth):
        counter = self.counter(variables)
        start = [] if counter in known.now else [equation(name(counter), self.small(2))]
        turn = [('assign', name(counter), operator('+', name(counter), number(1)))]
        others = [v for v in variables if v != counter and v in known.now and v[0].isupper()]
        others = others if self.odds(0.4) else []
        inside = Known(known.steady | {counter} | set(others), known.steady, known.bound)
        turn += [('assign', name(v), self.expression(KIND_OF[v[0]], inside, 1)) for v in others]
        until = operator(self.pick('>', '>='), name(counter), number(self.pick(1, 2, 3)))
        return self.mixed(start + [('repeat', self.mixed(turn), until)]), {counter}

    def timed_for(self, variables, known, depth):
        bound = self.pick('i', 'j')
        inside = known.also(bound=[bound])
        setting = [v for v in variables if v[0].isupper()]
        start, carried = [], set()
        for v in setting:
            if v in known.now or self.odds(0.6):
                if v not in known.now:
                    start.append(self.start(v, KIND_OF[v[0]], known))
                carried.add(v)
        within = Known((known.now & known.steady) | carried, known.steady, inside.bound)
        if self.odds(0.6) and carried:
            turn = [('assign', name(v), self.expression(KIND_OF[v[0]], within, 1)) for v in sorted(carried)]
            ends = carried
        else:
            fresh = [v for v in setting if v not in carried]
            turn, ends = [self.pick(('skip',), ('len', self.small(2)))], set()
            turn += [('keep', equation(name(v), self.expression(KIND_OF[v[0]], within.each(), 1))) for v in fresh]
            turn += [('stable', name(v)) for v in sorted(carried)]
        if self.odds(0.3):
            turn.append(self.shown(within.each()))
        count = self.pick(number(2), number(1), number(3), number(0), self.number(known, 1))
        return self.mixed(start + [('for', bound, count, self.mixed(turn))]), set(ends)

    def timed_proj(self, variables, known, depth):
        steady = Known(known.steady, known.steady, known.bound)
        cutting = self.some(variables)
        parts, _, inner = self.settle(cutting, known.also())
        if self.odds(0.3):
            parts.append(self.shown(Known(known.steady | inner, known.steady | inner, known.bound)))
        right = self.mixed(parts + [('len', self.small(3))])
        if depth > 1 and self.odds(0.3):
            right, _ = self.timed(cutting, known, depth - 1)
        piece = [self.pick(('skip',), ('len', number(2)), ('len', number(1)), ('len', number(2)),
                           ('len', self.number(steady, 1)))]
        for v in variables:
            if v not in cutting and v[0].isupper() and v not in known.now:
                piece.append(('keep', equation(name(v), self.expression(KIND_OF[v[0]], steady, 1))))
            elif v in cutting and v[0].isupper() and self.odds(0.1):
                piece.append(('keep', ('stable', name(v))))
                self.is_whole = False
        if self.odds(0.3):
            piece.append(self.shown(steady))
        return ('proj', self.mixed(piece), right), set()

    def timed_if(self, variables, known, depth):
        then, one = self.timed(variables, known, depth - 1)
        other, two = self.timed(variables, known, depth - 1)
        return ('if', self.truth(known, 1), then, other), one & two

    def timed_exists(self, variables, known, depth):
        local = self.pick('D', 'R', 'A', 'n', 'm')
        inside = known.also()
        inside.now.discard(local)
        inside.steady.discard(local)
        kind = KIND_OF[local[0]]
        start = self.start(local, kind, inside)
        within = inside.also(now=[local]) if local[0].isupper() else inside.also(steady=[local])
        parts = [start]
        if local[0].isupper() and self.odds(0.7):
            within = inside.also(steady=[local])
            parts.append(self.pick(('stable', name(local)), ('gets', name(local), self.expression(kind, within.each(), 1))))
        body, ends = self.timed([v for v in variables if v != local], within, depth - 1)
        names = [local]
        if self.odds(0.1):
            names.append('R1' if self.odds(0.5) else 'm1')
        return ('exists', names, self.mixed(parts + [body])), ends - {local}

    def timed_call(self, variables, known, depth):
        targets = [v for v in variables if v[0].isupper()]
        if not targets:
            return self.timed_steps(variables, known, depth)
        self.fresh += 1
        called, target = f'f{self.fresh}', self.pick(*targets)
        kind = KIND_OF[target[0]]
        parameter = {'number': 'A', 'truth': 'P', 'list': 'L'}[kind]
        inside = Known([parameter, 'n'] if target in known.now else ['n'], ['n'])
        body, ends = self.timed([parameter], inside, depth - 1)
        parameters, operands = [parameter, 'n'], [name(target), self.number(known, 1)]
        self.definitions[called] = (parameters, body)
        return ('call', called, operands), ({target} if parameter in ends else set())

    def timed_recursion(self, variables, known, depth):
        counter = self.counter(variables)
        self.fresh += 1
        called = f'g{self.fresh}'
        way = self.pick('next', 'chop', 'value')
        if way == 'value':
            body = ('if', operator('<=', name('k'), number(0)), ('empty',),
                    ('chop', self.mixed([('assign', name('A'), operator('+', name('A'), name('k')))]),
                     ('call', called, [name('A'), operator('-', name('k'), number(1))])))
            self.definitions[called] = (['A', 'k'], body)
            call = ('call', called, [name(counter), self.small(3)])
        else:
            less = operator('-', name('A'), number(1))
            if way == 'next':
                on = ('conjunction', [equation(('next', name('A')), less), ('next', ('call', called, [name('A')]))])
            else:
                on = ('chop', ('assign', name('A'), less), ('call', called, [name('A')]))
            self.definitions[called] = (['A'], ('if', operator('<=', name('A'), number(0)), ('empty',), on))
            call = ('call', called, [name(counter)])
        start = [] if counter in known.now else [equation(name(counter), self.small(3))]
        return self.mixed(start + [call]), {counter}

    def timed_beside(self, variables, known, depth):
        """A shorter part beside a longer one."""
        half = self.some(variables)
        rest = [v for v in variables if v not in half]
        short, ends = self.timed(half, known, depth - 1)
        steady = [v for v in sorted(ends) if v[0].isupper() and v in half]
        after = conjunction([('stable', name(v)) for v in steady]) if steady and self.odds(0.7) else ('true',)
        long, more = self.timed(rest, known, depth - 1)
        return self.mixed([('chop', short, after), long]), more

    def timed_side(self, variables, known, depth):
        """A row of pieces as long as the rest, or what each so many states are seen to be."""
        parts, ends, steady = self.settle(variables, known)
        length = self.pick(2, 3, 4)
        inner = Known(known.steady | steady, known.steady | steady, known.bound)
        piece = conjunction([('len', number(self.pick(1, 2)))] + ([self.shown(inner)] if self.odds(0.6) else []))
        right = ('true',) if self.odds(0.5) else ('always', ('display', [self.number(inner, 1)]))
        return self.mixed(parts + [('len', number(length)), ('proj', piece, right)]), ends

    def timed_split(self, variables, known, depth):
        """Two conjuncts, of which one alone says how long."""
        half = self.some(variables)
        rest = [v for v in variables if v not in half]
        parts, ends, steady = self.settle(half, known)
        body, more = self.timed(rest, known.also(steady=steady), depth - 1)
        return self.mixed(parts + [body]), ends | more

    def timed_ahead(self, variables, known, depth):
        """Something of this state, and the rest from the next one on."""
        first = [self.start(v, KIND_OF[v[0]], known) for v in variables if v not in known.now and v[0].isupper()]
        body, ends = self.timed(variables, known.each(), depth - 1)
        return self.mixed(first + [('next', body)]), ends

    def mixed(self, parts):
        if self.odds(0.3):
            self.chance.shuffle(parts)
        return conjunction(parts)

    # -- a whole program -----------------------------------------------------------------------------------------

    def program(self):
        names = self.chance.sample(list('ABCPLQn') + (['t'] if self.odds(0.2) else []), self.pick(1, 2, 2, 3, 3))
        statics = [v for v in names if v[0].islower()]
        parts = [self.constant(v, KIND_OF[v[0]], Known()) for v in statics]
        known = Known(statics, statics)
        body, _ = self.timed([v for v in names if v not in statics], known, self.pick(1, 2, 2, 3))
        formula = self.mixed(parts + [body])
        changes = self.pick(0, 0, 0, 1, 1, 2)
        if self.odds(0.1):
            formula, changes = conjunction([formula, self.loose(known, 2)]), changes + 1
        self.is_whole = self.is_whole and changes == 0
        for _ in range(changes):
            formula = self.changed(formula)
        return formula

    def loose_anywhere(self):
        return self.loose(Known(), 1)

    def loose(self, known, depth):
        """A phrase of any kind, over any names."""
        wild = Known('ABP', 'ABP', known.bound)
        if depth <= 0:
            return self.pick(('empty',), ('skip',), ('more',), ('true',), self.start('A', 'number', wild),
                             self.start('P', 'truth', wild), ('stable', name('B')), ('len', self.small(2)))
        w, v = self.loose(known, depth - 1), self.loose(known, depth - 1)
        bound = self.pick('i', 'j')
        return self.pick(('chop', w, v), ('proj', w, v), ('conjunction', [w, v]), ('always', w), ('keep', w), ('fin', w),
                         ('next', w), ('if', self.truth(wild, 1), w, v), ('while', self.truth(wild, 1), w),
                         ('for', bound, self.small(2), w), ('forall', bound, self.small(2), w), ('exists', ['A'], w),
                         ('repeat', w, self.truth(wild, 1)), ('halt', self.truth(wild, 1)))


class Program:
    """A program by its number: its phrases, its text and its table of inputs."""

    def __init__(self, seed, index, with_inputs=True):
        chance = random.Random(f'{seed}:{index}')
        maker = Maker(chance, with_inputs)
        self.formula = maker.program()
        self.definitions, self.inputs, self.is_whole = maker.definitions, maker.inputs, maker.is_whole
        self.text = source(self.definitions, self.formula, chance)
        self.chance = chance
