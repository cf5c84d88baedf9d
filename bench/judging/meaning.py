"""What a program says of an interval, as docs/LANGUAGE.md tells it, and which intervals satisfy it.

An interval is a tuple of the numbers of its states. What a variable is in a state is kept in cells: a cell is a variable, a
state (None for a static variable) and a path of indices, and holds a shape: a number, 'true', 'false', or ('list', n). A
cell without a shape is free. Meaning is asked of cells that are known in part: where a cell is read that has no shape yet,
`Need` names it, and the search gives it each shape in turn. So an interval that is found stands for all that differ from it
in cells without a shape, and none is left out whose shapes are tried.
"""

from needs import EMPTY, SHOWS_NOTHING, Need, all_of, all_of_apart, any_of, merged, rising, woven


class OutOfWork(Exception):
    """One look at one interval has taken more than is allowed for."""


def is_static(variable):
    return (variable if isinstance(variable, str) else variable[1])[0].islower()


def is_number(value):
    return isinstance(value, int)


def as_operators(parts):
    """A chain of `and` between expressions, as operators that group to the left."""
    left = parts[0]
    for right in parts[1:]:
        left = ('operator', 'and', left, right)
    return left


def shape_of(value):
    return ('list', len(value)) if isinstance(value, tuple) else value


def truth(condition):
    return 'true' if condition else 'false'


def spelled(value):
    return '<' + ','.join(spelled(item) for item in value) + '>' if isinstance(value, tuple) else str(value)


def computed(name, a, b):
    """What an operator gives of two values; None where it has no value."""
    if name == '+' and isinstance(a, tuple) and isinstance(b, tuple):
        return a + b
    if not is_number(a) or not is_number(b):
        return None
    if name == '+':
        return a + b
    if name == '-':
        return a - b
    if name == '*':
        return a * b
    if name == 'div':
        return a // b if b else None
    if name == 'mod':
        return a % b if b else None
    if name == '<':
        return truth(a < b)
    if name == '<=':
        return truth(a <= b)
    if name == '>':
        return truth(a > b)
    assert name == '>=', name
    return truth(a >= b)


class World:
    """A program with its inputs, and the cells at hand."""

    CALLS, WORK = 40, 30000

    def __init__(self, formula, definitions, inputs, forcing=True):
        self.formula, self.definitions, self.inputs, self.forcing = formula, definitions, inputs, forcing
        self.cells, self.work, self.cut_short = {}, 0, False

    def shows(self, length):
        """The set of what the program can show on the interval of this length; empty where it doesn't hold."""
        self.work = 0
        return self.holds(self.formula, tuple(range(length + 1)), {}, (), 0)

    # -- places and expressions ------------------------------------------------------------------------------------

    def shape(self, variable, state, path, hints=()):
        cell = (variable, None if is_static(variable) else state, path)
        found = self.cells.get(cell)
        if found is None:
            raise Need(cell, hints)
        return found

    def place(self, phrase, state, env, calls):
        """The variable and the path of a place; None where an index has no value; False where it is no place."""
        if phrase[0] == 'name':
            bound = env.get(phrase[1])
            if bound is None:
                return phrase[1], ()
            return bound[1:] if bound[0] == 'place' else False
        if phrase[0] != 'index':
            return False
        under = self.place(phrase[1], state, env, calls)
        if not under:
            return under
        index = self.value(phrase[2], state, env, calls)
        if not is_number(index) or index < 0:
            return None
        return under[0], under[1] + (index,)

    def reach(self, variable, state, path):
        """Whether the lists on the way to a place have its items."""
        for depth, index in enumerate(path):
            shape = self.shape(variable, state, path[:depth], (('list', index + 1), ('list', index + 2)))
            if not isinstance(shape, tuple) or index >= shape[1]:
                return False
        return True

    def whole(self, variable, state, path):
        self.work += 1
        if self.work > self.WORK:
            raise OutOfWork
        shape = self.shape(variable, state, path)
        if isinstance(shape, tuple):
            return tuple(self.whole(variable, state, path + (i,)) for i in range(shape[1]))
        return shape

    def read(self, place, state):
        return self.whole(place[0], state, place[1]) if self.reach(place[0], state, place[1]) else None

    def value(self, phrase, state, env, calls):
        """The value of an expression in a state; None where it has none."""
        self.work += 1
        if self.work > self.WORK:
            raise OutOfWork
        kind = phrase[0]
        if kind == 'number':
            return phrase[1]
        if kind in ('true', 'false'):
            return kind
        if kind == 'name' or kind == 'index':
            return self.item(phrase, state, env, calls)
        if kind == 'operator':
            return self.operation(phrase, state, env, calls)
        if kind == 'conjunction':
            return self.operation(as_operators(phrase[1]), state, env, calls)
        if kind == 'size':
            return self.size(phrase[1], state, env, calls)
        if kind == 'negative':
            under = self.value(phrase[1], state, env, calls)
            return -under if is_number(under) else None
        if kind == 'not':
            under = self.value(phrase[1], state, env, calls)
            return {'true': 'false', 'false': 'true'}.get(under) if isinstance(under, str) else None
        if kind == 'if':
            chosen = self.value(phrase[1], state, env, calls)
            if chosen == 'true':
                return self.value(phrase[2], state, env, calls)
            return self.value(phrase[3], state, env, calls) if chosen == 'false' else None
        if kind == 'items':
            found = tuple(self.value(item, state, env, calls) for item in phrase[1])
            return None if None in found else found
        assert kind == 'call', kind
        body, bindings = self.called(phrase, state, env, calls)
        return None if bindings is None else self.value(body, state, bindings, calls + 1)

    def item(self, phrase, state, env, calls):
        place = self.place(phrase, state, env, calls)
        if place:
            return self.read(place, state)
        if place is None:
            return None
        if phrase[0] == 'name':
            return env[phrase[1]][1]
        under = self.value(phrase[1], state, env, calls)
        index = self.value(phrase[2], state, env, calls)
        if isinstance(under, tuple) and is_number(index) and 0 <= index < len(under):
            return under[index]
        return None

    def size(self, phrase, state, env, calls):
        place = self.place(phrase, state, env, calls)
        if place is None:
            return None
        if place:
            shape = self.shape(place[0], state, place[1]) if self.reach(place[0], state, place[1]) else None
            return shape[1] if isinstance(shape, tuple) else None
        found = self.value(phrase, state, env, calls)
        return len(found) if isinstance(found, tuple) else None

    def operation(self, phrase, state, env, calls):
        _, name, left, right = phrase
        if name == '=' or name == '<>':
            same = self.same(left, state, right, state, env, calls, False)
            return None if same is None else truth(same == (name == '='))
        if name == 'and' or name == 'or':
            first = self.value(left, state, env, calls)
            if first == truth(name == 'or'):
                return first
            second = self.value(right, state, env, calls) if first in ('true', 'false') else None
            return second if second in ('true', 'false') else None
        try:
            a = self.value(left, state, env, calls)
        except Need as need:
            b = self.value(right, state, env, calls)
            if is_number(b):
                raise Need(need.cell, tuple(need.hints) + (b - 1, b, b + 1))
            raise
        try:
            b = self.value(right, state, env, calls)
        except Need as need:
            if is_number(a):
                raise Need(need.cell, tuple(need.hints) + (a - 1, a, a + 1))
            raise
        return computed(name, a, b)

    def same(self, left, left_state, right, right_state, env, calls, has_to):
        """Whether both sides have one value; None where one has none. `has_to`: nothing holds where they differ."""
        sides = ((left, left_state), (right, right_state))
        places = [self.placed(*side, env, calls) for side in sides]
        if all(places):
            return self.alike(*places, has_to)
        values, needs = [None, None], [None, None]
        for side in (0, 1):
            try:
                values[side] = self.value(*sides[side], env, calls)
                if values[side] is None:
                    return None
            except Need as need:
                needs[side] = need
        if needs[0] is None and needs[1] is None:
            return values[0] == values[1]
        if needs[0] is not None and needs[1] is not None:
            raise merged(needs)
        open_side = 0 if needs[0] is not None else 1
        phrase, state = sides[open_side]
        return self.fits(phrase, state, values[1 - open_side], env, calls, has_to, needs[open_side])

    def placed(self, phrase, state, env, calls):
        """The variable, state and path of a place; None where it is none, isn't there, or what tells so isn't known yet."""
        try:
            place = self.place(phrase, state, env, calls)
            return (place[0], state, place[1]) if place and self.reach(place[0], state, place[1]) else None
        except Need:
            return None

    def alike(self, one, other, has_to):
        """Whether two places have one value: one shape and, of lists, items that are alike."""
        self.work += 1
        if self.work > self.WORK:
            raise OutOfWork
        shapes, needs = [], []
        for variable, state, path in (one, other):
            try:
                shapes.append(self.shape(variable, state, path))
            except Need as need:
                needs.append(need)
        if len(needs) == 2:
            raise merged(needs)
        if needs and not self.has_shape(*min((one, other), key=lambda it: self.shaped(*it)), shapes[0], has_to):
            return False
        if shapes[0] != shapes[-1]:
            return False
        return not isinstance(shapes[0], tuple) or self.items_alike(one, other, shapes[0][1], has_to)

    def shaped(self, variable, state, path):
        return (variable, None if is_static(variable) else state, path) in self.cells

    def items_alike(self, one, other, length, has_to):
        """As above, of so many items: one that differs decides, and of those that are open one with a single shape."""
        needs = []
        for i in range(length):
            try:
                if not self.alike((*one[:2], one[2] + (i,)), (*other[:2], other[2] + (i,)), has_to):
                    return False
            except Need as need:
                needs.append(need)
        if needs:
            raise merged(needs)
        return True

    def fits(self, phrase, state, value, env, calls, has_to, need):
        """Whether an open side has this value: a place, the size of one, or something else, which is asked for."""
        sized = phrase[0] == 'size'
        try:
            place = self.place(phrase[1] if sized else phrase, state, env, calls)
            if not place or not self.reach(place[0], state, place[1]):
                raise need
        except Need:
            raise need
        if not sized:
            return self.has_value(place[0], state, place[1], value, has_to)
        if not is_number(value) or value < 0:
            return False if has_to else None
        return self.has_shape(place[0], state, place[1], ('list', value), has_to)

    def has_shape(self, variable, state, path, shape, has_to):
        try:
            return self.shape(variable, state, path) == shape
        except Need as need:
            if has_to and self.forcing:
                raise Need(need.cell, (), shape)
            raise Need(need.cell, tuple(need.hints) + (shape,))

    def has_value(self, variable, state, path, value, has_to):
        if not self.has_shape(variable, state, path, shape_of(value), has_to):
            return False
        if isinstance(value, tuple):
            return all(self.has_value(variable, state, path + (i,), value[i], has_to) for i in range(len(value)))
        return True

    def called(self, phrase, state, env, calls):
        """The body of a call and what its parameters stand for; None for these where an operand has no value."""
        parameters, body = self.definitions[phrase[1]]
        if calls >= self.CALLS:
            self.cut_short = True
            return body, None
        bindings = {}
        for name, operand in zip(parameters, phrase[2]):
            if name[0].isupper():
                place = self.place(operand, state, env, calls)
                if not place:
                    return body, None
                bindings[name] = ('place',) + place
            else:
                value = self.value(operand, state, env, calls)
                if value is None:
                    return body, None
                bindings[name] = ('value', value)
        return body, bindings

    # -- formulas --------------------------------------------------------------------------------------------------

    def equal(self, left, left_state, right, right_state, env, calls):
        return SHOWS_NOTHING if self.same(left, left_state, right, right_state, env, calls, True) else EMPTY

    def holds(self, phrase, states, env, where, calls):
        """What the formula can show on this interval, as a set; `where` tells the locals of two phrases apart."""
        self.work += 1
        if self.work > self.WORK:
            raise OutOfWork
        rule = getattr(self, 'holds_' + phrase[0], None)
        if rule is not None:
            return rule(phrase, states, env, where, calls)
        return SHOWS_NOTHING if self.value(phrase, states[0], env, calls) == 'true' else EMPTY

    def holds_operator(self, phrase, states, env, where, calls):
        _, name, left, right = phrase
        if name != '=':
            return SHOWS_NOTHING if self.operation(phrase, states[0], env, calls) == 'true' else EMPTY
        left_at = right_at = 0
        while left[0] == 'next':
            left, left_at = left[1], left_at + 1
        while right[0] == 'next':
            right, right_at = right[1], right_at + 1
        if max(left_at, right_at) >= len(states):
            return EMPTY
        return self.equal(left, states[left_at], right, states[right_at], env, calls)

    def holds_conjunction(self, phrase, states, env, where, calls):
        return all_of([lambda w=w, i=i: self.holds(w, states, env, (where, i), calls) for i, w in enumerate(phrase[1])])

    def holds_empty(self, phrase, states, env, where, calls):
        return SHOWS_NOTHING if len(states) == 1 else EMPTY

    def holds_more(self, phrase, states, env, where, calls):
        return SHOWS_NOTHING if len(states) > 1 else EMPTY

    def holds_skip(self, phrase, states, env, where, calls):
        return SHOWS_NOTHING if len(states) == 2 else EMPTY

    def holds_next(self, phrase, states, env, where, calls):
        return self.holds(phrase[1], states[1:], env, where, calls) if len(states) > 1 else EMPTY

    def on_suffixes(self, formula, states, firsts, env, where, calls):
        return all_of([lambda i=i: self.holds(formula, states[i:], env, (where, i), calls) for i in firsts])

    def holds_always(self, phrase, states, env, where, calls):
        return self.on_suffixes(phrase[1], states, range(len(states)), env, where, calls)

    def holds_keep(self, phrase, states, env, where, calls):
        return self.on_suffixes(phrase[1], states, range(len(states) - 1), env, where, calls)

    def holds_fin(self, phrase, states, env, where, calls):
        return self.on_suffixes(phrase[1], states, [len(states) - 1], env, where, calls)

    def holds_halt(self, phrase, states, env, where, calls):
        def is_end(i):
            wanted = truth(i == len(states) - 1)
            return SHOWS_NOTHING if self.value(phrase[1], states[i], env, calls) == wanted else EMPTY
        return all_of([lambda i=i: is_end(i) for i in range(len(states))])

    def step_by_step(self, place, right, states, env, calls):
        return all_of([lambda i=i: self.equal(place, states[i + 1], right, states[i], env, calls)
                       for i in range(len(states) - 1)])

    def holds_stable(self, phrase, states, env, where, calls):
        return self.step_by_step(phrase[1], phrase[1], states, env, calls)

    def holds_gets(self, phrase, states, env, where, calls):
        return self.step_by_step(phrase[1], phrase[2], states, env, calls)

    def holds_assign(self, phrase, states, env, where, calls):
        return self.step_by_step(phrase[1], phrase[2], states, env, calls) if len(states) == 2 else EMPTY

    def holds_last(self, phrase, states, env, where, calls):
        return self.equal(phrase[1], states[-1], phrase[2], states[0], env, calls)

    def holds_len(self, phrase, states, env, where, calls):
        return SHOWS_NOTHING if self.value(phrase[1], states[0], env, calls) == len(states) - 1 else EMPTY

    def holds_list(self, phrase, states, env, where, calls):
        return self.equal(('size', phrase[1]), states[0], phrase[2], states[0], env, calls)

    def holds_display(self, phrase, states, env, where, calls):
        values = [self.value(operand, states[0], env, calls) for operand in phrase[1]]
        if None in values:
            return EMPTY
        return frozenset([((states[0], ' '.join(spelled(value) for value in values)),)])

    def holds_input(self, phrase, states, env, where, calls):
        value = self.inputs.get((states[0], phrase[2]))
        place = self.place(phrase[1], states[0], env, calls)
        if value is None or not place or not self.reach(place[0], states[0], place[1]):
            return EMPTY
        return SHOWS_NOTHING if self.has_value(place[0], states[0], place[1], value, True) else EMPTY

    def holds_chop(self, phrase, states, env, where, calls):
        def cut_at(k):
            return all_of([lambda: self.holds(phrase[1], states[:k + 1], env, (where, 0), calls),
                           lambda: self.holds(phrase[2], states[k:], env, (where, 1), calls)])
        return any_of([lambda k=k: cut_at(k) for k in range(len(states))])

    def turns(self, turn, is_done, states, shortest):
        """A row of turns from the first state to the last. `is_done(t, i)`: whether no turn follows the first t, which end in
        position i, and None where there is no such row; `turn(t, i, k)`: turn t from position i to position k."""
        kept, last = {}, len(states) - 1

        def rest(t, i):
            if (t, i) not in kept:
                try:
                    kept[t, i] = found(t, i)
                except Need as need:
                    kept[t, i] = need
            if isinstance(kept[t, i], Need):
                raise kept[t, i]
            return kept[t, i]

        def found(t, i):
            done = is_done(t, i)
            if done is None:
                return EMPTY
            if done:
                return SHOWS_NOTHING if i == last else EMPTY
            return any_of([lambda k=k: all_of([lambda: turn(t, i, k), lambda: rest(t + 1, k)])
                           for k in range(i + shortest, last + 1)])
        return rest(0, 0)

    def holds_while(self, phrase, states, env, where, calls):
        def is_done(t, i):
            value = self.value(phrase[1], states[i], env, calls)
            return value == 'false' if value in ('true', 'false') else None

        def turn(t, i, k):
            return self.holds(phrase[2], states[i:k + 1], env, (where, t), calls)
        return self.turns(turn, is_done, states, 1)

    def holds_repeat(self, phrase, states, env, where, calls):
        loop = ('while', ('not', phrase[2]), phrase[1])
        return self.holds_chop(('chop', phrase[1], loop), states, env, where, calls)

    def holds_for(self, phrase, states, env, where, calls):
        count = self.value(phrase[2], states[0], env, calls)
        if not is_number(count):
            return EMPTY

        def turn(t, i, k):
            inside = {**env, phrase[1]: ('value', t)}
            return self.holds(phrase[3], states[i:k + 1], inside, (where, t), calls)
        return self.turns(turn, lambda t, i: t >= count, states, 0)

    def holds_forall(self, phrase, states, env, where, calls):
        count = self.value(phrase[2], states[0], env, calls)
        if not is_number(count):
            return EMPTY
        return all_of([lambda i=i: self.holds(phrase[3], states, {**env, phrase[1]: ('value', i)}, (where, i), calls)
                       for i in range(count)])

    def holds_proj(self, phrase, states, env, where, calls):
        last, kept = len(states) - 1, {}

        def piece(i, k):
            if (i, k) not in kept:
                try:
                    kept[i, k] = self.holds(phrase[1], states[i:k + 1], env, (where, 0), calls)
                except Need as need:
                    kept[i, k] = need
            if isinstance(kept[i, k], Need):
                raise kept[i, k]
            return kept[i, k]

        def by_cuts(cuts):
            pieces = all_of_apart([lambda i=i, k=k: piece(i, k) for i, k in zip(cuts, cuts[1:])]
                                  + [lambda: self.holds(phrase[2], tuple(states[c] for c in cuts), env, (where, 1), calls)])
            return frozenset(woven(shows, [states[c] for c in cuts]) for shows in pieces)
        return any_of([lambda cuts=cuts: by_cuts(cuts) for cuts in rising(last)])

    def holds_if(self, phrase, states, env, where, calls):
        chosen = self.value(phrase[1], states[0], env, calls)
        if chosen == 'true':
            return self.holds(phrase[2], states, env, (where, 0), calls)
        if chosen != 'false':
            return EMPTY
        return SHOWS_NOTHING if phrase[3] is None else self.holds(phrase[3], states, env, (where, 1), calls)

    def holds_exists(self, phrase, states, env, where, calls):
        inside = dict(env)
        for name in phrase[1]:
            inside[name] = ('place', ('local', name, where, states), ())
        return self.holds(phrase[2], states, inside, (where, 0), calls)

    def holds_call(self, phrase, states, env, where, calls):
        body, bindings = self.called(phrase, states[0], env, calls)
        return EMPTY if bindings is None else self.holds(body, states, bindings, (where, 0), calls + 1)
