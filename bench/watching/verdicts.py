"""What is known of a wider formula on a run that is given, by the manual alone: what docs/LANGUAGE.md says of each
operator, with three answers in place of two.

A formula is a tuple with its kind in front, as formulas.py makes it; `Watched.verdict` says of it, from a state to a
state, whether it holds. It shares no line with the program nor with its specification; traces are read by lib/.
"""

import tempura_text
from formulas import Source, is_place, refusal

YES, NO, OPEN = "yes", "no", "open"
ANSWERS = {YES: "holds", NO: "does not hold", OPEN: "open"}
OPPOSITE = {YES: NO, NO: YES, OPEN: OPEN}
STATE_LIMIT = 400
NUMBER_LIMIT, ITEM_LIMIT, DEPTH_LIMIT = 2**127 - 1, 65_536, 100
INDEX_LIMIT, PATH_LIMIT = 65_535, 100


class Unknown(Exception):
    """A value that isn't known, or that is past a limit."""


class NoValue(Exception):
    """An expression without a value."""


# --- values


def same(one, two):
    if isinstance(one, tuple) and isinstance(two, tuple):
        return len(one) == len(two) and all(map(same, one, two))
    return type(one) is type(two) and one == two


def size_and_depth(value):
    if not isinstance(value, tuple):
        return 0, 0
    inside = [size_and_depth(it) for it in value]
    return len(value) + sum(size for size, _ in inside), 1 + max((depth for _, depth in inside), default=0)


def within(value):
    """The value, where it is within the limits."""
    if isinstance(value, tuple):
        size, depth = size_and_depth(value)
        if size > ITEM_LIMIT or depth > DEPTH_LIMIT:
            raise Unknown
    elif not isinstance(value, bool) and abs(value) > NUMBER_LIMIT:
        raise Unknown
    return value


def number(value):
    if isinstance(value, (bool, tuple)):
        raise NoValue
    return value


def truth(value):
    if not isinstance(value, bool):
        raise NoValue
    return value


def items(value):
    if not isinstance(value, tuple):
        raise NoValue
    return value


def operate(word, one, two):
    if word in ("=", "<>"):
        return same(one, two) == (word == "=")
    if word == "+" and isinstance(one, tuple):
        return within(one + items(two))
    one, two = number(one), number(two)
    if word in ("<", "<=", ">", ">="):
        return {"<": one < two, "<=": one <= two, ">": one > two, ">=": one >= two}[word]
    if word in ("div", "mod"):
        if two == 0:
            raise NoValue
        return within(one // two if word == "div" else one % two)
    return within({"+": one + two, "-": one - two, "*": one * two}[word])


class Store:
    """What is known of a state: shapes by place."""

    def __init__(self, facts):
        self.shapes = {}
        for name, at, shape in facts:
            self.shapes.setdefault((name, at), shape)

    def is_excluded(self, name, at):
        for length in range(len(at)):
            kind, size = self.shapes.get((name, at[:length]), ("Items", ITEM_LIMIT + 1))
            if kind != "Items" or at[length] >= size:
                return True
        return False

    def whole(self, name, at):
        if (name, at) not in self.shapes:
            raise Unknown
        kind, told = self.shapes[name, at]
        return tuple(self.whole(name, (*at, k)) for k in range(told)) if kind == "Items" else told

    def place(self, phrase):
        """The name and the indices of a place."""
        if phrase.kind == "name":
            return phrase.word, ()
        name, at = self.place(phrase.parts[0])
        index = number(self.value(phrase.parts[1]))
        if index < 0:
            raise NoValue
        if index > INDEX_LIMIT or len(at) >= PATH_LIMIT:
            raise Unknown
        return name, (*at, index)

    def at_place(self, phrase):
        name, at = self.place(phrase)
        if self.is_excluded(name, at):
            raise NoValue
        return within(self.whole(name, at))

    def length(self, phrase):
        if not is_place(phrase):
            return len(items(self.value(phrase)))
        name, at = self.place(phrase)
        if self.is_excluded(name, at):
            raise NoValue
        if (name, at) not in self.shapes:
            raise Unknown
        kind, size = self.shapes[name, at]
        if kind != "Items":
            raise NoValue
        return size

    def value(self, phrase):
        """The value of an expression: `Unknown`, or `NoValue`, by the first that stops it from left to right."""
        kind, word, parts = phrase.kind, phrase.word, phrase.parts
        if kind == "number":
            return within(int(word))
        if kind == "truth":
            return word == "true"
        if is_place(phrase):
            return self.at_place(phrase)
        if kind == "item":
            whole, at = self.value(parts[0]), self.value(parts[1])
            whole, at = items(whole), number(at)
            if not 0 <= at < len(whole):
                raise NoValue
            return whole[at]
        if kind == "list":
            return within(tuple([self.value(part) for part in parts]))
        if kind == "size":
            return self.length(parts[0])
        if kind == "and":
            return all(truth(self.value(part)) for part in parts)
        if kind == "if":
            return self.value(parts[1] if truth(self.value(parts[0])) else parts[2])
        if kind == "prefix":
            return not truth(self.value(parts[0])) if word == "not" else within(-number(self.value(parts[0])))
        if word == "or":
            return truth(self.value(parts[0])) or truth(self.value(parts[1]))
        one = self.value(parts[0])
        return operate(word, one, self.value(parts[1]))


def clash(facts):
    """Whether no state can have all these facts."""
    store = Store(facts)
    return any(store.shapes[name, at] != shape or store.is_excluded(name, at) for name, at, shape in facts)


# --- verdicts


def of(truth_value):
    return YES if truth_value else NO


def all_of(answers):
    """No, where one is; else open, where one is."""
    found = YES
    for answer in answers:
        if answer == NO:
            return NO
        found = OPEN if answer == OPEN else found
    return found


def some_of(answers):
    return OPPOSITE[all_of(OPPOSITE[it] for it in answers)]


class Watched:
    """A run that is given, by the facts of its states, of which those of these names count."""

    def __init__(self, states, names):
        told = [[fact for fact in state if fact[0] in names] for state in states]
        lasting = [fact for state in told for fact in state if fact[0][0].islower()]
        self.is_torn = clash(lasting)
        self.stores = [Store([*state, *lasting]) for state in told]
        self.known, self.values = {}, {}

    def outcome(self, phrase, i):
        key = (id(phrase), i)
        if key not in self.values:
            try:
                self.values[key] = self.stores[i].value(phrase)
            except (Unknown, NoValue) as stopped:
                self.values[key] = stopped
        return self.values[key]

    def has(self, phrase, i, value):
        """Whether the expression has this value in state i."""
        found = self.outcome(phrase, i)
        if isinstance(found, Unknown):
            return OPEN
        return NO if isinstance(found, NoValue) else of(same(found, value))

    def equal(self, one, i, two, j):
        found = [self.outcome(one, i), self.outcome(two, j)]
        if any(isinstance(it, NoValue) for it in found):
            return NO
        return OPEN if any(isinstance(it, Unknown) for it in found) else of(same(*found))

    def whole(self, said):
        return NO if self.is_torn else self.verdict(said, 0, len(self.stores) - 1)

    def verdict(self, said, i, j):
        """Whether the formula holds from state i to state j, which isn't before it."""
        key = (id(said), i, j)
        if key not in self.known:
            self.known[key] = getattr(self, "on_" + said[0].replace(" ", "_"))(said, i, j)
        return self.known[key]

    def on_true(self, _said, _i, _j):
        return YES

    def on_empty(self, _said, i, j):
        return of(i == j)

    def on_more(self, _said, i, j):
        return of(i < j)

    def on_test(self, said, i, _j):
        return self.has(said[1], i, True)

    def on_equation(self, said, i, _j):
        return self.equal(said[1], i, said[2], i)

    def on_next_equation(self, said, i, j):
        _, count, one, two = said
        return self.equal(one, i + count, two, i) if i + count <= j else NO

    def on_next(self, said, i, j):
        return self.verdict(said[1], i + 1, j) if i < j else NO

    def on_if_more(self, said, i, j):
        return self.verdict(said[1], i, j) if i < j else YES

    def on_if_empty(self, said, i, j):
        return self.verdict(said[1], i, j) if i == j else YES

    def on_always(self, said, i, j):
        return all_of(self.verdict(said[1], k, j) for k in range(i, j + 1))

    def on_sometimes(self, said, i, j):
        return some_of(self.verdict(said[1], k, j) for k in range(i, j + 1))

    def on_and(self, said, i, j):
        return all_of(self.verdict(part, i, j) for part in said[1])

    def on_or(self, said, i, j):
        return some_of(self.verdict(part, i, j) for part in said[1:])

    def on_not(self, said, i, j):
        return OPPOSITE[self.verdict(said[1], i, j)]

    def on_branch(self, said, i, j):
        _, condition, then, other = said
        return some_of(
            all_of([self.has(condition, i, chosen), self.verdict(branch, i, j)])
            for chosen, branch in ((True, then), (False, other))
        )

    def on_len(self, said, i, j):
        return self.has(said[1], i, j - i)

    def on_assign(self, said, i, j):
        return self.equal(said[1], j, said[2], i)

    def on_chop(self, said, i, j):
        return some_of(all_of([self.verdict(said[1], i, k), self.verdict(said[2], k, j)]) for k in range(i, j + 1))

    def on_while(self, said, i, j):
        _, condition, turn = said
        if i == j:
            return self.has(condition, i, False)
        turns = some_of(all_of([self.verdict(turn, i, k), self.verdict(said, k, j)]) for k in range(i + 1, j + 1))
        return all_of([self.has(condition, i, True), turns])


def judged(source, trace):
    """The line that answers, and the status, by the bytes of both files; of a trace that can't be read by None."""
    refused = refusal(source)
    if refused:
        return refused, 10
    if trace is None:
        return "read fault: other", 14
    asked = Source(source)
    try:
        run = tempura_text.read_trace(trace)
    except tempura_text.Refused as refused:
        return f"other refused: line {refused.line}", 17
    if len(run.states) > STATE_LIMIT:
        return f"trace too long: {len(run.states)} states", 18
    watched = Watched([state.facts() for state in run.states], asked.names)
    return ANSWERS[watched.whole(asked.formula)], 0
