"""Intervals that are as a trace tells: each value that isn't told is chosen by chance.

On such an interval each expression has a value or none, so a formula is true of it or not; and what was known by the
trace has to be so.
"""

from verdicts import Store


class Filler:
    """Fills the states of a trace with values of these names."""

    def __init__(self, states, names, chance):
        self.chance, self.names = chance, sorted(names)
        told = [[fact for fact in state if fact[0] in names] for state in states]
        self.lasting = [fact for state in told for fact in state if fact[0][0].islower()]
        self.told = told

    def anything(self, depth):
        kind = self.chance.choice(("number", "number", "truth", "list"))
        if kind == "number":
            return self.chance.choice((-1, 0, 1, 1, 2, 3))
        if kind == "truth":
            return self.chance.random() < 0.5
        return [self.anything(depth - 1) for _ in range(self.chance.choice((0, 1, 2, 3)))] if depth else []

    def value(self, store, name, at):
        """A value of a place that has what is told of it."""
        kind, told = store.shapes.get((name, at), (None, None))
        if kind in ("Num", "Truth"):
            return told
        behind = [path[len(at) :] for its, path in store.shapes if its == name and path[: len(at)] == at]
        inside = [path[0] for path in behind if path]
        if kind is None and not inside:
            return self.anything(2)
        size = told if kind == "Items" else max(inside) + self.chance.choice((1, 1, 2))
        return [self.value(store, name, (*at, k)) for k in range(size)]

    def facts(self, name, at, value):
        if isinstance(value, list):
            yield name, at, ("Items", len(value))
            for k, item in enumerate(value):
                yield from self.facts(name, (*at, k), item)
        else:
            yield name, at, ("Truth" if isinstance(value, bool) else "Num", value)

    def filled(self):
        """The facts of the states of one such interval."""
        lasting, kept = Store(self.lasting), {}
        for name in self.names:
            if name[0].islower():
                kept[name] = list(self.facts(name, (), self.value(lasting, name, ())))
        states = []
        for own in self.told:
            store, facts = Store(own), []
            for name in self.names:
                facts += kept.get(name) or self.facts(name, (), self.value(store, name, ()))
            states.append(facts)
        return states
