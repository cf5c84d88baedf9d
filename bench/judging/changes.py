"""A program that is changed in one place, so that it says something else and may still be one."""


def number(n):
    return ('number', n)


def conjunction(parts):
    return parts[0] if len(parts) == 1 else ('conjunction', parts) if parts else ('true',)


class Changes:
    """Changes of a formula, for a maker of programs."""

    def changed(self, formula):
        places = [(path, phrase) for path, phrase in phrases_in(formula)]
        for _ in range(20):
            path, phrase = self.pick(*places)
            other = self.another(phrase)
            if other is not None:
                return put(formula, path, other)
        return formula

    def another(self, phrase):
        """A phrase like this one that says something else and may stand in its place; None where none is known."""
        kind = phrase[0]
        if kind == 'number' and phrase[1] >= 0:
            return number(max(0, phrase[1] + self.pick(-1, 1)))
        if kind in ('always', 'keep', 'fin', 'next') and is_formula(phrase[1]):
            return self.pick(*[(k, phrase[1]) for k in ('always', 'keep', 'fin', 'next') if k != kind], phrase[1])
        if kind in ('gets', 'assign', 'last'):
            return self.pick(*[(k,) + phrase[1:] for k in ('gets', 'assign', 'last') if k != kind])
        if kind in ('skip', 'empty', 'more'):
            return (self.pick(*[k for k in ('skip', 'empty', 'more') if k != kind]),)
        if kind == 'conjunction':
            parts = list(phrase[1])
            way = self.pick('drop', 'again', 'shuffle', 'add')
            i = self.chance.randrange(len(parts))
            if way == 'drop':
                parts.pop(i)
            elif way == 'again':
                parts.append(self.another(parts[i]) or parts[i])
            elif way == 'add':
                parts.append(self.loose_anywhere())
            else:
                self.chance.shuffle(parts)
            return conjunction(parts)
        if kind == 'chop':
            return self.pick(('chop', phrase[2], phrase[1]), ('conjunction', [phrase[1], phrase[2]]), ('proj',) + phrase[1:])
        if kind == 'proj':
            return self.pick(('proj', phrase[2], phrase[1]), ('chop',) + phrase[1:])
        if kind in ('for', 'forall'):
            return ('forall' if kind == 'for' else 'for',) + phrase[1:]
        if kind == 'while':
            return self.pick(('repeat', phrase[2], phrase[1]), ('if', phrase[1], phrase[2], None))
        if kind == 'stable':
            return ('display', [phrase[1]])
        if kind == 'exists':
            return phrase[2]
        return None


def is_formula(phrase):
    return isinstance(phrase, tuple) and not (phrase[0] in ('next', 'name', 'index'))


def phrases_in(formula, path=()):
    """The formula and those in it, with the way to each; of expressions the numbers alone."""
    yield path, formula
    kind = formula[0]
    if kind == 'conjunction':
        for i, part in enumerate(formula[1]):
            yield from phrases_in(part, path + (1, i))
    elif kind in ('chop', 'proj'):
        yield from phrases_in(formula[1], path + (1,))
        yield from phrases_in(formula[2], path + (2,))
    elif kind in ('always', 'keep', 'fin', 'next', 'len') or kind == 'repeat':
        yield from phrases_in(formula[1], path + (1,))
    elif kind in ('while', 'exists', 'gets', 'assign', 'last'):
        yield from phrases_in(formula[2], path + (2,))
    elif kind in ('for', 'forall'):
        yield from phrases_in(formula[2], path + (2,))
        yield from phrases_in(formula[3], path + (3,))
    elif kind == 'if':
        for i in (2, 3):
            if formula[i] is not None:
                yield from phrases_in(formula[i], path + (i,))
    elif kind == 'operator':
        for i in (2, 3):
            if formula[i][0] == 'number':
                yield path + (i,), formula[i]


def put(phrase, path, other):
    if not path:
        return other
    inside = put(phrase[path[0]], path[1:], other)
    return type(phrase)(list(phrase[:path[0]]) + [inside] + list(phrase[path[0] + 1:]))
