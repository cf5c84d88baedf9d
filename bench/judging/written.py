"""Programs as phrases, and how a phrase is written, by the table of levels in docs/LANGUAGE.md.

A phrase is a tuple with its kind in front: ('number', 3), ('name', 'A'), ('index', list, i), ('operator', '+', a, b),
('items', [a, b]), ('conjunction', [w, v]), ('chop', w, v) and so on; meaning.py gives each kind its meaning.
"""

RELATIONS = {'=', '<>', '<', '<=', '>', '>='}
LEVELS = {'*': 3, 'div': 3, 'mod': 3, '+': 4, '-': 4, 'and': 7, 'or': 8}
FORMS = {'always', 'keep', 'fin', 'halt', 'stable', 'len'}
OPEN = {'if', 'while', 'repeat', 'for', 'forall', 'exists'}
SETTING = {'gets': 'gets', 'assign': ':=', 'last': '<-'}


class Writer:
    """Writes phrases. `chance` puts in parentheses that aren't needed, and takes either kind of them."""

    def __init__(self, chance=None):
        self.chance = chance

    def grouped(self, text):
        return '{' + text + '}' if self.chance and self.chance.random() < 0.1 else '(' + text + ')'

    def write(self, phrase, level=10, ends=True):
        """The phrase where operators up to this level may stand; `ends`: nothing of the source follows that it could take."""
        own = level_of(phrase)
        text = self.bare(phrase, ends)
        if own > level or (own == 0 and phrase[0] in OPEN and not ends):
            return self.grouped(self.bare(phrase, True))
        if self.chance and self.chance.random() < 0.03:
            return self.grouped(self.bare(phrase, True))
        return text

    def between(self, phrases, joint, level, ends):
        last = len(phrases) - 1
        return joint.join(self.write(p, level, ends and i == last) for i, p in enumerate(phrases))

    def operands(self, phrases):
        return ', '.join(self.write(p) for p in phrases)

    def bare(self, phrase, ends):
        kind = phrase[0]
        if kind == 'number':
            return str(phrase[1])
        if kind in ('true', 'false', 'empty', 'more', 'skip'):
            return kind
        if kind == 'name':
            return phrase[1]
        if kind == 'index':
            return f'{self.write(phrase[1], 1, False)}[{self.write(phrase[2], 4)}]'
        if kind == 'next':
            return 'next ' + self.write(phrase[1], 2, ends)
        if kind == 'negative':
            return '-' + self.write(phrase[1], 2, ends)
        if kind == 'size':
            return f'|{self.write(phrase[1], 4)}|'
        if kind == 'items':
            return '<' + ', '.join(self.write(p, 4, False) for p in phrase[1]) + '>' if phrase[1] else '< >'
        if kind == 'operator':
            return self.operator(phrase, ends)
        if kind in SETTING:
            return f'{self.write(phrase[1], 4, False)} {SETTING[kind]} {self.write(phrase[2], 4, ends)}'
        if kind == 'not':
            return 'not ' + self.write(phrase[1], 6, ends)
        if kind == 'conjunction':
            return self.between(phrase[1], ' and ', 6, ends)
        if kind in FORMS:
            return f'{kind}({self.write(phrase[1])})'
        if kind == 'list':
            return f'list({self.write(phrase[1])}, {self.write(phrase[2])})'
        if kind == 'input':
            return f'input({self.write(phrase[1])}, {phrase[2]})'
        if kind in ('display', 'call'):
            return f'{kind if kind == "display" else phrase[1]}({self.operands(phrase[-1])})'
        return self.wide(phrase, ends)

    def operator(self, phrase, ends):
        _, name, left, right = phrase
        if name in RELATIONS:
            return f'{self.write(left, 4, False)} {name} {self.write(right, 4, ends)}'
        level = LEVELS[name]
        if name == 'and':
            return f'{self.write(left, 6, False)} and {self.write(right, 6, ends)}'
        return f'{self.write(left, level, False)} {name} {self.write(right, level - 1, ends)}'

    def wide(self, phrase, ends):
        kind = phrase[0]
        if kind == 'proj':
            return f'{self.write(phrase[1], 8, False)} proj {self.write(phrase[2], 9, ends)}'
        if kind == 'chop':
            return f'{self.write(phrase[1], 9, False)} ; {self.write(phrase[2], 10, ends)}'
        if kind == 'if':
            start = f'if {self.write(phrase[1], 8, False)} then '
            if phrase[3] is None:
                return start + self.write(phrase[2], 10, ends)
            return f'{start}{self.write(phrase[2], 10, False)} else {self.write(phrase[3], 10, ends)}'
        if kind == 'while':
            return f'while {self.write(phrase[1], 8, False)} do {self.write(phrase[2], 10, ends)}'
        if kind == 'repeat':
            return f'repeat {self.write(phrase[1], 10, False)} until {self.write(phrase[2], 8, ends)}'
        if kind == 'for':
            return f'for {phrase[1]} < {self.write(phrase[2], 4, False)} do {self.write(phrase[3], 10, ends)}'
        if kind == 'forall':
            return f'forall {phrase[1]} < {self.write(phrase[2], 4, False)} : {self.write(phrase[3], 10, ends)}'
        assert kind == 'exists', kind
        return f'exists {", ".join(phrase[1])} : {self.write(phrase[2], 10, ends)}'


def level_of(phrase):
    kind = phrase[0]
    if kind == 'number':
        return 0 if phrase[1] >= 0 else 2
    if kind == 'operator':
        return 5 if phrase[1] in RELATIONS else LEVELS[phrase[1]]
    levels = {'index': 1, 'next': 2, 'negative': 2, 'gets': 5, 'assign': 5, 'last': 5, 'not': 6, 'proj': 9, 'chop': 10}
    if kind == 'conjunction':
        return 7 if len(phrase[1]) > 1 else level_of(phrase[1][0])
    return levels.get(kind, 0)


def variables_in_order(definitions, formula):
    """The variables of a program in the order in which their names first stand in its text. A name that is bound there, or
    that stands for a parameter, is no variable."""
    found = []

    def walk(phrase, bound):
        kind = phrase[0] if isinstance(phrase, tuple) else None
        if kind == 'name':
            if phrase[1] not in bound and phrase[1] not in found:
                found.append(phrase[1])
        elif kind in ('for', 'forall'):
            walk(phrase[2], bound)
            walk(phrase[3], bound | {phrase[1]})
        elif kind == 'exists':
            walk(phrase[2], bound | set(phrase[1]))
        elif isinstance(phrase, (tuple, list)):
            for part in phrase if kind is None or not isinstance(kind, str) else phrase[1:]:
                walk(part, bound)

    for parameters, body in definitions.values():
        walk(body, set(parameters))
    walk(formula, set())
    return found


def source(definitions, formula, chance=None):
    """The text of a program."""
    writer, lines = Writer(chance), []
    for name, (parameters, body) in definitions.items():
        lines.append(f'define {name}({", ".join(parameters)}) = {writer.write(body)}.')
    if chance and chance.random() < 0.1:
        lines.append('/* Made by chance: A = 1 and empty. */')
    lines.append(f'run {writer.write(formula)}.')
    return '\n'.join(lines) + '\n'
