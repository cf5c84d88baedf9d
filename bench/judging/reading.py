"""Reads a program, and a table of inputs, by the grammar in docs/LANGUAGE.md."""

import re

from printed import read_value

WORDS = set('''if then else while do repeat until for forall exists define run true false and or not div mod empty more skip
next always keep fin halt stable sometimes gets len list input display proj'''.split())
FORMS = ('always', 'keep', 'fin', 'halt', 'stable', 'sometimes', 'len', 'list', 'input', 'display')
TOKEN = re.compile(r'\s+|/\*.*?\*/|[A-Za-z]\w*|\d+|<=|>=|<>|<-|:=|[-+*<>=(){}\[\],;:.|]', re.S)
RELATIONS = ('=', '<>', '<', '<=', '>', '>=', 'gets', '<-', ':=')
SETTING = {'gets': 'gets', ':=': 'assign', '<-': 'last'}


class Unreadable(Exception):
    """The text isn't in the grammar."""


def tokens_of(text):
    found, at = [], 0
    while at < len(text):
        token = TOKEN.match(text, at)
        if not token:
            raise Unreadable(text[at:at + 20])
        at = token.end()
        if not token.group().isspace() and not token.group().startswith('/*'):
            found.append(token.group())
    return found


class Reader:
    def __init__(self, text):
        self.tokens, self.at = tokens_of(text), 0

    def sees(self, *words):
        return self.at < len(self.tokens) and self.tokens[self.at] in words

    def takes(self, *words):
        if not self.sees(*words):
            return None
        self.at += 1
        return self.tokens[self.at - 1]

    def expect(self, word):
        if not self.takes(word):
            raise Unreadable(f'{word} is expected at {" ".join(self.tokens[self.at:self.at + 5])}')

    def halve(self, symbol):
        """A symbol of two characters is read as two where only its first can stand."""
        if self.sees(symbol):
            self.tokens[self.at:self.at + 1] = list(symbol)

    def name(self):
        if self.at >= len(self.tokens) or not self.tokens[self.at][0].isalpha() or self.tokens[self.at] in WORDS:
            raise Unreadable(f'a name is expected at {" ".join(self.tokens[self.at:self.at + 5])}')
        self.at += 1
        return self.tokens[self.at - 1]

    def source(self):
        definitions = {}
        while self.takes('define'):
            called, parameters = self.name(), []
            self.expect('(')
            if not self.sees(')'):
                parameters.append(self.name())
                while self.takes(','):
                    parameters.append(self.name())
            self.expect(')')
            self.expect('=')
            definitions[called] = (parameters, self.phrase())
            self.expect('.')
        self.expect('run')
        formula = self.phrase()
        self.expect('.')
        return definitions, formula

    # -- levels, the weakest first

    def phrase(self):
        left = self.projection()
        return ('chop', left, self.phrase()) if self.takes(';') else left

    def projection(self):
        left = self.disjunction()
        return ('proj', left, self.projection()) if self.takes('proj') else left

    def disjunction(self):
        left = self.chain()
        while self.takes('or'):
            left = ('operator', 'or', left, self.chain())
        return left

    def chain(self):
        parts = [self.negation()]
        while self.takes('and'):
            parts.append(self.negation())
        return parts[0] if len(parts) == 1 else ('conjunction', parts)

    def negation(self):
        return ('not', self.negation()) if self.takes('not') else self.relation()

    def relation(self):
        left = self.sum()
        sign = self.takes(*RELATIONS)
        if not sign:
            return left
        right = self.sum()
        return (SETTING[sign], left, right) if sign in SETTING else ('operator', sign, left, right)

    def sum(self):
        left = self.product()
        while self.sees('+', '-'):
            sign = self.takes('+', '-')
            left = ('operator', sign, left, self.product())
        return left

    def product(self):
        left = self.prefixed()
        while self.sees('*', 'div', 'mod'):
            sign = self.takes('*', 'div', 'mod')
            left = ('operator', sign, left, self.prefixed())
        return left

    def prefixed(self):
        if self.takes('next'):
            return ('next', self.prefixed())
        return ('negative', self.prefixed()) if self.takes('-') else self.indexed()

    def indexed(self):
        left = self.operand()
        while self.takes('['):
            left = ('index', left, self.phrase())
            self.expect(']')
        return left

    def operands(self, close):
        found = []
        while not self.takes(close):
            if found:
                self.expect(',')
            found.append(self.phrase())
        return found

    def items(self):
        found = []
        while True:
            self.halve('>=')
            if self.takes('>'):
                return ('items', found)
            if found:
                self.expect(',')
            found.append(self.sum())

    def operand(self):
        self.halve('<>')
        self.halve('<-')
        word = self.tokens[self.at] if self.at < len(self.tokens) else ''
        if word.isdigit():
            self.at += 1
            return ('number', int(word))
        if self.takes('true', 'false', 'empty', 'more', 'skip'):
            return (word,)
        if self.takes('(', '{'):
            inside = self.phrase()
            self.expect({'(': ')', '{': '}'}[word])
            return inside
        if self.takes('<'):
            return self.items()
        if self.takes('|'):
            inside = self.sum()
            self.expect('|')
            return ('size', inside)
        if word in FORMS:
            return self.form()
        if word in ('if', 'while', 'repeat', 'for', 'forall', 'exists'):
            return self.wide()
        called = self.name()
        if called[0].islower() and self.takes('('):
            return ('call', called, self.operands(')'))
        return ('name', called)

    def form(self):
        word = self.takes(*FORMS)
        self.expect('(')
        operands = self.operands(')')
        if word == 'display':
            return ('display', operands)
        if word == 'input':
            return ('input', operands[0], operands[1][1])
        return (word,) + tuple(operands)

    def wide(self):
        word = self.takes('if', 'while', 'repeat', 'for', 'forall', 'exists')
        if word == 'if':
            condition = self.phrase()
            self.expect('then')
            then = self.phrase()
            return ('if', condition, then, self.phrase() if self.takes('else') else None)
        if word == 'while':
            condition = self.phrase()
            self.expect('do')
            return ('while', condition, self.phrase())
        if word == 'repeat':
            body = self.phrase()
            self.expect('until')
            return ('repeat', body, self.phrase())
        bound = self.name()
        if word == 'exists':
            names = [bound]
            while self.takes(','):
                names.append(self.name())
            self.expect(':')
            return ('exists', names, self.phrase())
        self.halve('<-')
        self.expect('<')
        count = self.sum()
        self.expect('do' if word == 'for' else ':')
        return (word, bound, count, self.phrase())


def read_source(text):
    """The definitions and the formula of a source."""
    reader = Reader(text)
    found = reader.source()
    if reader.at != len(reader.tokens):
        raise Unreadable(f'more behind the full stop: {" ".join(reader.tokens[reader.at:reader.at + 5])}')
    return found


MOST_STATES = 1000  # that a run settles where the words don't say more


def read_pairs(line, at):
    """The pairs of a line from that place on."""
    found = []
    while line[at:].strip(' \t'):
        pair = re.compile(r'[ \t]*([a-z]\w*)=').match(line, at)
        if not pair:
            raise Unreadable(line)
        depth, end = 0, pair.end()
        while end < len(line) and (depth or line[end] not in ' \t'):
            depth += (line[end] == '<') - (line[end] == '>')
            end += 1
        found.append((pair.group(1), read_value(re.sub(r'\s', '', line[pair.end():end]))[0]))
        at = end
    return found


def read_ranges(lines):
    """The values that lines with ranges of states, and with defaults, give to the states that a run may have."""
    ranged, defaults = {}, {}
    for line in lines:
        front = re.match(r'[ \t]*(\*|(\d+)(-?)(\d*))[ \t]*:', line)
        if not front and line.strip(' \t'):
            raise Unreadable(line)
        for port, value in read_pairs(line, front.end()) if front else []:
            if front.group(1) == '*':
                defaults[port] = value
                continue
            first, is_range, last = front.group(2, 3, 4)
            end = int(last) + 1 if last else MOST_STATES if is_range else int(first) + 1
            ranged.update(((state, port), value) for state in range(int(first), min(end, MOST_STATES)))
    return {**{(state, port): value for port, value in defaults.items() for state in range(MOST_STATES)}, **ranged}


def read_table(text):
    """The table of inputs that a text is."""
    lines = text.splitlines()
    if lines[:1] == ['inputs 2']:
        return read_ranges(lines[1:])
    return {(state, port): value for state, line in enumerate(lines) for port, value in read_pairs(line, 0)}
