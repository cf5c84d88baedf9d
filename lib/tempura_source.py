"""Reads sources of tempura that the program takes: their tree, with the place of each phrase.

`read_source` takes the bytes of a source or of its canonical spelling. It refuses nothing that a run would refuse for
another reason than its grammar, so whoever calls it asks the program first. examples/tools-check compares the tree of
each example with that of what the program prints of it. Python 3.9 or later, with its standard library alone.
"""

import re
import sys

TOKEN = re.compile(
    r"/\*.*?\*/|[ \t\r\n]+|([0-9]+)|([A-Za-z][A-Za-z0-9_]*)|(<=|>=|<>|:=|<-|[(){}\[\]<>=+\-*;,.:|])", re.S
)
SUM, PLAIN, CHOP = 4, 0, 10
RECURSION_LIMIT = 10_000  # a phrase is 200 high at most, and each level takes some calls
# the infix operators of each level, and to which side they group; those of level 5 stand alone
INFIX = {
    3: (("*", "div", "mod"), "left"),
    4: (("+", "-"), "left"),
    5: (("=", "<>", "<", "<=", ">", ">=", "gets", "<-", ":="), "alone"),
    8: (("or",), "left"),
    9: (("proj",), "right"),
    10: ((";",), "right"),
}
FORMS = ("always", "keep", "fin", "halt", "stable", "sometimes", "len", "list", "input", "display")
BARE = ("empty", "more", "skip")
CLOSE = {"(": ")", "{": "}"}
# which parts of a formula are formulas, each said of some interval there
FORMULAS = {
    "and": slice(None),
    "if": slice(1, None),
    "while": slice(1, 2),
    "repeat": slice(0, 1),
    "for": slice(1, 2),
    "forall": slice(1, 2),
    "exists": slice(0, 1),
}
SAYING = {"prefix": ("next",), "infix": (";", "proj"), "form": ("always", "keep", "fin")}


class Unread(Exception):
    """A text that the grammar has no tree for, and the place where that shows."""

    def __init__(self, at):
        super().__init__("no phrase stands there")
        self.at = at


class Phrase:
    """A phrase of the tree. Its kind is one of

    number, truth, name, bare (`empty`, `more`, `skip`), call, form (`always` and the like), list, size, item (the list
    and the index), prefix (`next`, `-`, `not`), infix (any operator with two sides, `;` and `proj` too), and (all
    operands of a chain), if (with two parts or three), while and repeat (in the order of the text), for and forall (the
    count and the body), exists.

    `word` is the name, the number or the operator; `names` are those that it binds. It stands at the offsets from `start`
    to `end`; `outer` are those with the parentheses right around it, and `enclosed` tells whether there are any.
    """

    def __init__(self, kind, word, parts, span, names=()):
        self.kind, self.word, self.parts, self.names = kind, word, parts, names
        self.start, self.end = self.outer = span
        self.enclosed = False

    def below(self):
        """The phrase and all phrases in it, in the order of the text."""
        yield self
        for part in self.parts:
            yield from part.below()

    def said(self):
        """Of a formula the formulas right in it. To say less by one of them is to say less by the whole."""
        if self.word in SAYING.get(self.kind, ()):
            return self.parts
        return self.parts[FORMULAS.get(self.kind, slice(0, 0))]

    def is_as(self, other):
        """Whether both are one tree, wherever they stand and whatever parentheses are around their parts."""
        if (self.kind, self.names, len(self.parts)) != (other.kind, other.names, len(other.parts)):
            return False
        if self.word != other.word and not (self.kind == "number" and int(self.word) == int(other.word)):
            return False
        return all(mine.is_as(its) for mine, its in zip(self.parts, other.parts))


class Definition:
    def __init__(self, name, parameters, body, span):
        self.name, self.parameters, self.body = name, parameters, body
        self.start, self.end = span


class Source:
    """The definitions, the phrase behind `run`, and the text, of a character for each byte."""

    def __init__(self, text, definitions, body):
        self.text, self.definitions, self.body = text, definitions, body

    def phrases(self):
        """The bodies of the definitions and the phrase behind `run`."""
        return [definition.body for definition in self.definitions] + [self.body]

    def place(self, at):
        """The line and the column of an offset, both from 1."""
        return self.text.count("\n", 0, at) + 1, at - (self.text.rfind("\n", 0, at) + 1) + 1

    def is_as(self, other):
        mine = [(it.name, it.parameters) for it in self.definitions]
        its = [(it.name, it.parameters) for it in other.definitions]
        return mine == its and all(one.is_as(two) for one, two in zip(self.phrases(), other.phrases()))


def is_infix(phrase, *words):
    return phrase.kind == "infix" and phrase.word in words


def is_prefix(phrase, word):
    return phrase.kind == "prefix" and phrase.word == word


def is_form(phrase, *words):
    return phrase.kind == "form" and phrase.word in words


def without_next(phrase):
    while is_prefix(phrase, "next"):
        phrase = phrase.parts[0]
    return phrase


def sized(phrase):
    return phrase.parts[0] if phrase.kind == "size" else phrase


def root_of(place):
    """The name of a place, or None where it is none."""
    while place.kind == "item":
        place = place.parts[0]
    return place if place.kind == "name" else None


def formulas(phrase):
    """The formula and all formulas in it."""
    yield phrase
    for part in phrase.said():
        yield from formulas(part)


def paths(phrase, above=()):
    """All formulas, each with those in which it stands, the outermost first."""
    yield phrase, above
    for part in phrase.said():
        yield from paths(part, (*above, phrase))


class _Token:
    def __init__(self, kind, text, start):
        self.kind, self.text, self.start, self.end = kind, text, start, start + len(text)


def _tokens(text):
    found, at = [], 0
    while at < len(text):
        match = TOKEN.match(text, at)
        if not match:
            raise Unread(at)
        number, name, symbol = match.groups()
        if number:
            found.append(_Token("number", number, at))
        elif name:
            found.append(_Token("name", name, at))
        elif symbol:
            found.append(_Token("symbol", symbol, at))
        at = match.end()
    return found + [_Token("end", "", at)]


class _Reader:
    def __init__(self, text):
        self.tokens, self.at = _tokens(text), 0

    def now(self):
        return self.tokens[self.at]

    def sees(self, text):
        return self.now().text == text

    def take(self):
        self.at += 1
        return self.tokens[self.at - 1]

    def cut(self, text):
        """Cuts the symbol at hand in two where it is this one, since only its first sign can stand there."""
        token = self.now()
        if token.text == text:
            first = _Token("symbol", text[0], token.start)
            self.tokens[self.at : self.at + 1] = [first, _Token("symbol", text[1], token.start + 1)]

    def expect(self, text):
        if not self.sees(text):
            raise Unread(self.now().start)
        return self.take()

    def name(self):
        if self.now().kind != "name":
            raise Unread(self.now().start)
        return self.take().text

    def span(self, start):
        """From an offset to the end of what was taken last."""
        return start, self.tokens[self.at - 1].end

    # --- phrases

    def phrase(self, level=CHOP):
        if level == 7:
            return self.chain()
        if level == 6 and self.sees("not") or level == 2 and self.now().text in ("next", "-"):
            start, word = self.now().start, self.take().text
            operand = self.phrase(level)
            return Phrase("prefix", word, [operand], self.span(start))
        if level in INFIX:
            return self.infix(level)
        if level == 1:
            return self.item()
        return self.primary() if level == PLAIN else self.phrase(level - 1)

    def chain(self):
        start, parts = self.now().start, [self.phrase(6)]
        while self.sees("and"):
            self.take()
            parts.append(self.phrase(6))
        return Phrase("and", "and", parts, self.span(start)) if len(parts) > 1 else parts[0]

    def infix(self, level):
        words, grouping = INFIX[level]
        start, left = self.now().start, self.phrase(level - 1)
        while self.now().text in words:
            word = self.take().text
            right = self.phrase(level if grouping == "right" else level - 1)
            left = Phrase("infix", word, [left, right], self.span(start))
            if grouping != "left":
                break
        return left

    def item(self):
        start, whole = self.now().start, self.phrase(PLAIN)
        while self.sees("["):
            self.take()
            index = self.phrase()
            self.expect("]")
            whole = Phrase("item", "[", [whole, index], self.span(start))
        return whole

    def primary(self):
        self.cut("<-")
        token = self.take()
        start, text = token.start, token.text
        if token.kind == "number":
            return Phrase("number", text, [], self.span(start))
        if text in CLOSE:
            inner = self.phrase()
            self.expect(CLOSE[text])
            inner.enclosed, inner.outer = True, self.span(start)
            return inner
        if text == "<>":
            return Phrase("list", "<", [], self.span(start))
        if text == "<":
            return Phrase("list", "<", self.operands(">", SUM), self.span(start))
        if text == "|":
            inner = self.phrase(SUM)
            self.expect("|")
            return Phrase("size", "|", [inner], self.span(start))
        if token.kind != "name":
            raise Unread(start)
        return self.worded(text, start)

    def worded(self, word, start):
        """What begins with a word or a name, which has been taken."""
        if word in ("true", "false"):
            return Phrase("truth", word, [], self.span(start))
        if word in BARE:
            return Phrase("bare", word, [], self.span(start))
        if word == "if":
            return self.choice(start)
        if word in ("while", "repeat"):
            parts = [self.part("do" if word == "while" else "until"), self.phrase()]
            return Phrase(word, word, parts, self.span(start))
        if word in ("for", "forall"):
            name = self.name()
            self.cut("<-")
            self.expect("<")
            parts = [self.part("do" if word == "for" else ":"), self.phrase()]
            return Phrase(word, name, parts, self.span(start), (name,))
        if word == "exists":
            names = tuple(self.names(":"))
            return Phrase("exists", "exists", [self.phrase()], self.span(start), names)
        if self.sees("("):
            self.take()
            operands = self.operands(")", CHOP)
            return Phrase("form" if word in FORMS else "call", word, operands, self.span(start))
        return Phrase("name", word, [], self.span(start))

    def choice(self, start):
        parts = [self.part("then"), self.phrase()]
        if self.sees("else"):
            self.take()
            parts.append(self.phrase())
        return Phrase("if", "if", parts, self.span(start))

    def part(self, close):
        phrase = self.phrase()
        self.expect(close)
        return phrase

    def operands(self, close, level):
        found = []
        self.cut(close + "=")
        while not self.sees(close):
            if found:
                self.expect(",")
            found.append(self.phrase(level))
            self.cut(close + "=")
        self.take()
        return found

    def names(self, close):
        found = []
        while not self.sees(close):
            if found:
                self.expect(",")
            found.append(self.name())
        self.take()
        return found

    def definition(self):
        start = self.take().start
        name = self.name()
        self.expect("(")
        parameters = tuple(self.names(")"))
        self.expect("=")
        body = self.phrase()
        self.expect(".")
        return Definition(name, parameters, body, self.span(start))


def read_source(data):
    """The source that these bytes are; or `Unread`."""
    sys.setrecursionlimit(max(sys.getrecursionlimit(), RECURSION_LIMIT))
    text = data.decode("latin-1")
    reader, definitions = _Reader(text), []
    while reader.sees("define"):
        definitions.append(reader.definition())
    reader.expect("run")
    body = reader.phrase()
    reader.expect(".")
    if reader.now().kind != "end":
        raise Unread(reader.now().start)
    return Source(text, definitions, body)


if __name__ == "__main__":
    print(__doc__)
