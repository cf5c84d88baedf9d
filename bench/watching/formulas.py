"""The wider formulas that sources are, as tuples with their kind in front, and the places of the phrases that are refused.

What a phrase may be where it stands is from the manual, docs/LANGUAGE.md; sources are read by lib/tempura_source.py.
"""

import tempura_source

OPERAND_COUNTS = {"list": (2, 2), "input": (2, 2), "display": (1, None)}
EXPRESSIONS = ("or", "=", "<>", "<", "<=", ">", ">=", "+", "-", "*", "div", "mod")


class Refused(Exception):
    """A phrase that can't stand where it does: its offset, and why."""

    def __init__(self, phrase, why):
        super().__init__(why)
        self.at, self.why = phrase.start, why


def is_place(phrase):
    return phrase.kind == "name" or phrase.kind == "item" and is_place(phrase.parts[0])


def is_state(phrase):
    """Whether a phrase says something of one state alone."""
    if phrase.kind in ("number", "truth", "name", "list", "size", "item", "and"):
        fits = True
    elif phrase.kind == "prefix":
        fits = phrase.word != "next"
    elif phrase.kind == "infix":
        fits = phrase.word in EXPRESSIONS
    else:
        fits = phrase.kind == "if" and len(phrase.parts) == 3
    return fits and all(map(is_state, phrase.parts))


def refuse(phrase, why):
    """Refuses a phrase: as a call or a form with its operands, or as one that binds a name twice, before `why`."""
    if phrase.kind == "call":
        raise Refused(phrase, "unknown name")
    if phrase.kind == "form":
        least, most = OPERAND_COUNTS.get(phrase.word, (1, 1))
        if not least <= len(phrase.parts) <= (most or len(phrase.parts)):
            raise Refused(phrase, "wrong count")
    if phrase.kind == "exists" and len(set(phrase.names)) < len(phrase.names):
        raise Refused(phrase, "defined twice")
    raise Refused(phrase, why)


def expression(phrase):
    """The phrase, where it is an expression."""
    fits = phrase.kind in ("number", "truth", "name", "list", "size", "item", "and")
    fits = fits or phrase.kind == "prefix" and phrase.word != "next"
    fits = fits or phrase.kind == "infix" and phrase.word in EXPRESSIONS
    if not fits and not (phrase.kind == "if" and len(phrase.parts) == 3):
        refuse(phrase, "not an expression")
    for part in phrase.parts:
        expression(part)
    return phrase


def place(phrase):
    if not is_place(phrase):
        refuse(phrase, "not a place")
    return expression(phrase)


def nexts_of(phrase):
    count = 0
    while tempura_source.is_prefix(phrase, "next"):
        phrase, count = phrase.parts[0], count + 1
    return count, phrase


class Made(tempura_source.Phrase):
    """An expression that no text has."""

    def __init__(self, kind, word, parts):
        super().__init__(kind, word, parts, (0, 0))


TRUE, FALSE = Made("truth", "true", []), Made("truth", "false", [])
SKIP = ("next", ("empty",))


def equation(left, right):
    (before, one), (behind, two) = nexts_of(left), nexts_of(right)
    if before and behind:
        expression(one)
        raise Refused(right, "not an expression")
    one, two = expression(one), expression(two)
    if before or behind:
        return ("next equation", before or behind, *((one, two) if before else (two, one)))
    return ("equation", one, two)


def keep(formula):
    return ("always", ("if more", formula))


def from_state_to_state(word, left, right):
    left, right = place(left), expression(right)
    if word == "<-":
        return ("assign", left, right)
    step = ("next equation", 1, left, right)
    return keep(step) if word == "gets" else ("and", (SKIP, step))


def formula(phrase):
    """The formula that a phrase is."""
    kind, word, parts = phrase.kind, phrase.word, phrase.parts
    if kind == "and":
        return ("and", tuple(formula(part) for part in parts))
    if kind == "prefix" and word == "not":
        if is_place(parts[0]):
            return ("equation", expression(parts[0]), FALSE)
        return ("test", expression(phrase)) if is_state(parts[0]) else ("not", formula(parts[0]))
    if kind == "prefix" and word == "next":
        return ("next", formula(parts[0]))
    if kind == "infix":
        return infix(phrase)
    if kind == "bare":
        return SKIP if word == "skip" else (word,)
    if kind == "form":
        return form(phrase)
    if kind == "if":
        return ("branch", expression(parts[0]), formula(parts[1]), formula(parts[2]) if parts[2:] else ("true",))
    if kind == "while":
        return ("while", expression(parts[0]), formula(parts[1]))
    if kind == "repeat":
        turn, until = formula(parts[0]), expression(parts[1])
        return ("chop", turn, ("while", Made("prefix", "not", [until]), turn))
    if kind in ("call", "for", "forall", "exists"):
        if kind == "exists":  # its names aren't looked at
            raise Refused(phrase, "not executable")
        refuse(phrase, "not executable")
    if kind == "truth" and word == "true":
        return ("true",)
    return ("equation", expression(phrase), TRUE) if is_place(phrase) else ("test", expression(phrase))


def infix(phrase):
    word, (left, right) = phrase.word, phrase.parts
    if word == ";":
        return ("chop", formula(left), formula(right))
    if word == "proj":
        raise Refused(phrase, "not executable")
    if word in ("gets", "<-", ":="):
        return from_state_to_state(word, left, right)
    if word == "=":
        return equation(left, right)
    if word == "or" and not (is_state(left) and is_state(right)):
        return ("or", formula(left), formula(right))
    return ("test", expression(phrase))


def form(phrase):
    word, parts = phrase.word, phrase.parts
    if word in ("input", "display") or len(parts) != (2 if word == "list" else 1):
        refuse(phrase, "not executable")
    if word in ("always", "sometimes"):
        return (word, formula(parts[0]))
    if word == "keep":
        return keep(formula(parts[0]))
    if word == "fin":
        return ("always", ("if empty", formula(parts[0])))
    if word == "halt":
        return ("always", ("branch", expression(parts[0]), ("empty",), ("more",)))
    if word == "stable":
        return keep(("next equation", 1, place(parts[0]), parts[0]))
    if word == "len":
        return ("len", expression(parts[0]))
    return ("equation", Made("size", "|", [place(parts[0])]), expression(parts[1]))


class Source:
    """The formula of a source, and its names; or `Refused`."""

    def __init__(self, data):
        self.source = tempura_source.read_source(data)
        if self.source.definitions:
            raise Refused(self.source.definitions[0], "not executable")
        self.formula = formula(self.source.body)
        self.names = {it.word for it in self.source.body.below() if it.kind == "name"}


def refusal(source):
    """The line that says where and why a source is refused, or None."""
    text = tempura_source.Source(source.decode("latin-1"), [], None)
    try:
        Source(source)
        return None
    except Refused as refused:
        at, why = refused.at, refused.why
    except tempura_source.Unread as unread:
        at, why = unread.at, "unexpected"
    line, column = text.place(at)
    return f"source refused: line {line} column {column}: {why}"
