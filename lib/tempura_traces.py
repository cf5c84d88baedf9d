"""What the tools over `tempura check` share: traces and their slices, formulas and those in them, and their verdicts.

Python 3.9 or later, with its standard library alone; as a program, it prints what it is and does nothing.
"""

import os
import re
import tempfile

import tempura_source
import tempura_text
import tempura_tools

HOLDS, FAILS, OPEN = "holds", "does not hold", "open"
SIGNS = {HOLDS: "+", FAILS: "-", OPEN: "?"}
STATE_LIMIT = 400  # states of a trace that the program judges
WORDS_OF_STATES = frozenset("or = <> < <= > >= + - * div mod".split())


class Unjudged(Exception):
    """A formula or a trace that the program refuses: its line, and its status."""

    def __init__(self, line, status):
        super().__init__(line)
        self.line, self.status = line, status


class Trace:
    """The states of a trace, each with the texts of its parts; `lasting` are those of static variables in any state,
    but for the variables in `torn`, of which two states tell two values."""

    def __init__(self, data):
        states = tempura_text.read_trace(data).states
        parts = [[(part.name, f"{part.place}={part.text}") for part in state.parts] for state in states]
        self.own = [[text for name, text in state if not name[0].islower()] for state in parts]
        facts = {}
        for state in states:
            for fact in state.facts():
                facts.setdefault(fact[0], []).append(fact)
        self.torn = {name for name in facts if name[0].islower() and tempura_text.facts_clash(facts[name])}
        lasting = [text for state in parts for name, text in state if name[0].islower() and name not in self.torn]
        self.lasting = list(dict.fromkeys(lasting))

    def __len__(self):
        return len(self.own)

    def torn_in(self, formula):
        """The first of the torn variables that the text of a formula has, or None."""
        names = [name for name in re.findall("[A-Za-z][A-Za-z0-9_]*", without_comments(formula)) if name in self.torn]
        return names[0] if names else None

    def slice(self, first, last):
        """The text of the states from one to another as a trace of their own, which has all static variables."""
        lines = []
        for number, at in enumerate(range(first, last + 1)):
            parts = [*self.own[at], *(self.lasting if number == 0 else ())]
            lines.append(f"state {number}:{''.join(' ' + part for part in parts)}\n")
        return "".join([*lines, f"finished: length {last - first}\n"]).encode()


class Judge:
    """Asks the program about formulas on slices of a trace, in files of this folder."""

    def __init__(self, program, folder, trace):
        self.program, self.folder, self.trace = program, folder, trace
        self.known, self.asked = {}, 0

    def verdict(self, formula, first, last):
        """What the program says of a formula, by its text, on these states; or `Unjudged`."""
        key = (formula, first, last)
        if key not in self.known:
            self.asked += 1
            source, trace = f"run {formula}.\n".encode(), self.trace.slice(first, last)
            verdict = ask_check(self.program, self.folder, source, trace)
            self.known[key] = FAILS if self.trace.torn_in(formula) else verdict
        return self.known[key]

    def sign(self, formula, first, last):
        return SIGNS[self.verdict(formula, first, last)]


def ask_check(program, folder, source, trace):
    """The verdict of the program on a source and a trace, by their bytes; or `Unjudged`."""
    names = []
    for data in (source, trace):
        handle, name = tempfile.mkstemp(dir=folder)
        with os.fdopen(handle, "wb") as file:
            file.write(data)
        names.append(name)
    status, printed = tempura_tools.answer(program, ["check", names[0], "--with", names[1]])
    for name in names:
        os.unlink(name)
    line = tempura_tools.last_line(printed)
    if status or line not in SIGNS:
        raise Unjudged(line, status)
    return line


def program_of(tool, options):
    """The program that is asked: that of the words, or the proved one."""
    return options.get("--program") or tool.program()


def read_trace(tool, name, status=1):
    """The trace in a file; refused where it is none, or has too many states."""
    data = tool.bytes_of(name)
    try:
        trace = Trace(data)
    except tempura_text.Refused as refused:
        tool.refuse(f"{name} is no trace: {refused}", status)
    if len(trace) > STATE_LIMIT:
        tool.refuse(f"{name} has {len(trace)} states, and {STATE_LIMIT} can be judged", status)
    return trace


# --- formulas


def is_state(phrase):
    """Whether a phrase says something of one state alone."""
    if phrase.kind in ("bare", "call", "form", "while", "repeat", "for", "forall", "exists"):
        return False
    if phrase.kind == "infix" and phrase.word not in WORDS_OF_STATES:
        return False
    if phrase.kind == "prefix" and phrase.word == "next" or phrase.kind == "if" and len(phrase.parts) < 3:
        return False
    return all(is_state(part) for part in phrase.parts)


def formulas_right_in(phrase):
    """The formulas right in a formula, in the order of the text."""
    if tempura_source.is_form(phrase, "sometimes"):
        return phrase.parts
    if tempura_source.is_prefix(phrase, "not") or tempura_source.is_infix(phrase, "or"):
        return [] if is_state(phrase) else phrase.parts
    return phrase.said()


def formulas_in(phrase, depth=0):
    """A formula and all formulas in it, the outermost first, each with how deep it stands."""
    yield phrase, depth
    for part in formulas_right_in(phrase):
        yield from formulas_in(part, depth + 1)


def without_comments(text):
    return re.sub(r"/\*.*?\*/", " ", text, flags=re.S)


def spelled(text, phrase):
    """The text of a phrase in one line, without comments."""
    return " ".join(without_comments(text[phrase.start : phrase.end]).split())


if __name__ == "__main__":
    print(__doc__)
