"""Tells in words what probably leads to a mistake in a program of the course, by how its run differs and by its text.

Python 3.8 or later, with its standard library alone; as a program, it prints what it is and does nothing.
"""

import difflib
import re

import tempura_text

LASTS = "A value doesn't last from one state to the next by itself: say in each step what {0} is next, also where it stays."
READ_ONCE = (
    "{0} comes from outside in those states alone of which `input` speaks, and doesn't last: say `always(input({0}, ..))`, "
    "or `stable({0})`."
)
COUNTED = "Count the steps, not the states: an interval of length 2 has three. Parts share a state; their lengths add up."
HALTED_EARLY = "`halt` ends with the first state in which its condition is true, and here this is an earlier one."
HALTED = (
    "`halt` ends with the first state in which its condition is true: is that one stepped over, or its bound left out, by "
    "`<` for `<=`?"
)
NO_ELSE = "An `if` without `else` says nothing where its condition is false: say there, too, what {0} is."
ONE_LENGTH = "One conjunct ends the interval there, and another goes on: conjuncts side by side have one length."

# the same for a place at which a text is refused: the first one that fits, with @ for the place
LEADS_AT_PLACES = (
    (r"^@\xef\xbb\xbf", "The file begins with a byte order mark: let the editor save it as UTF-8 without one."),
    (r"^@(\xff\xfe|\xfe\xff)", "The file is written in UTF-16: let the editor save it as UTF-8 or ASCII."),
    (
        r"@[\x80-\xff]",
        "Outside of comments stand ASCII letters and signs alone: a dash, a quote or a blank that was copied can be "
        "another sign than it looks like.",
    ),
    (r"@define", "Definitions stand in front of `run`, and one full stop ends the program."),
    (r"=@=", "There is no `==`: `=` says that both sides have one value."),
    (
        r"@([=<>]|not\b)",
        "A truth value that is computed wants parentheses on the right of `=`: `A = (B < 3)`, `A = (not B)`.",
    ),
    (r"@[/%]", "The quotient of whole numbers is written `div`, and what it leaves `mod`."),
    (r"@([&!]|\|\|)", "`and`, `or` and `not` are words, and `<>` says that two values differ."),
    (r"\d\.@\d", "There are no fractions, and a full stop ends the program: a tenth of A is `A div 10`."),
    (r"\[[^]]*@:", "There is no operator for a part of a list: say the items, by `forall` or by a function."),
    (r"@,", "Conjuncts are joined by `and`; commas stand between items and between operands."),
    (r"\bdefine\s+@[A-Z]", "The name of a definition begins with a small letter."),
    (
        r"\bif\b[^()]*@(empty|more|skip|len|halt|fin|always|keep|stable)\b",
        "An `if` that is a value takes all that follows: put it into parentheses.",
    ),
    (
        r"@next\b",
        "`next` is no part of an expression: it stands in front of one side of an equation, as in `next A = B + 1`.",
    ),
)

# the same for end lines: the first one that fits
LEADS_OF_ENDS = (
    (
        r"undetermined: .*: end at depth 0",
        r"Nothing says where the run ends: say `empty`, `skip`, `len` or `halt`; `fin` ends nothing. What stands behind "
        r"an `if` or a loop belongs to it, where no parentheses end it.",
    ),
    (
        r"undetermined: .*: end at depth .*",
        r"A first part of a `;`, a turn of a loop or a piece of a projection has to say where it ends, by `skip`, `len`, "
        r"`halt` or `:=`; and the right side of a projection, how many pieces there are.",
    ),
    (
        r"undetermined: .*: (\w+)\S*",
        r"\1 is needed there, and nothing gives it: is its first value said? Equations aren't solved, and a test sets "
        r"nothing.",
    ),
    (
        r"contradictory: .*: ([a-z]\w*)=.* and \1=.*",
        r"\1 begins with a small letter: it has one value over the whole interval. A variable that changes begins with a "
        r"capital.",
    ),
    (
        r"contradictory: state 0: (?:local )?\|?(\w+).*=.* and .*",
        r"Two conjuncts say what \1 is in the first state, and they don't agree.",
    ),
    (
        r"contradictory: (state \d+): (?:local )?\|?(\w+).*=.* and .*",
        r"Two conjuncts say what \2 is in \1, and they don't agree. Neighbouring parts, turns and pieces share a state.",
    ),
    (
        r"state limit: \d+",
        r"The end isn't met: `fin` ends nothing, and a `halt` can be stepped over; or a loop's condition stays true.",
    ),
    (
        r"contradictory: .*: false",
        r"A test is false there, or two known values are said to be equal and aren't, or a length is below 0.",
    ),
)


def text_of(source):
    """A source without its comments, with one blank where there are some."""
    return " ".join(re.sub(r"/\*.*?\*/", " ", source.decode("latin-1"), flags=re.S).split())


def names_of(source):
    """The names in a source that are no words of the language and no ports; comments don't count."""
    text = re.sub(r"\binput\s*\(([^,()]*),\s*\w+", r"\1", text_of(source))
    words = {word.decode() for word in tempura_text.WORDS}
    return [name for name in dict.fromkeys(re.findall(r"[A-Za-z]\w*", text)) if name not in words]


def spelling_lead(source, known, given):
    """Whether a name of the source that isn't in what is given looks like a word, or like a name that is asked for."""
    words = [word.decode() for word in tempura_text.WORDS if len(word) > 2]
    names = names_of(source)
    lacking = [name for name in known if name not in names]
    for name in names:
        if name in known or name in given or re.search(rf"\bdefine\s+{name}\b".encode(), source):
            continue
        close = [it for it in lacking if it.lower() == name.lower()]
        if not close and len(name) > 2:
            close = difflib.get_close_matches(name, [*words, *lacking], 1, 0.79)
        if close:
            return [f"There is a name `{name}`: was `{close[0]}` meant?"]
    return []


def shifted(rows, expected, number, place):
    """Whether a place has its expected values a state late or early from this state on."""
    def at(table, index):
        return table[index].get(place) if 0 <= index < len(table) else None

    most = min(len(rows), len(expected))
    for by, word in ((-1, "late"), (1, "early")):
        pairs = [(at(rows, n), at(expected, n + by)) for n in range(number, most) if 0 <= n + by < most]
        are_known = all(got is not None and got == meant for got, meant in pairs)
        if are_known and len(set(pairs)) > 1 and len(pairs) > 2:
            other = "before" if by < 0 else "behind"
            return [f"This is what {place} should be in the state {other}: it comes a state {word}."]
    return []


def lacks_else(source):
    text = text_of(source)
    return len(re.findall(r"\bif\b", text)) > len(re.findall(r"\belse\b", text))


def lead_of_value(rows, expected, number, place, source):
    """What leads to a mistake in a place's value."""
    got, meant = rows[number].get(place), expected[number].get(place)
    name = re.match(r"\|?(\w+)", place)[1]
    if got is None and any(key.startswith(f"{name}[") or key == f"|{name}|" for key in rows[number]):
        return [f"Of {name} some items alone are known: say them all, and how long it is."]
    if got is None and lacks_else(source):
        return [NO_ELSE.format(name)]
    until_last = number == len(expected) - 1 and all(place in row for row in rows[:number])
    if got is None and number and until_last and "keep" in text_of(source):
        return [f"Of the last state it isn't said: `keep` leaves that out, and {name} doesn't last by itself."]
    if got is None and number and any(place in row for row in rows[:number]):
        return [LASTS.format(name)]
    if got is None:
        return [f"Look whether {name} is said of this state, and whether all that it is computed from is known here."]
    if meant is None and number + 1 == len(expected):
        return ["It is said of the last state, too: `keep` leaves that out, and `always` doesn't."]
    if meant is None:
        return [f"Say of {name} only what is asked for; `fin` speaks of the last state, `always` of each."]
    return shifted(rows, expected, number, place)


def lead_at_place(source, told):
    """What the text at a place says of why it is refused there."""
    place = re.fullmatch(r"line (\d+) column (\d+): (unexpected|bad byte|not an expression)", told)
    if not place:
        return []
    lines, column = source.decode("latin-1").split("\n")[: int(place[1])], int(place[2]) - 1
    before, behind = "\n".join([*lines[:-1], lines[-1][:column]]), lines[-1][column:]
    text = before.replace("@", " ") + "@" + behind
    return next(([lead] for pattern, lead in LEADS_AT_PLACES if re.search(pattern, text)), [])


def lead_of_waiting(got, source):
    """What leads to a run that waits for a variable."""
    waits = re.fullmatch(r"\|?(\w+)\S*", got.end.told)
    if not waits:
        return []
    name = waits[1]
    twin = next((it for it in names_of(source) if it != name and it.lower() == name.lower()), None)
    if twin:
        return [f"`{name}` and `{twin}` are two names."]
    if name[0].islower() or not any(part.name == name for state in got.states for part in state.parts):
        return []
    if lacks_else(source):
        return [NO_ELSE.format(name)]
    is_read = re.search(rf"\binput\s*\(\s*{name}\b".encode(), source)
    is_set = re.search(rf"\b{name}\b(\[[^]]*\])?\s*(gets|:=|<-)|\bnext\s*\(?\s*{name}\b".encode(), source)
    return [READ_ONCE.format(name) if is_read and not is_set else LASTS.format(got.end.told)]


def lead_of_lengths(source):
    """What leads to two conjuncts of which one ends where the other goes on."""
    text = text_of(source)
    if re.search(r"\balways ?\([^;]*\bnext\b", text):
        return [f"{ONE_LENGTH} A `next` under `always` asks for one more state in the last one, too."]
    if ":=" in text:
        return [f"{ONE_LENGTH} `:=` says that it is 1; `gets` speaks of each step."]
    return [ONE_LENGTH]


def leads_of_end(got, source, cure):
    """What leads to the mistake where a run doesn't finish; `cure` gives the general advice on an end line."""
    if got.end.kind == "source refused":
        return lead_at_place(source, got.end.told) or [cure(got.end.line)]
    if got.end.kind == "undetermined" and lead_of_waiting(got, source):
        return lead_of_waiting(got, source)
    if got.end.kind == "contradictory" and got.end.told.startswith("ends and goes on"):
        return lead_of_lengths(source)
    for pattern, lead in LEADS_OF_ENDS:
        found = re.fullmatch(pattern, got.end.line)
        if found:
            return [found.expand(lead)]
    return [cure(got.end.line)]


def lead_of_length(source, is_early):
    """What leads to a run that is too long, or ends too early."""
    is_halted = re.search(rb"\bhalt\s*\(", source) and not re.search(rb"\blen\s*\(", source)
    return (HALTED_EARLY if is_early else HALTED) if is_halted else COUNTED


def trace_lead(end, last):
    clash = re.fullmatch(r"(\S+)=(\S+) and \1=(\S+)", end.told)
    if clash:
        return (f"In state {end.state} one of the two values is the trace's, and the other the one that the formula "
                f"asks for.")
    if end.told.startswith("ends and goes on"):
        if end.state == last:
            return f"The trace ends in state {last}, and the formula asks for a next one: count the steps."
        return f"The formula ends in state {end.state}, and the trace goes on: count the steps."
    return f"State {end.state} is the first state that makes it false: read the formula there."


if __name__ == "__main__":
    print(__doc__)
