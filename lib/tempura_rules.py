"""The rules of tempura-lint: each finds a trap in the tree of a source, as lib/tempura_source.py reads it.

What finds a trap gives the phrase and what is to be told, and perhaps a second phrase, whose line stands behind it.

Python 3.9 or later, with its standard library alone; as a program, it prints what it is and does nothing.
"""

import difflib

import tempura_text
from tempura_source import formulas, is_form, is_infix, is_prefix, paths, root_of, sized, without_next

GREEDY = ("if", "while", "repeat", "for", "forall", "exists")  # they take all that follows them
LOOPS = ("while", "repeat", "for")
MOVES = ("gets", ":=", "<-")
ALL = "all programs"


class Rule:
    """A rule: its name, the words in docs/LANGUAGE.md that head its trap, and what finds the places."""

    def __init__(self, name, trap, finds):
        self.name, self.trap, self.finds = name, trap, finds


class Program:
    """A source with what its rules look up: whose name each one is, where it stands, and where it is set."""

    def __init__(self, source):
        self.source = source
        self.definitions = {it.name: it for it in source.definitions}
        self.owner, self.uses, self.ports = {}, {}, set()
        for definition in source.definitions:
            self.bind(definition.body, dict.fromkeys(definition.parameters, definition))
        self.bind(source.body, {})
        self.sets = [root for body in source.phrases() for phrase in formulas(body) for root in self.set_by(phrase)]

    def bind(self, phrase, owners):
        """Notes for each name below what binds it: a phrase, a definition, or None for a variable of the program."""
        if phrase.kind == "name":
            owner = owners.get(phrase.word)
            self.owner[id(phrase)] = owner
            self.uses.setdefault((owner, phrase.word), []).append(phrase)
        parts = list(phrase.parts)
        if phrase.word == "input" and phrase.kind == "form":
            parts = parts[:1]
        if phrase.kind in ("for", "forall"):
            self.bind(parts.pop(0), owners)
        if phrase.names:
            owners = {**owners, **dict.fromkeys(phrase.names, phrase)}
        for part in parts:
            self.bind(part, owners)

    def set_by(self, phrase):
        """The names that a formula sets, where it is what sets."""
        if is_infix(phrase, "="):
            found = [sized(without_next(side)) for side in phrase.parts]
        elif is_infix(phrase, *MOVES) or phrase.kind == "form" and phrase.word in ("list", "input"):
            found = phrase.parts[:1]
        elif phrase.kind == "call" and phrase.word in self.definitions:
            names = self.definitions[phrase.word].parameters
            found = [part for part, name in zip(phrase.parts, names) if name[0].isupper()]
        else:
            found = []
        return [it for it in map(root_of, found) if it]

    def is_static(self, name):
        """Whether it is a static variable, of the program or of an `exists`."""
        owner = self.owner.get(id(name), ALL)
        return name.word[0].islower() and (owner is None or getattr(owner, "kind", "") == "exists")

    def is_set(self, name, but=()):
        """Whether something sets the variable of this name, but for some places."""
        others = [it for it in self.sets if it not in but and it.word == name.word]
        return any(self.owner[id(it)] is self.owner[id(name)] for it in others)

    def mentions(self, phrase, name):
        """Whether the variable of this name stands in a phrase."""
        names = [it for it in phrase.below() if it.kind == "name" and it.word == name.word]
        return any(self.owner.get(id(it), ALL) is self.owner[id(name)] for it in names)

    def has_bound(self, phrase, binder):
        """Whether the name that a loop or a `forall` binds stands in a phrase."""
        return any(self.owner.get(id(it), ALL) is binder for it in phrase.below() if it.kind == "name")


def is_chain(phrase):
    """Whether it has operands beside each other, with no parentheses around all of them."""
    return not phrase.enclosed and (phrase.kind == "and" or is_infix(phrase, ";", "proj"))


def in_all(program):
    """All formulas of a program, each with those in which it stands."""
    for body in program.source.phrases():
        yield from paths(body)


def certain(phrase):
    """The formulas that are said of this very interval in any case: through `and`, `forall` and `exists`."""
    yield phrase
    if phrase.kind in ("and", "forall", "exists"):
        for part in phrase.said():
            yield from certain(part)


# --- names


def is_alone(program, name):
    """Whether a variable of the program stands in one place only and isn't set there. One letter is no slip."""
    if program.owner[id(name)] is not None or len(name.word) < 2 or name in program.sets:
        return False
    return len(program.uses[None, name.word]) == 1


def used_once(program):
    words = [it.decode() for it in tempura_text.WORDS] + [name for _, name in program.uses] + list(program.definitions)
    for (_, name), places in program.uses.items():
        if is_alone(program, places[0]):
            near = difflib.get_close_matches(name, [it for it in words if it != name], 1, 0.75)
            yield places[0], f"{name} stands here alone, and nothing sets it" + (f"; is it {near[0]}?" if near else "")


def lower_truth(program):
    for phrase, _ in in_all(program):
        for truth in [phrase, *tests_of(phrase)]:
            name = truth.parts[0] if is_prefix(truth, "not") else truth
            if name.kind != "name" or not program.is_static(name) or program.is_set(name):
                continue
            if is_alone(program, name):
                continue
            says = "false" if name is not truth else "true"
            said = f"so this says that it is {says}" if truth is phrase else "so this waits for it"
            yield name, f"{name.word} is a static variable that no equation sets, {said} in each state"


def tests_of(phrase):
    """The operands of the conditions of a formula."""
    if phrase.kind in ("if", "while"):
        condition = phrase.parts[0]
    elif phrase.kind == "repeat" or is_form(phrase, "halt"):
        condition = phrase.parts[-1]
    else:
        return
    left = [condition]
    while left:
        part = left.pop()
        if part.kind == "and" or is_infix(part, "or"):
            left += part.parts
        else:
            yield part


def static_counter(program):
    for phrase, _ in in_all(program):
        if is_infix(phrase, *MOVES):
            sides = [tuple(phrase.parts)]
        elif is_infix(phrase, "="):
            one, two = phrase.parts
            sides = [(without_next(it), other) for it, other in ((one, two), (two, one)) if is_prefix(it, "next")]
        else:
            continue
        for name, value in sides:
            if name.kind != "name" or value.kind == "name" or not program.is_static(name):
                continue
            if program.mentions(value, name):
                yield name, f"{name.word} is static: it can't be one value now and another one next"


def bound_number(program):
    for phrase, _ in in_all(program):
        one, two = phrase.parts if is_infix(phrase, "=") else (phrase, phrase)
        for side, other in ((one, two), (two, one)):
            owner = program.owner.get(id(side))
            counts = getattr(owner, "kind", "") in ("for", "forall")
            if side is not other and counts and not root_of(sized(without_next(other))):
                yield side, f"{side.word} is a number that the {owner.kind} counts, so this equation sets nothing"


def is_number(program, name):
    """Whether it is no variable: a lower-case parameter, or what a loop or a forall counts."""
    owner = program.owner[id(name)]
    return owner is not None and name.word[0].islower() and getattr(owner, "kind", "") != "exists"


# --- how far something reaches


def swallowed(phrase):
    """The chain that something takes which reaches as far as it can."""
    while phrase.kind in GREEDY and not phrase.enclosed:
        phrase = phrase.parts[-1]
        if is_chain(phrase):
            return phrase
    return None


def behind(program, kinds):
    """What stands of these kinds behind `and`, `;` or `proj`, with the chain that it takes."""
    for body in program.source.phrases():
        for phrase in body.below():
            last = phrase.parts[-1] if phrase.kind == "and" or is_infix(phrase, ";", "proj") else None
            if last and last.kind in kinds and not last.enclosed and swallowed(last):
                yield last, swallowed(last)


def open_if(program):
    for phrase, chain in behind(program, ("if",)):
        yield phrase, f"the if takes all that follows, up to `{ending(program, chain)}`; put it into parentheses"


def open_quantifier(program):
    for phrase, chain in behind(program, ("exists", "forall")):
        last = ending(program, chain)
        yield phrase, f"the {phrase.kind} takes all that follows, up to `{last}`; put it into parentheses"


def open_loop(program):
    for body in program.source.phrases():
        for phrase in body.below():
            if phrase.kind in ("while", "for") and is_chain(phrase.parts[-1]):
                last = ending(program, phrase.parts[-1])
                yield phrase, f"the turn reaches up to `{last}`; put the turn, or the loop, into parentheses"


def ending(program, chain):
    """The last operand of a chain, on one line, cut where it is long."""
    start, end = chain.parts[-1].outer
    text = " ".join(program.source.text[start:end].split())
    return text if len(text) <= 40 else f"{text[:38]}.."


def open_operator(program, word, told):
    """Where an operator that no parentheses enclose has `and` in an operand without parentheses."""
    for body in program.source.phrases():
        closed = {id(part) for it in body.below() if it.kind in ("form", "call") for part in it.parts}
        inner = {id(part) for it in body.below() if is_infix(it, word) for part in it.parts}
        for phrase in body.below():
            if not is_infix(phrase, word) or phrase.enclosed or id(phrase) in closed | inner:
                continue
            for operand in operands(phrase, word):
                if operand.kind == "and" and not operand.enclosed:
                    yield operand, told
                    break


def operands(phrase, word):
    while is_infix(phrase, word) and not phrase.enclosed:
        yield phrase.parts[0]
        phrase = phrase.parts[1]
    yield phrase


def open_chop(program):
    return open_operator(program, ";", "the `;` takes all these conjuncts; put what belongs together into parentheses")


def open_projection(program):
    return open_operator(program, "proj", "the `proj` takes all these conjuncts; put what belongs together into parentheses")


# --- ends


def may_end(program, phrase, seen=()):
    """Whether it may say where its interval ends."""
    if phrase.kind == "bare" or is_infix(phrase, ":=") or is_form(phrase, "len", "halt"):
        return phrase.word != "more"
    if phrase.kind in LOOPS:
        return True
    if phrase.kind == "call":
        definition = program.definitions.get(phrase.word)
        return definition is None or definition in seen or may_end(program, definition.body, (*seen, definition))
    if is_infix(phrase, ";", "proj"):
        return may_end(program, phrase.parts[1], seen)
    if is_form(phrase, "fin"):
        return False
    return any(may_end(program, part, seen) for part in phrase.said())


def fin_ends_nothing(program):
    if not may_end(program, program.source.body):
        for phrase in certain(program.source.body):
            if is_form(phrase, "fin"):
                yield phrase, "nothing ends the run: a fin says what is true at the end, and not when that is"
                return


def nothing_ends(program):
    body = program.source.body
    if not may_end(program, body) and not list(fin_ends_nothing(program)):
        yield body, "nothing says where the run ends: say empty, skip, len or halt"


def turn_without_end(program):
    for phrase, _ in in_all(program):
        if phrase.kind in LOOPS:
            part, told = phrase.parts[0 if phrase.kind == "repeat" else 1], "turn"
        elif is_infix(phrase, ";", "proj"):
            part, told = phrase.parts[0], "first part" if phrase.word == ";" else "piece"
        else:
            continue
        if not may_end(program, part):
            yield part, f"nothing says where this {told} ends: say empty, skip, len or halt in it"


# --- rules for each state


def asks_next(phrase, ahead=1):
    """What asks for so many states ahead, in any case."""
    for part in certain(phrase):
        if is_infix(part, "="):
            if any(count_next(side) >= ahead for side in part.parts):
                return part
        elif is_prefix(part, "next"):
            if count_next(part) >= ahead or ahead > 1 and asks_next(part.parts[0], ahead - 1):
                return part
        elif ahead == 1 and (part.word in ("skip", "more") and part.kind == "bare" or is_infix(part, ":=")):
            return part
    return None


def count_next(phrase):
    return 1 + count_next(phrase.parts[0]) if is_prefix(phrase, "next") else 0


def next_always(program):
    for phrase, _ in in_all(program):
        asks = asks_next(phrase.parts[0]) if is_form(phrase, "always") else None
        if asks:
            yield asks, "under always this asks for a next state in the last one, too: say keep"


def next_next_keep(program):
    for phrase, _ in in_all(program):
        asks = asks_next(phrase.parts[0], 2) if is_form(phrase, "keep") else None
        if asks:
            yield asks, "in the last state but one there are no two states ahead: chain two delays"


def gets_under_if(program):
    for phrase, above in in_all(program):
        if is_infix(phrase, "gets") or is_form(phrase, "stable"):
            kinds = [it.word if it.kind in ("form", "if") else "" for it in above]
            if "if" in kinds and {"always", "keep"} & set(kinds[: len(kinds) - kinds[::-1].index("if") - 1]):
                told = "also of those in which the if decides otherwise"
                yield phrase, f"{phrase.word} speaks of all states to come, {told}"


def writers(program, phrase, seen=()):
    """The plain variables for which a formula says, in any case, what they are next: the names, with who binds them."""
    found = {}
    for part in certain(phrase):
        target = None
        if is_infix(part, "gets", ":=") or is_form(part, "stable"):
            target = part.parts[0]
        elif is_form(part, "keep") and is_infix(asks_next(part.parts[0]) or part, "="):
            target = next(without_next(it) for it in asks_next(part.parts[0]).parts if is_prefix(it, "next"))
        elif part.kind == "call" and program.definitions.get(part.word) not in (None, *seen):
            found.update(called_writers(program, part, seen))
        if target is not None and target.kind == "name":
            found[program.owner[id(target)], target.word] = part
    return found


def called_writers(program, call, seen):
    definition = program.definitions[call.word]
    for (owner, name), _ in writers(program, definition.body, (*seen, definition)).items():
        if owner is None:
            yield (None, name), call
        elif owner is definition:
            place = call.parts[definition.parameters.index(name)]
            if place.kind == "name":
                yield (program.owner[id(place)], place.word), call


def two_writers(program):
    for phrase, _ in in_all(program):
        known = {}
        for conjunct in phrase.parts if phrase.kind == "and" else ():
            for variable, writer in writers(program, conjunct).items():
                if variable in known:
                    yield writer, f"{variable[1]} has another writer, on line", known[variable]
                known.setdefault(variable, writer)


# --- tests and turns


def or_test(program):
    for phrase, _ in in_all(program):
        parts = operands_of_or(phrase)
        truths = [it for it in parts if root_of(it.parts[0] if is_prefix(it, "not") else it)]
        for part in parts if truths else ():
            for name in part.parts if is_infix(part, "=") else ():
                if name.kind == "name" and not program.is_set(name):
                    says = f"say {name.word} = (.. or ..)"
                    yield part, f"an or is a test, which sets nothing, and nothing else sets {name.word}: {says}"


def operands_of_or(phrase):
    if not is_infix(phrase, "or"):
        return []
    left, right = phrase.parts
    return [*(operands_of_or(left) or [left]), *(operands_of_or(right) or [right])]


def set_with_number(program, binder, phrase):
    """The plain variable that an equation sets to what depends on the number of a turn or an instance. Where the other
    side is a place, the equation may set that."""
    if not is_infix(phrase, "=", "gets", ":="):
        return None
    one, two = phrase.parts
    for side, other in ((one, two), (two, one)) if phrase.word == "=" else ((one, two),):
        side = without_next(side)
        place = root_of(sized(without_next(other)))
        if side.kind != "name" or is_number(program, side) or place and not is_number(program, place):
            continue
        if getattr(program.owner[id(side)], "start", -1) < binder.start and program.has_bound(other, binder):
            return side
    return None


def static_turn(program):
    for phrase, above in in_all(program):
        for binder in (it for it in above if it.kind == "for"):
            name = set_with_number(program, binder, phrase) if is_infix(phrase, "=") else None
            if name and program.is_static(name):
                yield name, f"{name.word} is static, and has one value in all turns"


def always_turn(program):
    for phrase, _ in in_all(program):
        for part in certain(phrase.parts[1]) if phrase.kind == "for" else ():
            for inner in certain(part.parts[0]) if is_form(part, "always") else ():
                name = set_with_number(program, phrase, inner) if is_infix(inner, "=") else None
                if name:
                    yield part, f"two turns share a state, in which {name.word} would have two values: say keep"


def one_forall(program):
    for phrase, _ in in_all(program):
        for part in certain(phrase.parts[1]) if phrase.kind == "forall" else ():
            name = set_with_number(program, phrase, part)
            if name:
                yield part, f"all instances speak of one interval, and {name.word} would have several values in it"


RULES = (
    Rule("used-once", "A misspelled word is a variable that is true", used_once),
    Rule("lower-truth", "A misspelled word is a variable that is true", lower_truth),
    Rule("static-counter", "A lower-case name is static", static_counter),
    Rule("bound-number", "A bound name is a number", bound_number),
    Rule("open-if", "It takes everything after it", open_if),
    Rule("open-quantifier", "`exists` takes everything after it", open_quantifier),
    Rule("open-loop", "A loop takes what follows", open_loop),
    Rule("open-chop", "A chop wants parentheses", open_chop),
    Rule("open-projection", "`proj` takes all conjuncts in front of it", open_projection),
    Rule("fin-ends-nothing", "`fin` ends nothing", fin_ends_nothing),
    Rule("nothing-ends", "Nothing ends it", nothing_ends),
    Rule("turn-without-end", "A turn has no end", turn_without_end),
    Rule("next-always", "`always` asks in the last state too", next_always),
    Rule("next-next-keep", "Two states ahead there is none near the end", next_next_keep),
    Rule("gets-under-if", "`stable` and `gets` under an `if` speak of all states to come", gets_under_if),
    Rule("two-writers", "Who writes a shared variable, and when", two_writers),
    Rule("or-test", "`Z = X or Y` is a test", or_test),
    Rule("static-turn", "A lower-case name is static", static_turn),
    Rule("always-turn", "Neighbours share a state", always_turn),
    Rule("one-forall", "`forall` is no loop", one_forall),
)

if __name__ == "__main__":
    print(__doc__)
