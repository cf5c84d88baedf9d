"""Judges a program against the expected runs of an exercise, and tells in words what differs first.

The exercises of docs/course stand in its folder `exercises`, and what isn't shown to students in `solutions`. Of the
exercise 05-write a case is 05-write.NAME.out, the run that is expected, with its table 05-write.NAME.inputs where the
program reads inputs; `NAME.` may be missing. The variables that stand in the expected run are those that are looked at.
Where a trace is asked for, a case is 03-write.NAME.true or 03-write.NAME.false: a formula that has to be true or false
of it. In `hints` 05-write.txt has lines `WORDS => HINT` or `WORDS & TEXT => HINT`: the hint is told where the case's
file name and the first failure, with a colon between, have these words, and the program has the text.
Python 3.8 or later, with its standard library alone; as a program, it prints what it is and does nothing.
"""

import os
import re
import resource
import subprocess
import tempfile

import tempura_text
from tempura_leads import lead_of_length, lead_of_value, leads_of_end, names_of, spelling_lead, text_of, trace_lead

OUTPUT_LIMIT = 16 << 20  # bytes that a run may print
TRACE_LIMIT = 40  # states of a trace that is written by hand
MORE_STATES = 8  # how many states a run may go on behind the last one that is expected
SOURCE_LIMIT = 1 << 20

# what leads to a mistake
SLOW = "The work in one state grows too fast, or there are too many states: look at loops, `forall` and recursion."
OTHER_TABLE = "With the table that the exercise shows it is right: is something said that holds with that one alone?"
LARGE = "Look for lists that grow, and for locals and calls that are made again and again in one state."


class NoProgram(Exception):
    """No program could answer: why."""


class Bounds:
    """What a run is given: seconds of processor, and bytes of memory."""

    def __init__(self, seconds=10, megabytes=1024):
        self.seconds, self.memory = seconds, megabytes << 20
        self.megabytes = megabytes

    def set_here(self):
        for kind, limit in (
            (resource.RLIMIT_AS, self.memory),
            (resource.RLIMIT_CPU, self.seconds),
            (resource.RLIMIT_FSIZE, OUTPUT_LIMIT),
            (resource.RLIMIT_CORE, 0),
        ):
            most = resource.getrlimit(kind)[1]
            if most != resource.RLIM_INFINITY:
                limit = min(limit, most)
            resource.setrlimit(kind, (limit, limit if kind != resource.RLIMIT_CPU else most))


class Failure:
    """What fails first: one line that says it, what leads to the mistake, and the case, once it is known.

    `is_of_length` tells of a state's values that it is better said by the length.
    """

    def __init__(self, line, leads=()):
        self.line, self.leads, self.case, self.is_of_length = line, list(leads), None, False

    def named(self):
        """The line, with the table with which it fails."""
        table = self.case and self.case.table
        return f"{self.line} ({os.path.basename(table)})" if table else self.line


class Case:
    """What is expected of a program: the file that tells it, of which kind it is, and its table or None."""

    def __init__(self, path, kind, table):
        self.path, self.kind, self.table = path, kind, table


def read(path, limit=SOURCE_LIMIT):
    with open(path, "rb") as file:
        return file.read(limit + 1)


class Course:
    """The exercises of a folder; with the cases of `extra` in place of those of its `solutions`, where it is given."""

    def __init__(self, folder, extra=None):
        self.shown = os.path.join(folder, "exercises")
        self.hidden = extra or os.path.join(folder, "solutions")
        self.told = os.path.join(folder, "hints")

    def exercises(self):
        names = os.listdir(self.shown) if os.path.isdir(self.shown) else []
        found = {re.match(r"(\d\d-(?:mend|write))\.(tempura|trace)$", name) for name in names}
        return {it[1]: it[2] for it in sorted(filter(None, found), key=lambda it: it[1])}

    def has_hidden(self):
        return os.path.isdir(self.hidden)

    def cases(self, exercise):
        """The cases of the exercise, those that students see first."""
        found = []
        for folder in (self.shown, self.hidden):
            for name in sorted(os.listdir(folder) if os.path.isdir(folder) else []):
                kind = re.fullmatch(re.escape(exercise) + r"(?:\.\w+)?\.(out|true|false)", name)
                if kind:
                    table = os.path.join(folder, name[: -len("out")] + "inputs")
                    has_table = kind[1] == "out" and os.path.isfile(table)
                    found.append(Case(os.path.join(folder, name), kind[1], table if has_table else None))
        return found

    def hints(self, exercise):
        """Triples: words, a text, and the hint that is told where a failure has the words and the program the text."""
        path = os.path.join(self.told, f"{exercise}.txt")
        if not os.path.isfile(path):
            return []
        rows = [line.partition(" => ") for line in read(path).decode().splitlines()]
        return [(*words.partition(" & ")[::2], hint) for words, _, hint in rows if hint]


class Tempura:
    """Runs programs by bin/tempura, within bounds."""

    def __init__(self, command, bounds):
        self.command, self.bounds = command, bounds

    def run_source(self, source, words=()):
        """The bytes that the run of a source prints, or the Failure that keeps it from printing them all.

        It is run from a file of its own, so the name of its own file may be any.
        """
        with tempfile.NamedTemporaryFile(suffix=".tempura") as file:
            file.write(source)
            file.flush()
            return self.run([*words, "--", file.name])

    def run(self, words):
        with tempfile.TemporaryFile() as out, tempfile.TemporaryFile() as errors:
            try:
                status = subprocess.run(
                    [self.command, "run", *words],
                    stdin=subprocess.DEVNULL,
                    stdout=out,
                    stderr=errors,
                    env={**os.environ, "TEMPURA_PROVED": "only"},
                    preexec_fn=self.bounds.set_here,
                    timeout=20 * self.bounds.seconds + 60,
                    check=False,
                ).returncode
            except subprocess.TimeoutExpired:
                status = -24
            out.seek(0)
            errors.seek(0)
            return self.answer(status, out, errors.read(1000).decode("utf-8", "replace").strip())

    def answer(self, status, out, errors):
        if status == -24:  # SIGXCPU
            return Failure(f"it has not ended after {self.bounds.seconds} seconds of processor", [SLOW])
        if status == -9:
            return Failure("the system has ended it, as it does where memory is wanted", [LARGE])
        if status == -25:  # SIGXFSZ
            return Failure(f"it prints more than {OUTPUT_LIMIT >> 20} MiB", [SLOW])
        if status == 16:
            return Failure(f"it asks for more than {self.bounds.megabytes} MiB of memory", [LARGE])
        if status == 20:
            raise NoProgram(re.sub(r"^tempura: ", "", errors))
        if status in (126, 127):
            raise NoProgram(f"{self.command} can't be started within {self.bounds.megabytes} MiB of memory")
        if not 0 <= status <= 14:
            return Failure(f"its run ends with the status {status}")
        return out.read(OUTPUT_LIMIT)

    def cure(self, line):
        """What docs/ENDS.md says to do about an end line."""
        said = subprocess.run(
            [self.command, "explain", line], stdout=subprocess.PIPE, stderr=subprocess.DEVNULL, check=False
        ).stdout.decode("utf-8", "replace")
        last = said.strip().split("\n\n")[-1]
        return " ".join(last.split())


def values(state, watched):
    return {part.place: part.text for part in state.parts if part.name in watched}


def said(place, expected, got):
    if got is None:
        return f"nothing says what {place} is, and it should be {expected}"
    if expected is None:
        return f"{place} is {got}, and nothing should be said of it there"
    return f"{place} is {got}, and should be {expected}"


def compare_state(meant, got, number, watched, source):
    """The first failure in a state that both runs have, or None."""
    rows = [values(it, watched) for it in got.states]
    expected = [values(it, watched) for it in meant.states]
    places = dict.fromkeys([*expected[number], *rows[number]])
    wrong = [it for it in places if expected[number].get(it) != rows[number].get(it)]
    if wrong:
        # of a list that is known in part, the list itself is told, and not each of its items
        first = [it for it in wrong if it in expected[number]] or wrong
        line = "; ".join(said(it, expected[number].get(it), rows[number].get(it)) for it in first[:3])
        failure = Failure(f"state {number}: {line}", lead_of_value(rows, expected, number, first[0], source))
        failure.is_of_length = is_of_length(meant, got, number) and all(
            None in (expected[number].get(it), rows[number].get(it)) for it in wrong
        )
        return failure
    shows = (meant.states[number].shows, got.states[number].shows)
    if shows[0] != shows[1]:
        told = [f"`show {'`, `show '.join(it)}`" if it else "nothing" for it in shows]
        return Failure(f"state {number}: it shows {told[1]}, and should show {told[0]}")
    return None


def is_of_length(meant, got, number):
    """Whether this state is the last one of one of two runs, and the other one goes on."""
    last = len(meant.states) - 1
    has_ended = got.end.kind == meant.end.kind == "finished" and number + 1 == len(got.states) <= last
    return has_ended or number == last and len(got.states) > last + 1


def compare(tempura, meant, got, source, given):
    """The first failure of a run, or None."""
    watched = {part.name for state in meant.states for part in state.parts}
    for number in range(len(meant.states)):
        if number == len(got.states):
            break
        failure = compare_state(meant, got, number, watched, source)
        if failure and not failure.is_of_length:
            static = re.fullmatch(r"([a-z]\w*)=.* and \1=.*", got.end.told)
            first = spelling_lead(source, watched, given) + (leads_of_end(got, source, tempura.cure) if static else [])
            failure.leads = first or failure.leads
            return failure
    last = len(meant.states) - 1
    leads = [lead_of_length(source, len(got.states) <= last)]
    if len(got.states) > last + 1:
        again = "" if got.end.kind == "finished" else f" ({got.end.line})"
        return Failure(f"state {last}: it goes on behind this state, which should be the last{again}",
                       leads_of_end(got, source, tempura.cure) if again else leads)
    if got.end.kind == meant.end.kind == "finished" and len(got.states) <= last:
        ended = len(got.states) - 1
        return Failure(f"state {ended}: it ends with this state, and should go on to state {last}", leads)
    if got.end.kind != meant.end.kind:
        return Failure(got.end.line, spelling_lead(source, watched, given) + leads_of_end(got, source, tempura.cure))
    return None


def judge_run(tempura, case, source, given):
    meant = tempura_text.read_run(read(case.path, OUTPUT_LIMIT))
    words = ["--states", str(len(meant.states) + MORE_STATES)]
    words += ["--inputs", case.table] if case.table else []
    answer = tempura.run_source(source, words)
    if isinstance(answer, Failure):
        return answer
    return compare(tempura, meant, tempura_text.read_run(answer), source, given)


def formula_of(trace):
    """The formula that is true of an interval exactly where it is the one of a trace."""
    rest = "empty"
    for state in reversed(trace.states):
        text = " and ".join([*(f"{part.place} = {part.text}" for part in state.parts), rest])
        rest = f"next ({text})"
    return text


def read_written(source):
    """The trace that was written by hand, or the Failure that it is none."""
    try:
        trace = tempura_text.read_run(source.strip() + b"\n")
    except tempura_text.Refused as refused:
        return Failure(str(refused), ["A line is as a run prints it: `state 1: A=2 B=true`, with no blank at the `=`, "
                                      "and the states in their order from 0 on."])
    if trace.end is None or trace.end.line != f"finished: length {len(trace.states) - 1}":
        return Failure(f"its last line isn't `finished: length {len(trace.states) - 1}`",
                       [f"It has {len(trace.states)} states; the length is the number of steps, one less."])
    if len(trace.states) > TRACE_LIMIT:
        return Failure(f"it has more than {TRACE_LIMIT} states")
    return trace


def judge_trace(tempura, case, source):
    """Whether the formula of a case is true, or false, of the trace: by a run of both."""
    trace = read_written(source)
    if isinstance(trace, Failure):
        return trace
    formula = read(case.path).decode().strip()
    answer = tempura.run_source(f"run ({formula_of(trace)}) and ({formula}).".encode())
    if isinstance(answer, Failure):
        return answer
    end = tempura_text.read_run(answer).end
    if end.kind == "undetermined":
        return Failure(f"state {end.state}: the trace doesn't say what {end.told} is, which `{formula}` needs")
    if (end.kind == "finished") == (case.kind == "true"):
        return None
    if end.kind == "finished":
        return Failure(f"`{formula}` is true of it, and should be false")
    if end.kind != "contradictory":
        return Failure(f"`{formula}`: {end.line}")
    lead = trace_lead(end, len(trace.states) - 1)
    return Failure(f"`{formula}` is false of it, and should be true: {end.line.partition(': ')[2]}", [lead])


def judge(tempura, course, exercise, path):
    """The first failure of a program, or None where it passes all cases; and how many cases there are."""
    cases = course.cases(exercise)
    if not os.path.isfile(path):
        return Failure("it isn't a file"), len(cases)
    try:
        source = read(path)
    except OSError as error:
        return Failure(f"it can't be read: {error.strerror}"), len(cases)
    given = names_of(read(os.path.join(course.shown, f"{exercise}.{course.exercises()[exercise]}")))
    for case in cases:
        by_run = case.kind == "out"
        failure = judge_run(tempura, case, source, given) if by_run else judge_trace(tempura, case, source)
        if failure:
            failure.case = case
            told = f"{os.path.basename(case.path)}: {failure.line}"
            text = text_of(source)
            hints = course.hints(exercise)
            hint = next((hint for words, of_text, hint in hints if words in told and of_text in text), None)
            other = [OTHER_TABLE] if case is not cases[0] and by_run else []
            failure.leads = [hint] if hint else failure.leads or other
            return failure, len(cases)
    return None, len(cases)


if __name__ == "__main__":
    print(__doc__)
