"""Wider formulas and traces made by chance, in words that fit together more often than not."""

import random

NUMBERS, TRUTHS, LISTS = ("A", "B", "n"), ("P", "Q", "b"), ("L", "M", "t")
NAMES = NUMBERS + TRUTHS + LISTS
ENDS = (
    "finished: length {last}",
    "contradictory: state {next}: false",
    "undetermined: state {next}: end at depth 0",
    "state limit: {count}",
    "input missing: state {next}: port p",
)
REFUSED = (
    "(for i < 2 do skip)",
    "(forall i < 2 : P)",
    "(exists A : A = 1)",
    "(skip proj true)",
    "display(A)",
    "input(A, p)",
    "p(A)",
    "always(A, B)",
    "A + (next B)",
    "next A = next B",
    "(A + 1) gets 2",
    "len(skip)",
)


class Chance:
    """What one number makes: a source, and a trace."""

    def __init__(self, seed, index):
        self.random = random.Random(f"{seed}:{index}")
        self.count = self.pick(1, 1, 2, 2, 3, 3, 4, 4, 5, 6, 7)
        self.source = f"run {self.formula(self.pick(1, 2, 2, 3, 3, 4))}.\n"
        self.trace = self.traced()

    def pick(self, *choices):
        return self.random.choice(choices)

    def odds(self, share):
        return self.random.random() < share

    # --- expressions

    def number(self, depth):
        if depth <= 0 or self.odds(0.3):
            return self.pick(*NUMBERS, *NUMBERS, "0", "1", "2", "3", "L[0]", "M[A]", "t[1]")
        one, two = self.number(depth - 1), self.number(depth - 1)
        return self.pick(
            f"({one} {self.pick('+', '-', '*', 'div', 'mod')} {two})",
            f"(if {self.truth(depth - 1)} then {one} else {two})",
            f"(-{one})",
            f"|{self.list(depth - 1)}|",
            f"({self.list(depth - 1)})[{one}]",
            f"{self.pick('L', 'M', 't')}[{one}]",
            self.any(depth - 1) if self.odds(0.2) else one,
        )

    def truth(self, depth):
        if depth <= 0 or self.odds(0.3):
            return self.pick(*TRUTHS, *TRUTHS, "true", "false", "(A = 1)", "(B < 2)", "(n <> A)")
        one, two = self.truth(depth - 1), self.truth(depth - 1)
        return self.pick(
            f"(({one}) {self.pick('and', 'or')} ({two}))",
            f"(not ({one}))",
            f"({self.number(depth - 1)} {self.pick('<', '<=', '>', '>=', '=', '<>')} {self.number(depth - 1)})",
            f"({self.any(depth - 1)} {self.pick('=', '<>')} {self.any(depth - 1)})",
            f"(if {one} then ({two}) else ({self.truth(depth - 1)}))",
            self.any(depth - 1) if self.odds(0.2) else one,
        )

    def list(self, depth):
        if depth <= 0 or self.odds(0.5):
            return self.pick(*LISTS, "< >", "<1>", "<A,2>")
        pair = f"<{self.number(depth - 1)}, {self.number(depth - 1)}>"
        return self.pick(pair, f"({self.list(0)} + {self.list(0)})", "M[0]")

    def any(self, depth):
        return self.pick(self.number, self.number, self.truth, self.list)(depth)

    def place(self):
        return self.pick(*NAMES, "L[0]", "L[1]", "M[A]", "M[0][1]")

    # --- formulas

    def formula(self, depth):
        if self.odds(0.004):
            return self.pick(*REFUSED)
        if depth <= 0 or self.odds(0.12):
            return self.leaf()
        one, two = self.formula(depth - 1), self.formula(depth - 1)
        return self.pick(
            f"({one} and {two})",
            f"({one} and {two} and {self.formula(depth - 1)})",
            f"({one} or {two})",
            f"(({one}) or ({two}))",
            f"(not {one})",
            f"(not ({one}))",
            f"sometimes({one})",
            f"sometimes({one})",
            f"always({one})",
            f"always({one})",
            f"keep({one})",
            f"fin({one})",
            f"next ({one})",
            f"({one} ; {two})",
            f"({one} ; {two})",
            f"({one} ; {two})",
            f"(if {self.truth(1)} then {one} else {two})",
            f"(if {self.truth(1)} then {one})",
            f"(while {self.truth(1)} do {one})",
            f"(while {self.truth(1)} do (skip and {one}))",
            f"(repeat {one} until {self.truth(1)})",
        )

    def leaf(self):
        place = self.place()
        return self.pick(
            self.truth(1),
            self.truth(2),
            f"{self.number(1)} = {self.number(1)}",
            f"{self.any(1)} = {self.any(1)}",
            place,
            f"(not {place})",
            f"next {place} = {self.number(1)}",
            f"{self.number(1)} = next next {place}",
            f"next ({self.truth(1)})",
            f"{place} gets {self.any(1)}",
            f"{place} := {self.any(1)}",
            f"{place} <- {self.any(1)}",
            f"stable({place})",
            f"halt({self.truth(1)})",
            f"len({self.number(1)})",
            f"len({self.pick(0, 1, 2, 3)})",
            f"list({place}, {self.number(0)})",
            "empty",
            "more",
            "skip",
            "true",
            "false",
        )

    # --- traces

    def value(self, kind, depth=1):
        if kind == "number":
            return str(self.pick(0, 1, 1, 2, 3, -1))
        if kind == "truth":
            return self.pick("true", "false")
        kinds = ("number", "number", "truth", "list" if depth else "number")
        return f"<{','.join(self.value(self.pick(*kinds), 0) for _ in range(self.pick(0, 1, 2, 2)))}>"

    def kind(self, name):
        kind = "number" if name in NUMBERS else "truth" if name in TRUTHS else "list"
        return self.pick("number", "truth", "list") if self.odds(0.05) else kind

    def parts(self, name):
        kind = self.kind(name)
        if kind != "list" or self.odds(0.4):
            return [f"{name}={self.value(kind)}"]
        size = self.pick(0, 1, 2, 3)
        found = [f"|{name}|={size}"] if self.odds(0.7) else []
        return found + [f"{name}[{k}]={self.value('number')}" for k in range(size) if self.odds(0.6)]

    def traced(self):
        given = self.pick(0.3, 0.6, 0.8, 0.95, 1.0)
        lasting = {name: self.parts(name) for name in NAMES if name[0].islower()}
        states = []
        for _ in range(self.count):
            parts = []
            for name in self.random.sample(NAMES, len(NAMES)):
                if not self.odds(given):
                    continue
                if name[0].isupper() or self.odds(0.01):
                    parts += self.parts(name)
                elif self.odds(0.5):
                    told = lasting[name]
                    parts += told if self.odds(0.8) else [part for part in told if self.odds(0.5)]
            if self.odds(0.1):
                parts.append(f"Z={self.value('number')}")
            states.append(parts)
        return self.written(states).encode()

    def written(self, states):
        lines = []
        for number, parts in enumerate(states):
            lines.append(f"state {number}:{''.join(' ' + part for part in parts)}")
            if self.odds(0.1):
                others = ["show 1 <2>", "reductions 7", "residual: len(1) and A = 2"]
                lines += self.random.sample(others, self.pick(1, 2))
        if self.odds(0.9):
            last = len(states) - 1
            lines.append(self.pick(*ENDS).format(last=last, next=last + 1, count=last + 1))
        if self.odds(0.03):
            at = self.random.randrange(len(lines))
            lines[at] = self.pick(lines[at] + " ", "state 1:", "", f"x{lines[at]}", lines[at].replace("=", "==", 1))
        end = self.pick("\n", "\n", "\n", "\r\n")
        return end.join(lines) + (end if self.odds(0.9) else "")
