#!/usr/bin/env python3
"""How the time and the memory of `check` grow: bench/watching/growth.py PROGRAM

Over the states of a trace with a formula of 100 operators, and over operators on 400 states. The formula is a row of
chops whose parts are choices, so half of its operators are chops. Beside it run two small programs in C++, if a
compiler is here, which are given the values and do the chops alone: the plain loop over three states for each chop,
with a byte for each part of the trace, and one over rows of words of 64 bits. All have to give the same answer. Each
time is the least of three. Ends with 0, or with 1 where the answers differ.
"""

import os
import random
import shutil
import subprocess
import sys
import tempfile
import time

STATES, OPERATORS = (100, 200, 400), (25, 50, 100, 200)
MOST_STATES, USUAL_OPERATORS = 400, 100
PLAIN_SHARE, ROWS_TIMES = 5, 3  # at most a fifth of the plain loop's time, and at most three times that of the rows

# both begin with this; a table says of each part whether the formula holds, and another whether it may hold
FRONT = r"""
#include <bits/stdc++.h>
using namespace std;
int states, chops;
vector<char> a, b;  // 0 is false, 1 is true, 2 isn't told
void read_all(char **words) {
    chops = atoi(words[1]);
    for (const char *at = words[2]; *at; at++) a.push_back(*at - '0');
    for (const char *at = words[3]; *at; at++) b.push_back(*at - '0');
    states = a.size();
}
// if A then skip else B, from state i to state j
bool leaf(int i, int j, bool may) {
    char yes = may ? 2 : 1;
    bool then = (a[i] == 1 || a[i] == yes) && j == i + 1;
    bool other = (a[i] == 0 || a[i] == yes && may) && (b[i] == 1 || b[i] == yes);
    return then || other;
}
const char *answer(bool holds, bool may) { return holds ? "holds" : may ? "open" : "does not hold"; }
"""
PLAIN = r"""
typedef vector<vector<char>> Table;
Table leaves(bool may) {
    Table t(states, vector<char>(states));
    for (int i = 0; i < states; i++) for (int j = i; j < states; j++) t[i][j] = leaf(i, j, may);
    return t;
}
bool whole(bool may) {
    Table found = leaves(may);
    for (int n = 0; n < chops; n++) {
        Table first = leaves(may), made(states, vector<char>(states));
        for (int i = 0; i < states; i++)
            for (int j = i; j < states; j++)
                for (int k = i; k <= j; k++)
                    made[i][j] |= first[i][k] & found[k][j];
        found = made;
    }
    return found[0][states - 1];
}
int main(int, char **words) { read_all(words); puts(answer(whole(false), whole(true))); }
"""
ROWS = r"""
typedef vector<vector<uint64_t>> Table;
Table leaves(bool may) {
    Table t(states, vector<uint64_t>((states + 63) / 64));
    for (int i = 0; i < states; i++)
        for (int j = i; j < states; j++) t[i][j / 64] |= uint64_t(leaf(i, j, may)) << j % 64;
    return t;
}
bool whole(bool may) {
    Table found = leaves(may);
    for (int n = 0; n < chops; n++) {
        Table first = leaves(may), made(states, vector<uint64_t>((states + 63) / 64));
        for (int i = 0; i < states; i++)
            for (int k = i; k < states; k++)
                if (first[i][k / 64] >> k % 64 & 1)
                    for (size_t w = k / 64; w < made[i].size(); w++) made[i][w] |= found[k][w];
        found = made;
    }
    return found[0][(states - 1) / 64] >> (states - 1) % 64 & 1;
}
int main(int, char **words) { read_all(words); puts(answer(whole(false), whole(true))); }
"""
# runs a program, and tells the most memory that it took, in kilobytes
MEASURE = r"""
#include <bits/stdc++.h>
#include <sys/resource.h>
#include <sys/wait.h>
#include <unistd.h>
int main(int, char **words) {
    pid_t child = fork();
    if (!child) { execv(words[1], words + 1); _exit(127); }
    int status;
    struct rusage used;
    wait4(child, &status, 0, &used);
    fprintf(stderr, "%ld", used.ru_maxrss);
}
"""
SPELLED = {"0": "false", "1": "true"}


def values(count, share):
    chance = random.Random(count)
    return "".join(chance.choice("01") if chance.random() < share else "2" for _ in range(count))


def state_line(number, one, two):
    parts = [f" {name}={SPELLED[value]}" for name, value in (("A", one), ("B", two)) if value in SPELLED]
    return f"state {number}:{''.join(parts)}\n"


class Measure:
    """Measures one program after the other on formulas and traces that it writes into a folder."""

    def __init__(self, program, folder):
        self.program, self.folder, self.faults, self.others, self.measure = program, folder, 0, [], None

    def build(self):
        compiler = shutil.which(os.environ.get("CXX", "g++")) or shutil.which("c++")
        if not compiler:
            print("check: beside it runs nothing, and no memory is told, as no C++ compiler is here")
            return
        for name, text in (("measure", MEASURE), ("plain loop", FRONT + PLAIN), ("rows", FRONT + ROWS)):
            made = f"{self.folder}/{name.replace(' ', '-')}"
            with open(f"{made}.cpp", "w", encoding="ascii") as file:
                file.write(text)
            subprocess.run([compiler, "-O2", "-w", "-o", made, f"{made}.cpp"], check=True)
            if name == "measure":
                self.measure = made
            else:
                self.others.append((name, made))

    def measured(self, words):
        """What a call prints, the least time of three in seconds, and the most memory in megabytes, as a text."""
        times, most = [], 0
        for _ in range(3):
            begun = time.monotonic()
            ran = subprocess.run(([self.measure] if self.measure else []) + words, stdin=subprocess.DEVNULL,
                                 capture_output=True, text=True, check=False)
            times.append(time.monotonic() - begun)
            most = max(most, int(ran.stderr.split()[-1]) if self.measure else 0)
        return ran.stdout.rstrip("\n").rpartition("\n")[2], min(times), f"{most / 1024:.1f} MB"

    def row(self, states, operators):
        source, trace, chops = f"{self.folder}/source", f"{self.folder}/trace", operators // 2
        one, two = values(states, 0.98), values(states + 1, 0.98)[:states]
        with open(source, "w", encoding="ascii") as file:
            file.write(f"run {' ; '.join(['(if A then skip else B)'] * (chops + 1))}.\n")
        with open(trace, "w", encoding="ascii") as file:
            file.writelines(state_line(number, *it) for number, it in enumerate(zip(one, two)))
            file.write(f"finished: length {states - 1}\n")
        answer, took, memory = self.measured([self.program, "check", source, "--with", trace])
        told = [f"check, {states} states, {operators} operators: {took * 1000:.1f} ms, {memory}, {answer}"]
        for name, made in self.others:
            its, its_time, its_memory = self.measured([made, str(chops), one, two])
            share = f"{took / its_time:.2f} times the {name} ({its_time * 1000:.1f} ms, {its_memory})"
            told.append(share + ("" if its == answer else f", WHICH SAYS {its}"))
            self.faults += its != answer
        print("; ".join(told))
        sys.stdout.flush()


def main(words):
    if words in (["--help"], ["-h"]):
        print(__doc__.strip())
        return 0
    if len(words) != 1:
        print("usage: bench/watching/growth.py PROGRAM", file=sys.stderr)
        return 2
    with tempfile.TemporaryDirectory(prefix="growth") as folder:
        measure = Measure(words[0], folder)
        measure.build()
        for states in STATES:
            measure.row(states, USUAL_OPERATORS)
        for operators in OPERATORS:
            measure.row(MOST_STATES, operators)
        print(f"check: the aim is 1/{PLAIN_SHARE} of the plain loop's time, and {ROWS_TIMES} times the rows', at most")
    return 1 if measure.faults else 0


if __name__ == "__main__":
    sys.exit(main(sys.argv[1:]))
