"""The signals of a value change dump that a script takes, by the names of its words, and the ports that they get.

Python 3.9 or later, with its standard library alone; as a program, it prints what it is and does nothing.
"""

import collections
import gzip
import lzma
import os
import re
import sys

import tempura_inputs
import tempura_text
import tempura_vcd

LIMIT = 127  # bits of a number
VALUE = r"true|false|-?[0-9]{1,40}"
ONE_BIT = {"0": False, "false": False, "1": True, "true": True}


class Signal:
    """A variable with its port, and whether it is a number in two's complement; a signal of one bit is a truth value."""

    def __init__(self, tool, variable, is_signed):
        self.tool, self.variable, self.code, self.size = tool, variable, variable.code, variable.size
        self.is_signed, self.port = is_signed and variable.size > 1, None
        if not variable.has_bits:
            tool.refuse(f"{variable.path} is a {variable.kind}, which is no value of a program")
        if not 1 <= self.size <= LIMIT + self.is_signed:
            tool.refuse(f"{variable.path} has {self.size} bits, and a number has {LIMIT} at most")

    def value(self, values):
        """Its value among the bits of an edge, or None where it isn't known."""
        bits = values.get(self.code, "x")
        if self.size == 1:
            return ONE_BIT.get(bits)
        number = tempura_vcd.number_of(bits, self.size, self.is_signed)
        if number == -(2**LIMIT):
            self.tool.refuse(f"{self.variable.path} is {number}, and a number is {1 - 2**LIMIT} at least")
        return number


class Names:
    """The variables of a dump by their names, which are looked up in a scope first."""

    def __init__(self, tool, variables):
        codes = collections.defaultdict(set)
        for it in variables:
            codes[it.path].add(it.code)
        for it in variables:  # parts of one vector have one name, and are told apart by their ranges
            if len(codes[f"{'.'.join(it.scope)}.{it.name}"]) > 1:
                it.name += it.range
        self.tool, self.variables, self.scope = tool, variables, ()

    def matching(self, name):
        """The variables of that path; else that of the scope with that name; else those whose paths end so."""
        here = ".".join((*self.scope, name))
        for fits in (lambda path: path == name, lambda path: path == here, lambda path: path.endswith(f".{name}")):
            found = [it for it in self.variables if fits(it.path)]
            if found:
                return found
        return []

    def find(self, name):
        """The variable of that name, the outermost one where several are one signal."""
        found = self.matching(name)
        if not found:
            self.tool.refuse(f"the dump has no signal {name}")
        if len({it.code for it in found}) > 1:
            self.tool.refuse(f"{name} is {' or '.join(it.path for it in found)}; say more of the path")
        return min(found, key=lambda it: len(it.scope))

    def find_scope(self, name):
        scopes = list(dict.fromkeys(it.scope[:end] for it in self.variables for end in range(1, len(it.scope) + 1)))
        found = [it for it in scopes if ".".join(it) == name]
        found = found or [it for it in scopes if ".".join(it).endswith(f".{name}")]
        if not found:
            self.tool.refuse(f"the dump has no scope {name}")
        if len(found) > 1:
            self.tool.refuse(f"{name} is {' or '.join('.'.join(it) for it in found)}; say more of the path")
        return found[0]

    def of_scope(self, clock):
        """The variables of the scope but for the clock, and but for those that have no bits, which are told."""
        code = clock.code if clock else None
        found = {(it.code, it.name): it for it in self.variables if it.scope == self.scope and it.code != code}
        left = [f"{it.path} ({it.kind})" for it in found.values() if not it.has_bits]
        if left:
            self.tool.tell(f"left out, as they are no values of a program: {', '.join(left)}")
        if len(found) == len(left):
            self.tool.refuse(f"the scope {'.'.join(self.scope)} has no signal but the clock; say --scope or --signals")
        return [it for it in found.values() if it.has_bits]


def port_of(name):
    """The port for a name: the name itself where it can be one."""
    port = re.sub("[^A-Za-z0-9_]", "_", name.replace("]", ""))
    port = port if port[:1].isalpha() else f"p{port}"
    port = port if port[0].islower() else port.lower()
    return f"{port}_" if port.encode() in tempura_text.WORDS else port


class Choice:
    """What the words ask of a dump: its clock, its signals with their ports, and which edges are kept."""

    def __init__(self, tool, options, dump, tells_ports=True):
        self.tool, self.options, self.names = tool, options, Names(tool, dump.variables)
        self.tells_ports = tells_ports
        self.clock = self.names.find(options["--clock"]) if "--clock" in options else None
        if self.clock and (self.clock.size != 1 or not self.clock.has_bits):
            tool.refuse(f"{self.clock.path} is no signal of one bit")
        usual = self.clock.scope if self.clock else dump.variables[0].scope if dump.variables else ()
        self.names.scope = self.names.find_scope(options["--scope"]) if "--scope" in options else usual
        self.signed = {self.names.find(it).code for it in self.listed("--signed")}
        variables = [self.names.find(it) for it in self.listed("--signals")] or self.names.of_scope(self.clock)
        self.signals = [self.signal(it) for it in {(it.code, it.name): it for it in variables}.values()]
        self.name_ports(dict(self.renamed(it) for it in self.listed("--rename", r".+=[^=]+")))
        self.conditions = [self.condition(it) for it in self.listed("--when", rf".+=({VALUE})")]

    def listed(self, option, form=r".+"):
        """The parts of an option that are set apart by commas, each in this form."""
        parts = self.options[option].split(",") if option in self.options else []
        if not all(re.fullmatch(form, it, re.S) for it in parts):
            self.tool.refuse_words()
        return parts

    def signal(self, variable):
        return Signal(self.tool, variable, variable.is_signed or variable.code in self.signed)

    def renamed(self, part):
        """A signal and the port that the words give it."""
        name, _, port = part.rpartition("=")
        if not tempura_inputs.is_port(port):
            self.tool.refuse(f"{port} is no port: a name with a lower-case first letter that is no word", 2)
        variable = self.names.find(name)
        for signal in self.signals:
            if (signal.code, signal.variable.name) == (variable.code, variable.name):
                return signal, port
        return self.tool.refuse(f"{variable.path} isn't among the signals")

    def name_ports(self, renamed):
        """Gives each signal its port, and refuses two that would have one, or ones that differ in case alone."""
        seen = {}
        for signal in sorted(self.signals, key=lambda it: it not in renamed):
            path, signal.port = signal.variable.path, renamed.get(signal) or port_of(signal.variable.name)
            if not tempura_inputs.is_port(signal.port):
                self.tool.refuse(f"{path} has a name too long for a port; say --rename {path}=PORT")
            if self.tells_ports and signal not in renamed and signal.port != signal.variable.name:
                self.tool.tell(f"{path} is the port {signal.port}")
            alike = {("would be one port", signal.port)}
            if signal not in renamed:
                alike.add(("differ in case alone", signal.port.lower()))
            for key in sorted(alike, reverse=True):
                other = seen.setdefault(key, signal)
                if other is not signal:
                    self.tool.refuse(f"{other.variable.path} and {path} {key[0]}; say --rename {path}=PORT")

    def condition(self, part):
        name, _, text = part.rpartition("=")
        signal = self.signal(self.names.find(name))
        if text not in ONE_BIT if signal.size == 1 else text in ("true", "false"):
            bits = "1 bit" if signal.size == 1 else f"{signal.size} bits"
            self.tool.refuse(f"{signal.variable.path} is never {text}: it has {bits}")
        return signal, ONE_BIT[text] if signal.size == 1 else int(text)

    def keeps(self, edge):
        return all(signal.value(edge.values) == value for signal, value in self.conditions)

    def read(self):
        """The variables whose values are read of the dump."""
        return [it.variable for it in [*self.signals, *(signal for signal, _ in self.conditions)]]


def opened(tool, name):
    """The file of that name, or the input, as text; also a compressed one."""
    packed = {".gz": gzip.open, ".xz": lzma.open}.get(os.path.splitext(name)[1], open)
    try:
        return packed(sys.stdin.fileno() if name == "-" else name, "rt", encoding="utf-8", errors="replace")
    except OSError:
        return tool.refuse(f"{name} cannot be read")


if __name__ == "__main__":
    print(__doc__)
