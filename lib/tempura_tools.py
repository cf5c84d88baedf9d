"""What the tools over proved runs share: their words, the program, the libraries, and many runs at once.

Python 3.9 or later, with its standard library alone; as a program, it prints what it is and does nothing.
"""

import concurrent.futures
import contextlib
import os
import re
import subprocess
import sys
import tempfile

import tempura_source

LIBRARY = os.path.dirname(os.path.realpath(__file__))  # in a checkout lib, and lib/tempura where it is installed
CHECKOUT = os.path.dirname(LIBRARY)
COMMAND = "tempura" if os.path.isfile(f"{LIBRARY}/record") else "bin/tempura"
FIND = 'here=$1 lib=$2; . "$lib/proved.sh" && find_proved && is_current && printf %s "$program"'


class Tool:
    """A script over runs: `name` stands in front of what it says, and `page` begins with the line of its words."""

    def __init__(self, name, page):
        self.name, self.page = name, page

    def tell(self, what):
        print(f"{self.name}: {what}", file=sys.stderr)

    def refuse(self, why, status=1):
        self.tell(why)
        raise SystemExit(status)

    def start(self, main, fails=1):
        """Ends with what `main` gives of the words, or as one that fails where nobody reads the output any more."""
        try:
            raise SystemExit(main(sys.argv[1:]))
        except BrokenPipeError:
            os.dup2(os.open(os.devnull, os.O_WRONLY), sys.stdout.fileno())
            raise SystemExit(fails) from None
        except KeyboardInterrupt:
            raise SystemExit(130) from None

    def refuse_words(self):
        print(self.page.partition("\n")[0], file=sys.stderr)
        raise SystemExit(2)

    def words(self, given, files, valued=(), flags=()):
        """The options by name, and the `files` names. `--use` stands any number of times, and any other option once."""
        if given in (["--help"], ["-h"]):
            print(self.page)
            raise SystemExit(0)
        options, names, left = {"--use": []}, [], list(given)
        while left:
            word = left.pop(0)
            option, is_one, value = word.partition("=") if word.startswith("--") else (word, "", "")
            if word == "--":
                names += left
                break
            if not word.startswith("-") or word == "-":
                names.append(word)
            elif word in flags and word not in options:
                options[word] = True
            elif option in valued and (is_one or left) and (option == "--use" or option not in options):
                value = value if is_one else left.pop(0)
                options[option] = options["--use"] + [value] if option == "--use" else value
            else:
                self.refuse_words()
        if len(names) != files:
            self.refuse_words()
        return options, names

    def number(self, options, name, least, most, usual=None):
        """The number of an option, within these bounds."""
        if name not in options:
            return usual
        text = options[name]
        if not re.fullmatch(r"[0-9]{1,18}", text) or not least <= int(text) <= most:
            self.refuse_words()
        return int(text)

    def bytes_of(self, name):
        """What a file holds, or the input where the name is `-`."""
        try:
            if name == "-":
                return sys.stdin.buffer.read()
            with open(name, "rb") as file:
                return file.read()
        except OSError:
            self.refuse(f"{'the input' if name == '-' else name} cannot be read")

    def library(self, uses):
        """The text of the libraries of these names, which stands in front of a source."""
        found = b""
        for use in dict.fromkeys(uses):
            name = f"{LIBRARY}/{use}.tempura"
            if not re.fullmatch(r"[a-z]+", use) or not os.path.isfile(name):
                self.refuse(f"no library has the name {use}; there are {', '.join(libraries())}", 2)
            found += self.bytes_of(name)
        return found

    def program(self):
        """The proved program of these sources, where it is."""
        words = ["sh", "-c", FIND, "sh", CHECKOUT, LIBRARY]
        found = subprocess.run(words, stdout=subprocess.PIPE, check=False)
        if found.returncode:
            self.refuse("no proved program of these sources is here; bin/tempura --build makes one", 20)
        return os.fsdecode(found.stdout)


def libraries():
    return sorted(it[: -len(".tempura")] for it in os.listdir(LIBRARY) if it.endswith(".tempura"))


class Asked:
    """A source that the program has read: its tree, and its canonical spelling with that one's tree.

    `lines` is how many lines the libraries have in front of it, `name` is its file's.
    """

    def __init__(self, tool, program, name, uses):
        library = tool.library(uses)
        self.name, self.lines = name, library.count(b"\n")
        self.data = library + tool.bytes_of(name)
        with tempfile.TemporaryDirectory() as folder:
            status, printed = ask(program, ["print"], folder, self.data)
        if status:
            tool.refuse(f"{name}: {self.told_here(last_line(printed))}")
        try:
            self.source = tempura_source.read_source(self.data)
            self.canonical = tempura_source.read_source(printed)
            is_same = self.source.is_as(self.canonical)
        except tempura_source.Unread:
            is_same = False
        if not is_same:
            tool.refuse(f"{name} is read otherwise than the program reads it; this is a fault of the tool")

    def place(self, at):
        """The line and the column of an offset, in the user's own file."""
        line, column = self.source.place(at)
        return line - self.lines, column

    def told_here(self, line):
        """A line of the program with the place of a refusal in the user's own file."""
        return re.sub(r"(?<=^source refused: line )\d+", lambda it: str(int(it[0]) - self.lines), line)

    def places(self):
        """The phrase of the source for each one of the canonical spelling, by identity."""
        found = {}
        for mine, its in zip(self.canonical.phrases(), self.source.phrases()):
            found.update((id(one), two) for one, two in zip(mine.below(), its.below()))
        return found


def ask(program, words, folder, data):
    """The status and the output of the program with these words and a source, which is written into the folder."""
    handle, name = tempfile.mkstemp(dir=folder)
    with os.fdopen(handle, "wb") as file:
        file.write(data)
    try:
        return answer(program, [*words, name])
    finally:
        os.unlink(name)


def answer(program, words):
    """The status and the output of the program with these words."""
    ran = subprocess.run([program, *words], stdin=subprocess.DEVNULL, stdout=subprocess.PIPE, check=False)
    return ran.returncode, ran.stdout


def last_line(printed):
    return printed.decode("utf-8", "replace").rstrip("\n").rpartition("\n")[2]


@contextlib.contextmanager
def at_once():
    """What runs several calls at once, as many as there are processors; those that wait go where one fails."""
    pool = concurrent.futures.ThreadPoolExecutor(os.cpu_count() or 1)
    try:
        yield pool
    except BaseException:
        pool.shutdown(wait=False, cancel_futures=True)
        raise
    pool.shutdown()


if __name__ == "__main__":
    print(__doc__)
