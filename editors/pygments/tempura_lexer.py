"""A Pygments lexer for programs of tempura, executable interval temporal logic.

    pygmentize -x -l tempura_lexer.py:TempuraLexer -f html counter.tempura
"""

from pygments.lexer import RegexLexer, words
from pygments.token import Comment, Keyword, Name, Number, Operator, Punctuation, Whitespace

CONTROL = ("if", "then", "else", "while", "do", "repeat", "until", "for", "forall", "exists", "define", "run")
TEMPORAL = ("empty", "more", "skip", "next", "always", "keep", "fin", "halt", "stable", "sometimes", "gets", "len",
            "list", "input", "display", "proj")


class TempuraLexer(RegexLexer):
    """State variables are variables, static ones are constants, and a lower-case name in front of a `(` is a call."""

    name = "Tempura"
    aliases = ["tempura"]
    filenames = ["*.tempura"]

    tokens = {
        "root": [
            (r"[ \t\r\n]+", Whitespace),
            (r"/\*[^*]*\*+(?:[^/*][^*]*\*+)*/", Comment.Multiline),
            (words(CONTROL, prefix=r"\b", suffix=r"\b"), Keyword),
            (words(TEMPORAL, prefix=r"\b", suffix=r"\b"), Keyword.Pseudo),
            (words(("and", "or", "not", "div", "mod"), prefix=r"\b", suffix=r"\b"), Operator.Word),
            (words(("true", "false"), prefix=r"\b", suffix=r"\b"), Keyword.Constant),
            (r"[a-z][A-Za-z0-9_]*(?=\s*\()", Name.Function),
            (r"[A-Z][A-Za-z0-9_]*", Name.Variable),
            (r"[a-z][A-Za-z0-9_]*", Name.Constant),
            (r"[0-9]+", Number.Integer),
            (r":=|<-|<=|>=|<>|[-+*=<>|;:]", Operator),
            (r"[(){}\[\],.]", Punctuation),
        ]
    }
