"""FILE: its lines, its functions, and on which lines their statements stand.

The language has functions at the top alone, one statement a line, and a `:` outside brackets only behind a header, so that
tokens tell it. A text that stands alone as a statement has no code, and `else` and `finally` have none of their own.
"""

import re
from typing import List, NamedTuple

from .fault import Fault

TOKEN = re.compile(
    r"""(?P<joined>\\(?:\r\n|\r|\n))|(?P<blank>[ \t]+)|(?P<comment>\#[^\r\n]*)|(?P<end>\r\n|\r|\n)
    |(?P<text>'''(?:[^\\]|\\.)*?'''|\"\"\"(?:[^\\]|\\.)*?\"\"\"
        |'(?:[^'\\\r\n]|\\\r\n|\\.)*'|"(?:[^"\\\r\n]|\\\r\n|\\.)*")
    |(?P<number>[0-9][0-9A-Za-z_.]*)|(?P<name>[A-Za-z_][0-9A-Za-z_]*)|(?P<open>[(\[])|(?P<close>[)\]])|(?P<other>.)""",
    re.S | re.X,
)
LINE_END = re.compile(r"\r\n|\r|\n")
HEADERS = frozenset(("if", "elif", "while", "for", "try", "except", "else", "finally"))


class Token(NamedTuple):
    kind: str
    text: str
    line: int


class Function:
    """A `def`: its name, its first and last line, the lines of its statements, and whether it is a generator function."""

    def __init__(self, name, line):
        self.name = name
        self.line = line
        self.last = line
        self.statements: List[int] = []
        self.is_generator = False

    def add(self, tokens, begins):
        """Adds a logical line; the first one begins with the `def`."""
        self.last = tokens[-1].line + len(LINE_END.findall(tokens[-1].text))
        self.is_generator = self.is_generator or any(token.text == "yield" and token.kind == "name" for token in tokens)
        first = tokens[0]
        if not begins and first.text not in HEADERS:
            self.add_simple(tokens)
            return
        if not begins and first.text not in ("else", "finally"):
            self.statements.append(first.line)
        self.add_simple(behind_colon(tokens))

    def add_simple(self, tokens):
        if any(token.kind != "text" for token in tokens):
            self.statements.append(tokens[0].line)


def behind_colon(tokens):
    depth = 0
    for at, token in enumerate(tokens):
        if token.kind == "open":
            depth += 1
        elif token.kind == "close":
            depth = max(depth - 1, 0)
        elif token.text == ":" and depth == 0:
            return tokens[at + 1 :]
    return []


def logical_lines(text):
    """The logical lines as lists of tokens, each with whether it stands at the top."""
    tokens: List[Token] = []
    depth, line, is_top = 0, 1, True
    for found in TOKEN.finditer(text):
        kind, word = found.lastgroup, found.group()
        if kind == "end" and depth == 0:
            if tokens:
                yield tokens, is_top
            tokens, is_top = [], True
        elif kind == "blank":
            is_top = is_top and bool(tokens)
        elif kind not in ("joined", "comment", "end"):
            tokens.append(Token(kind, word, line))
        if kind == "open":
            depth += 1
        elif kind == "close":
            depth = max(depth - 1, 0)
        line += len(LINE_END.findall(word))
    if tokens:
        yield tokens, is_top


class Source:
    """FILE as the views need it. Code names are unique, and so is the function of a line."""

    def __init__(self, name, text):
        self.name = name
        self.lines = LINE_END.split(text)
        if self.lines[-1] == "":
            self.lines.pop()
        self.functions = {}
        function = None
        for tokens, is_top in logical_lines(text):
            begins = is_top and tokens[0].text == "def" and len(tokens) > 1
            if begins:
                function = self.functions.setdefault(tokens[1].text, Function(tokens[1].text, tokens[0].line))
            elif is_top:
                function = None
            if function is not None:
                function.add(tokens, begins)

    def executable(self):
        """The pairs of a function's name and a line on which it has code."""
        return [(name, line) for name, function in self.functions.items() for line in sorted(set(function.statements))]


def read_source(name, data):
    """FILE in `data`, UTF-8 with or without a byte order mark."""
    try:
        text = data.decode("utf-8-sig")
    except UnicodeDecodeError as error:
        line = len(LINE_END.findall(data[: error.start].decode("latin-1"))) + 1
        raise Fault(name, line, "it is not UTF-8") from None
    return Source(name, text)
