"""Values as `repr` writes them in a report: whole, or cut at 40 characters."""

import re

CUT = 40
MISSING = "MISSING"
TOKEN = re.compile(
    r"""'(?:[^'\\]|\\.)*'|"(?:[^"\\]|\\.)*"|<(?:function|built-in|class|generator|iterator) [^<>]+>"""
    r"""|-?[0-9]+|None|True|False|[A-Za-z]+(?=\()|\(|\)|, |,(?=\))"""
)


def whole_end(text, start):
    """Where the whole value that begins at `start` ends, or None."""
    depth, at = 0, start
    while True:
        token = TOKEN.match(text, at)
        if token is None:
            return None
        word, at = token.group(), token.end()
        if word == "(":
            depth += 1
            continue
        if word == ")":
            depth -= 1
        if depth < 0 or depth == 0 and word[0] == ",":
            return None
        if depth == 0 and not (word.isalpha() and text.startswith("(", at)):
            return at


def cut_end(text, start):
    """Where the value that begins at `start` ends, which is cut at 40 characters, or None."""
    end = whole_end(text, start)
    if end is not None and end <= start + CUT:
        return end
    return start + CUT if len(text) >= start + CUT else None


def is_whole(text):
    return whole_end(text, 0) == len(text)


def is_cut(text):
    return cut_end(text, 0) == len(text)


def is_text(text):
    return text[:1] in ("'", '"') and is_whole(text)


def called(text):
    """The callee and the first argument of `CALLABLE ARG`, or None."""
    end = cut_end(text, 0)
    if end is None or text[end : end + 1] != " ":
        return None
    argument = text[end + 1 :]
    return (text[:end], argument) if argument == MISSING or is_cut(argument) else None


def function_name(callee):
    """The name in `<function NAME>`, where it is not cut off."""
    named = re.fullmatch(r"<function (\w+)>", callee)
    return named.group(1) if named else None
