"""The one fault of what is read."""


class Fault(Exception):
    """A file that is not what it should be: its name, the line, counted from 1, and one sentence."""

    def __init__(self, name, line, sentence):
        super().__init__(f"{name}, line {line}: {sentence}")
        self.name = name
        self.line = line
        self.sentence = sentence


def lines_of(name, data):
    """The lines of a text that the program wrote: UTF-8, each ended by an LF."""
    try:
        text = data.decode("utf-8")
    except UnicodeDecodeError as error:
        line = data.count(b"\n", 0, error.start) + 1
        raise Fault(name, line, "it is not UTF-8") from None
    lines = text.split("\n")
    if lines.pop():
        raise Fault(name, len(lines) + 1, "it is cut off in the middle of this line")
    return lines
