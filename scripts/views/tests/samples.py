"""What the tests read: the examples of examples/views, and small reports."""

import os

from ..listing import read_listing
from ..report import read_report
from ..source import read_source

ROOT = os.path.dirname(os.path.dirname(os.path.dirname(os.path.dirname(os.path.abspath(__file__)))))
FOLDER = os.path.join(ROOT, "examples", "views")
PLANS = ("fail", "pass", "refused")

LOOP = """\
def f(n):
    while n:
        n = g(n)
    return n

def g(n):
    return n - 1
"""
HEAD = """\
journal before use_tool_id 1 t = None
journal before register_callback 1 LINE keep = None at 0
journal before set_events 1 LINE = None at 0
thread 0 f
"""
END = "end 9 returned 0\n"


def bytes_of(name):
    with open(os.path.join(FOLDER, name), "rb") as file:
        return file.read()


def report(text):
    return read_report("R", text.encode("utf-8"))


def words():
    """FILE, its listing and a report of generators, exceptions and two threads."""
    source = read_source("words.py", bytes_of("words.py"))
    return source, read_listing("words.dis", bytes_of("words.dis"), source), read_report("words.report", bytes_of("words.report"))


def grades():
    """FILE, its listing and the reports of three plans."""
    source = read_source("grade.py", bytes_of("grade.py"))
    reports = [read_report(name, bytes_of(f"plans/{name}.report")) for name in PLANS]
    return source, read_listing("grade.dis", bytes_of("grade.dis"), source), reports


def frames(body, steps=20, ending="returned 0", kept=("PY_START", "PY_RETURN", "PY_UNWIND", "CALL", "RAISE", "LINE")):
    """A report of one thread f whose tool 2 keeps these events."""
    asked = "|".join(kept)
    head = "".join(f"journal before register_callback 2 {event} keep = None at 0\n" for event in kept)
    return report(f"{head}journal before set_events 2 {asked} = None at 0\nthread 0 f\n{body}end {steps} {ending}\n")
