"""The examples of examples/views: which words of `view` make which file, by which sources."""

import os
from typing import List, NamedTuple

FOLDER = "examples/views"
PLANS = [f"{FOLDER}/plans/{name}" for name in ("fail", "pass", "refused")]
GRADES = [f"{plan}.report" for plan in PLANS]
WORDS = ["--dis", f"{FOLDER}/words.dis", f"{FOLDER}/words.py", f"{FOLDER}/words.report"]


class Example(NamedTuple):
    """`view WORDS` writes OUT, of the folder of examples."""

    out: str
    words: List[str]


EXAMPLES = (
    Example("words.info", ["lcov", *WORDS]),
    Example("callgrind.out.words", ["callgrind", *WORDS]),
    Example("words.trace.json", ["trace", f"{FOLDER}/words.report"]),
    Example("words.html", ["html", *WORDS]),
    Example("grade.info", ["lcov", "--dis", f"{FOLDER}/grade.dis", f"{FOLDER}/grade.py", *GRADES]),
    Example("grade.html", ["html", "--dis", f"{FOLDER}/grade.dis", f"{FOLDER}/grade.py", *GRADES]),
)
# What ./ponduxe writes: a file of the folder, and its words.
PROGRAM = (
    Example("words.dis", ["dis", f"{FOLDER}/words.py"]),
    Example("words.report", ["replay", f"{FOLDER}/words.py", f"{FOLDER}/words.plan"]),
    Example("grade.dis", ["dis", f"{FOLDER}/grade.py"]),
    *(Example(os.path.relpath(f"{plan}.report", FOLDER), ["replay", f"{FOLDER}/grade.py", f"{plan}.plan"]) for plan in PLANS),
)
