"""The command line of `view`."""

import argparse
import os
import sys

from . import callgrind, fit, lcov, page, trace
from .fault import Fault
from .listing import read_listing
from .report import read_report
from .source import read_source

DONE, NO_REPORT, MISUSE = 0, 1, 2
STANDARD_INPUT = "standard input"
FORMS = {
    "lcov": (lcov.write, "lines, functions and branches reached, as an lcov tracefile", """\
DA has how often a line was reached, by records of LINE (1 where they are of `once`); FN and FNDA how often a function was
entered, by PY_START; BRDA how often each side of a branch was taken, by BRANCH, and needs --dis. The lines that have code are
those of --dis, or those of FILE's statements."""),
    "callgrind": (callgrind.write, "calls and steps by function and line, for KCachegrind and callgrind_annotate", """\
One tool or more have to `keep`, set by set_events before the first step, PY_START, PY_RETURN and PY_UNWIND, and with generators
PY_RESUME, PY_YIELD and PY_THROW. LINE gives the lines (or INSTRUCTION with --dis), CALL the calls of builtins and of generator
functions. A cost is a number of steps, one an instruction."""),
    "trace": (trace.write, "threads on a time line, as Chrome trace events, for Perfetto", """\
A track for each thread, a step as a microsecond; a slice for each frame, where the events that callgrind needs were kept, else
one for the thread; an instant for each RAISE and EXCEPTION_HANDLED; the journal's calls on a track of their own."""),
    "html": (page.write, "a page of its own to look at: FILE with what was reached", """\
Lines reached, missed and without code, counts, and branches of which one side was taken (with --dis), by tool and thread."""),
}
DESCRIPTION = "Turns reports of `replay` and `run` into the forms of other tools."
EPILOG = """\
REPORT is a path, or - for standard input, which is read where no report is named. Several reports are added up; trace shows them
side by side. FILE is the file that they are of, and LISTING what `dis` writes of it.

Status 0: done. 1: a report, FILE or LISTING is not what it should be, or a report is of another file, or tells too little; one
line on standard error says where. 2: misuse, or a file that cannot be read or written. Where the status is not 0 the file
behind -o is as it was."""


def tool(text):
    if text not in tuple("012345"):
        raise argparse.ArgumentTypeError("a tool is a number from 0 to 5")
    return int(text)


def parser():
    plain = argparse.RawDescriptionHelpFormatter
    top = argparse.ArgumentParser("view", description=DESCRIPTION, epilog=EPILOG, formatter_class=plain, allow_abbrev=False)
    commands = top.add_subparsers(dest="form", metavar="FORM", required=True)
    for form, (_, line, text) in FORMS.items():
        words = commands.add_parser(form, help=line, description=text, epilog=EPILOG, formatter_class=plain, allow_abbrev=False)
        words.add_argument("-o", metavar="OUT", help="write to this file, whole or not at all")
        words.add_argument("--tool", metavar="T", type=tool, action="append", help="only what this tool recorded; again for more")
        if form != "trace":
            words.add_argument("--dis", metavar="LISTING", help="the listing of FILE")
            words.add_argument("file", metavar="FILE")
        words.add_argument("reports", metavar="REPORT", nargs="*")
    return top


def parsed(arguments):
    """The words; reports may stand before options and behind them."""
    top = parser()
    words, more = top.parse_known_args(arguments)
    unknown = [word for word in more if word.startswith("-") and word != "-"]
    if unknown:
        top.error(f"unrecognized arguments: {' '.join(unknown)}")
    words.reports = words.reports + more or ["-"]
    paths = [*words.reports, getattr(words, "dis", None), getattr(words, "file", None)]
    if paths.count("-") > 1:
        top.error("standard input can be read once")
    return words


def read_path(path):
    """The name and the bytes of a file, or of standard input."""
    if path == "-":
        return STANDARD_INPUT, sys.stdin.buffer.read()
    with open(path, "rb") as file:
        return path, file.read()


def read_reports(words):
    reports = [read_report(*read_path(path)) for path in words.reports]
    return reports if words.tool is None else [report.of_tools(set(words.tool)) for report in reports]


def text_of(words):
    """What is to be written."""
    write = FORMS[words.form][0]
    if words.form == "trace":
        return write(read_reports(words))
    source = read_source(*read_path(words.file))
    listing = read_listing(*read_path(words.dis), source) if words.dis else None
    reports = read_reports(words)
    for report in reports:
        fit.check(report, source, listing)
    return write(source, listing, reports)


def write_standard(data):
    try:
        sys.stdout.buffer.write(data)
        sys.stdout.buffer.flush()
    except OSError:
        # What is left in the buffer is not tried again when Python ends.
        os.dup2(os.open(os.devnull, os.O_WRONLY), sys.stdout.fileno())
        raise


def write_out(path, data):
    """Writes all of it: a plain file gets its name when it is whole."""
    if path is None:
        write_standard(data)
        return
    path = os.path.realpath(path)
    if os.path.exists(path) and not os.path.isfile(path):
        with open(path, "wb") as file:
            file.write(data)
        return
    part = os.path.join(os.path.dirname(path), f".{os.path.basename(path)}.{os.getpid()}.part")
    try:
        with open(part, "xb") as file:
            file.write(data)
        os.replace(part, path)
    except BaseException:
        if os.path.exists(part):
            os.remove(part)
        raise


def main(arguments=None):
    words = parsed(arguments)
    try:
        write_out(words.o, text_of(words).encode("utf-8"))
    except Fault as fault:
        print(f"view: {fault}.", file=sys.stderr)
        return NO_REPORT
    except OSError as error:
        print(f"view: {error.filename or 'standard output'}: {error.strerror}.", file=sys.stderr)
        return MISUSE
    return DONE
