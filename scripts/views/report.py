"""The reader of reports. It takes a whole report and nothing else; each fault has the number of its line."""

import re
from typing import Dict, List, NamedTuple, Optional, Tuple

from . import rows
from .events import CALLS, EVENTS, JUMPS, LOCAL, PLACES
from .fault import Fault, lines_of
from .journal import Entry, read_entry
from .values import called, is_cut, is_text, is_whole

NAME = "[A-Za-z_][A-Za-z0-9_]*"
NUMBER = "0|[1-9][0-9]{0,8}"
THREAD = re.compile(f"({NUMBER}) ({NAME})")
SEEN = re.compile(f"([0-5]) ([A-Z_]+) ({NAME}) ({NUMBER})(?: (.*))?")
END = re.compile(f"({NUMBER}) (?:(limit)|(returned|raised) (.*))")


class Seen(NamedTuple):
    """What a record says beside its step; `at` is an offset, or the line of LINE."""

    tool: int
    event: str
    code: str
    at: int
    dest: Optional[int] = None
    first: Optional[str] = None
    second: Optional[str] = None


class Record(NamedTuple):
    step: int
    seen: Seen
    line: int


class Thread:
    """A thread's part of a report."""

    def __init__(self, number, name, line):
        self.number = number
        self.name = name
        self.line = line
        self.printed: List[str] = []
        self.records: List[Record] = []
        self.disables: List[Record] = []
        self.steps = 0
        self.ending = ""
        self.end_line = line


class Report(NamedTuple):
    """A report; `known` has each thing that its records say, with the line on which it stands first."""

    name: str
    journal: List[Entry]
    threads: List[Thread]
    known: List[Tuple[Seen, int]]

    def of_tools(self, tools):
        """The report as if no other tool had recorded anything."""
        for thread in self.threads:
            thread.records = [record for record in thread.records if record.seen.tool in tools]
            thread.disables = [record for record in thread.disables if record.seen.tool in tools]
        journal = [entry for entry in self.journal if entry.tool is None or entry.tool in tools]
        return self._replace(journal=journal, known=[(seen, line) for seen, line in self.known if seen.tool in tools])


def arguments(event, text):
    """The fields of a record behind its offset, or None where they are ill-formed."""
    if event in PLACES:
        return () if text is None else None
    if text is None:
        return None
    if event in JUMPS:
        return (int(text),) if re.fullmatch(NUMBER, text) else None
    if event in CALLS:
        pair = called(text)
        return pair and (None, *pair)
    return (None, text) if is_cut(text) else None


class Reader:
    """Reads the lines of a report in their order."""

    def __init__(self, name, lines):
        self.name = name
        self.lines = lines
        self.at = 0
        self.known: Dict[str, Tuple[Seen, int]] = {}
        self.disabled: Dict[str, Tuple[Seen, int]] = {}

    def fault(self, sentence, line=None):
        return Fault(self.name, line or self.at, sentence)

    def next(self, word):
        """What stands behind `word` on the next line, which is taken, or None."""
        if self.at < len(self.lines) and self.lines[self.at].startswith(word + " "):
            self.at += 1
            return self.lines[self.at - 1][len(word) + 1 :]
        return None

    def report(self):
        journal = self.journal()
        counts = [entry.stops for entry in journal if entry.stops is not None]
        threads = []
        while True:
            text = self.next("thread")
            if text is None:
                break
            threads.append(self.thread(len(threads), text))
        self.check_size(counts, len(threads))
        self.check_stops(journal, threads)
        rows.check(self, threads)
        return Report(self.name, journal, threads, list(self.known.values()))

    def journal(self) -> List[Entry]:
        journal: List[Entry] = []
        while True:
            text = self.next("journal")
            if text is None:
                return journal
            entry = read_entry(text, self.at)
            if entry is None:
                raise self.fault("this is no call of a journal")
            if entry.who == "before" and journal and journal[-1].who != "before":
                raise self.fault("a call before the threads stands behind one of a script")
            journal.append(entry)

    def check_size(self, counts, threads):
        """The journal tells how many threads there are, so that a report that lacks one is found."""
        due = len(counts[0]) if counts else 0
        if threads < due or not due:
            self.unknown_line()
        if not counts:
            raise self.fault("no call of the journal began to listen, so that the report has nothing to show", self.at + 1)
        if threads < due:
            raise self.fault(f"the report ends before thread {threads} of {due}", self.at + 1)
        if threads > due:
            raise self.fault(f"the journal counts {due} threads, and not {threads}")
        if not due:
            raise self.fault("the report has no thread", self.at + 1)

    def unknown_line(self):
        if self.at < len(self.lines):
            raise self.fault("this line is of no known kind, or out of place", self.at + 1)

    def check_stops(self, journal, threads):
        last = [0] * len(threads)
        for entry in journal:
            if entry.stops is None:
                continue
            if len(entry.stops) != len(threads):
                raise self.fault(f"it counts {len(entry.stops)} threads, and not {len(threads)}", entry.line)
            if any(now < before for now, before in zip(entry.stops, last)):
                raise self.fault("a count of steps falls", entry.line)
            if any(now > thread.steps for now, thread in zip(entry.stops, threads)):
                raise self.fault("a count of steps is above the steps of its thread", entry.line)
            last = entry.stops

    def thread(self, number, text):
        head = THREAD.fullmatch(text)
        if head is None or int(head.group(1)) != number:
            raise self.fault(f"this is not the head of thread {number}")
        thread = Thread(number, head.group(2), self.at)
        self.printed(thread)
        self.records(thread)
        self.disables(thread)
        self.end(thread)
        return thread

    def printed(self, thread):
        while True:
            text = self.next("out")
            if text is None:
                return
            if not is_text(text):
                raise self.fault("this is no printed text")
            thread.printed.append(text)

    def records(self, thread):
        last = 0
        while True:
            text = self.next("rec")
            if text is None:
                return
            step, seen = self.step_and_seen(text, True)
            if step < last:
                raise self.fault("the step of a record falls")
            last = step
            thread.records.append(Record(step, seen, self.at))

    def disables(self, thread):
        recorded = None
        while True:
            text = self.next("disable")
            if text is None:
                return
            step, seen = self.step_and_seen(text, False)
            if recorded is None:
                recorded = {(record.step, *record.seen[:3]) for record in thread.records}
            if (step, *seen[:3]) not in recorded:
                raise self.fault("this disables what was not recorded at its step")
            thread.disables.append(Record(step, seen, self.at))

    def step_and_seen(self, text, is_record):
        step, _, rest = text.partition(" ")
        if not re.fullmatch(NUMBER, step):
            raise self.fault("a step is a number")
        known = self.known if is_record else self.disabled
        if rest not in known:
            known[rest] = (self.seen(rest, is_record), self.at)
        return int(step), known[rest][0]

    def seen(self, text, is_record):
        head = SEEN.fullmatch(text)
        if head is None:
            raise self.fault("this is no tool, event, code and place")
        tool, event, code, at, rest = head.groups()
        if event not in EVENTS:
            raise self.fault(f"{event} is no event")
        if is_record:
            more = arguments(event, rest)
        else:
            more = () if event in LOCAL and rest is None else None
        if more is None:
            raise self.fault(f"this is not what {event} carries")
        return Seen(int(tool), event, code, int(at), *more)

    def end(self, thread):
        text = self.next("end")
        if text is None:
            self.unknown_line()
            raise self.fault(f"the report ends inside thread {thread.number}", self.at + 1)
        ended = END.fullmatch(text)
        if ended is None or ended.group(4) is not None and not is_whole(ended.group(4)):
            raise self.fault("this is no end of a thread")
        thread.steps = int(ended.group(1))
        thread.ending = text.partition(" ")[2]
        thread.end_line = self.at
        for record in thread.records[-1:] + thread.disables[-1:]:
            if record.step >= thread.steps:
                raise self.fault(f"the thread ends after {thread.steps} steps", record.line)


def read_report(name, data):
    """The report in `data`."""
    return Reader(name, lines_of(name, data)).report()
