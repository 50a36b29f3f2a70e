"""The frames of a thread, as its records tell them: who entered whom at which step, and when each was left.

A thread begins in the frame of its function. A record of PY_START or PY_RESUME is of the first step of an entered frame, but that
a generator has made one step before its PY_START. PY_THROW is recorded by the step before. PY_RETURN, PY_YIELD and PY_UNWIND
are of a frame's last step. The call of a generator function makes one step in it, which gives the generator.
"""

from typing import NamedTuple, Optional

from .fault import Fault
from .journal import heard_throughout
from .report import Record
from .values import function_name

ENTER, LEAVE, SEEN = "enter", "leave", "seen"
ALWAYS = ("PY_START", "PY_RETURN", "PY_UNWIND")
GENERATORS = ("PY_RESUME", "PY_YIELD", "PY_THROW")
LEFT = frozenset(("PY_RETURN", "PY_YIELD", "PY_UNWIND"))


class Move(NamedTuple):
    """A frame of `code` is entered or left before the step, or something is seen in it."""

    kind: str
    step: int
    code: str
    record: Optional[Record]


def missing_events(report):
    """The events without which the frames are not known, and which no tool keeps in all code at each step."""
    seen = [seen for seen, _ in report.known]
    generators = any(s.event in GENERATORS or s.event == "PY_START" and s.at > 0 for s in seen)
    kept = heard_throughout(report)
    return [event for event in ALWAYS + (GENERATORS if generators else ()) if event not in kept]


def events(thread):
    """The thread's records, each event once, whichever tools recorded it."""
    last = None
    for record in thread.records:
        event = (record.step, *record.seen[1:])
        if event != last:
            yield record
        last = event


def entered(record, is_started):
    """The step before which the frame of a record was entered, or None."""
    seen = record.seen
    if seen.event == "PY_START" and not is_started:
        return record.step - max(seen.at // 2 - 1, 0)
    if seen.event == "PY_RESUME":
        return record.step
    return record.step + 1 if seen.event == "PY_THROW" else None


def made_generator(records, at, steps, generators):
    """The generator function that the CALL at `at` runs for its one step, or None."""
    record = records[at]
    name = function_name(record.seen.first) if record.seen.event == "CALL" else None
    if name not in generators or record.step + 1 >= steps:
        return None
    for later in records[at + 1 : at + 2]:
        is_first = later.seen.event == "INSTRUCTION" and later.seen.code == name
        if later.step <= record.step + 1 and not is_first:
            return None
    return name


def moves(report, thread, generators=frozenset()):
    """The moves of a thread in their order, for a report that misses no event."""
    records = list(events(thread))
    stack = [thread.name]
    yield Move(ENTER, 0, thread.name, None)
    for at, record in enumerate(records):
        code = record.seen.code
        if not stack:
            raise Fault(report.name, record.line, f"{thread.name} was left before, and the thread goes on")
        step = entered(record, record.step == 0)
        if step is not None:
            stack.append(code)
            yield Move(ENTER, step, code, record)
        yield Move(SEEN, record.step, code, record)
        if record.seen.event in LEFT:
            if stack.pop() != code:
                raise Fault(report.name, record.line, f"{code} is left here, and is not the innermost frame")
            yield Move(LEAVE, record.step + 1, code, record)
        made = made_generator(records, at, thread.steps, generators)
        if made is not None:
            yield Move(ENTER, record.step + 1, made, None)
            yield Move(LEAVE, record.step + 2, made, None)
    check_end(report, thread, stack, records)
    for code in reversed(stack):
        yield Move(LEAVE, thread.steps, code, None)


def check_end(report, thread, stack, records):
    """All frames are left where the thread ended; a generator function is left by its first step, which nothing records."""
    if not stack and records[-1].step + 1 < thread.steps:
        raise Fault(report.name, thread.end_line, f"{thread.name} was left before, and the thread goes on")
    if stack and thread.ending != "limit" and thread.steps > 1:
        raise Fault(report.name, thread.end_line, f"the thread ends, and {stack[-1]} was not left")
