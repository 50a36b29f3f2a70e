"""Threads on a time line: the trace events of Chrome, for Perfetto. A step is a microsecond."""

import json

from .frames import ENTER, LEAVE, events, missing_events, moves

JOURNAL = 0
INSTANTS = frozenset(("RAISE", "EXCEPTION_HANDLED"))


def metadata(process, track, name, value):
    return {"ph": "M", "pid": process, "tid": track, "name": name, "args": {"name": value}}


def instant(process, track, step, name, **arguments):
    return {"ph": "i", "s": "t", "pid": process, "tid": track, "ts": step, "name": name, "args": arguments}


def slice_of(process, track, step, name):
    return {"ph": "X", "pid": process, "tid": track, "ts": step, "dur": 0, "name": name, "args": {}}


def journal(process, report):
    """The control calls; one that stopped the world stands at the largest of the threads' steps."""
    step = 0
    for entry in report.journal:
        step = step if entry.stops is None else max(entry.stops)
        at = {} if entry.stops is None else {"at": entry.stops}
        yield instant(process, JOURNAL, step, " ".join(entry.words), who=entry.who, reply=entry.reply, **at)


def slices(process, report, thread):
    """A slice for each stay in a frame, the outer before the inner."""
    found, open_slices = [], []
    for move in moves(report, thread):
        if move.kind == ENTER:
            open_slices.append(slice_of(process, thread.number + 1, move.step, move.code))
            found.append(open_slices[-1])
        elif move.kind == LEAVE:
            left = open_slices.pop()
            left["dur"] = move.step - left["ts"]
            if move.record is not None:
                left["args"] = {"left": f"{move.record.seen.event} {move.record.seen.first}"}
    return [one for one in found if one["dur"] > 0]


def whole_thread(process, thread):
    """The one slice that is known of a thread whose frames were not recorded."""
    one = slice_of(process, thread.number + 1, 0, thread.name)
    one["dur"] = thread.steps
    return [one] if thread.steps else []


def instants(process, thread):
    for record in events(thread):
        seen = record.seen
        if seen.event in INSTANTS:
            yield instant(process, thread.number + 1, record.step, seen.event, exception=seen.first, code=seen.code, offset=seen.at)


def write(reports):
    """The trace: a process for each report, in it a track for the journal and one for each thread."""
    found = []
    for process, report in enumerate(reports, 1):
        has_frames = not missing_events(report)
        found.append(metadata(process, JOURNAL, "process_name", report.name))
        found.append(metadata(process, JOURNAL, "thread_name", "journal"))
        found += [metadata(process, t.number + 1, "thread_name", f"thread {t.number} {t.name}: {t.ending}") for t in report.threads]
        found += journal(process, report)
        for thread in report.threads:
            found += slices(process, report, thread) if has_frames else whole_thread(process, thread)
            found += instants(process, thread)
    lines = ",\n".join(json.dumps(event, separators=(",", ":"), ensure_ascii=False) for event in found)
    return '{"displayTimeUnit":"ms","traceEvents":[\n' + lines + "\n]}\n"
