"""Counts of what was recorded: lines reached, functions entered, sides of branches taken.

An event that several tools recorded counts once. What was recorded under `once` alone counts 1, whatever the number of records:
the event was switched off there. For the same reason a branch that is known by `once` alone tells nothing of its other side.
"""

from collections import Counter
from typing import Dict, NamedTuple, Set, Tuple

from .fault import Fault

COUNTED = ("LINE", "PY_START", "BRANCH")


class Tally(NamedTuple):
    lines: Dict[Tuple[str, int], int]
    starts: Dict[str, int]
    branches: Dict[Tuple[str, int, int], int]
    kept_branches: Set[Tuple[str, int]]

    def sides(self, code, offset, dests):
        """How often each side of a branch was taken; None where it was not reached, or where that is not known."""
        counts = [self.branches.get((code, offset, dest), 0) for dest in dests]
        return counts if (code, offset) in self.kept_branches or all(counts) else None

    def is_reached(self, code, offset, dests):
        return any((code, offset, dest) in self.branches for dest in dests)


def key_of(seen):
    """What a record counts for."""
    if seen.event == "LINE":
        return (seen.code, seen.at)
    if seen.event == "BRANCH":
        return (seen.code, seen.at, seen.dest)
    return seen.code


def split(report):
    """The counted records of a report, as pairs of a thread's number and the record, and those of `once` apart."""
    kept, once = [], []
    for thread in report.threads:
        off = {(record.step, record.seen.tool, record.seen.event) for record in thread.disables}
        for record in thread.records:
            if record.seen.event in COUNTED:
                is_off = off and (record.step, record.seen.tool, record.seen.event) in off
                (once if is_off else kept).append((thread.number, record))
    return kept, once


def tally(kept, once):
    """The counts of records that stand in the order of a report."""
    counts = {event: {} for event in COUNTED}
    last = dict.fromkeys(COUNTED)
    seen_counts = Counter()
    for number, record in kept:
        step, seen, _ = record
        if last[seen.event] != (number, step):
            last[seen.event] = (number, step)
            seen_counts[seen] += 1
    for seen, count in seen_counts.items():
        key = key_of(seen)
        counts[seen.event][key] = counts[seen.event].get(key, 0) + count
    for _, record in once:
        counts[record.seen.event].setdefault(key_of(record.seen), 1)
    places = {(seen.code, seen.at) for seen in seen_counts if seen.event == "BRANCH"}
    return Tally(counts["LINE"], counts["PY_START"], counts["BRANCH"], places)


def tally_of(report):
    return tally(*split(report))


def check_lines(reports):
    """Without a record of LINE in any of the reports, nothing is known of lines."""
    if not any(seen.event == "LINE" for report in reports for seen, _ in report.known):
        raise Fault(reports[0].name, reports[0].threads[-1].end_line, "no LINE was recorded up to here, the last thread's end")
