"""The rows behind the threads of a report: they follow from its records, and are held to them."""

from collections import Counter
from typing import List

KINDS = ("coverage", "lines", "calls", "branches")


def row_of(kind, seen):
    """What a record adds to: the words of its row but for the count, or None."""
    if kind in ("coverage", "lines") and seen.event == "LINE":
        return (seen.code, seen.at)
    if kind == "calls" and seen.event == "CALL":
        return (seen.code, seen.first)
    if kind == "branches" and seen.event == "BRANCH":
        return (seen.code, seen.at, seen.dest)
    return None


def due(kind, tool, threads) -> List[str]:
    """The rows of a `report` line of the plan, in some order."""
    seen = Counter(record.seen for thread in threads for record in thread.records if record.seen.tool == tool)
    counts: Counter = Counter()
    for what, count in seen.items():
        row = row_of(kind, what)
        if row is not None:
            counts[row] += count
    if kind != "coverage":
        return [" ".join(map(str, (kind, tool, *row, count))) for row, count in counts.items()]
    lines: dict = {}
    for code, line in sorted(counts):
        lines.setdefault(code, []).append(str(line))
    return [f"coverage {tool} {code} {' '.join(found)}" for code, found in lines.items()]


def check(reader, threads):
    """Takes the rows that are left, group by group."""
    kept: dict = {}
    while reader.at < len(reader.lines):
        kind, _, rest = reader.lines[reader.at].partition(" ")
        tool = rest[:1]
        if kind not in KINDS or tool not in tuple("012345"):
            reader.unknown_line()
        if (kind, tool) not in kept:
            kept[kind, tool] = due(kind, int(tool), threads)
        group(reader, kind, set(kept[kind, tool]))


def group(reader, kind, left):
    if not left:
        raise reader.fault(f"the records have no such row of {kind}", reader.at + 1)
    while left:
        if reader.at == len(reader.lines):
            raise reader.fault(f"the report ends inside the rows of {kind}", reader.at + 1)
        row = reader.lines[reader.at]
        if row not in left:
            raise reader.fault(f"this is not the row of {kind} that the records give", reader.at + 1)
        left.remove(row)
        reader.at += 1
