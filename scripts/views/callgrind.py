"""A profile in the form of callgrind: steps by function and line, and the calls between functions."""

from typing import Dict, List, NamedTuple, Optional, Tuple

from .fault import Fault
from .frames import ENTER, LEAVE, missing_events, moves

BUILT_IN = "built-in"


class Frame:
    """An open frame: its function, the line where it stands, who entered it from where, and at which step."""

    def __init__(self, code, line, caller, step):
        self.code = code
        self.line = line
        self.caller = caller
        self.step = step


class Site(NamedTuple):
    """A line of a function."""

    code: str
    line: int


class Costs:
    """The steps and the calls of all threads."""

    def __init__(self, source, listing):
        self.source = source
        self.listing = listing
        self.own: Dict[Site, int] = {}
        self.calls: Dict[Tuple[Site, str], List[int]] = {}
        self.stack: List[Frame] = []
        self.step = 0
        self.resumed: Dict[Tuple[str, int], int] = {}

    def add(self, report, thread, generators):
        self.stack, self.step, self.resumed = [], 0, {}
        for move in moves(report, thread, generators):
            if move.kind == ENTER:
                self.enter(move)
            elif move.kind == LEAVE:
                self.leave(move)
            else:
                self.see(move)

    def spend(self, step):
        """Gives the steps up to this one to the innermost frame."""
        if step > self.step:
            site = Site(self.stack[-1].code, self.stack[-1].line)
            self.own[site] = self.own.get(site, 0) + step - self.step
            self.step = step

    def call(self, site, callee, steps):
        counts = self.calls.setdefault((site, callee), [0, 0])
        counts[0] += 1
        counts[1] += steps

    def enter(self, move):
        caller: Optional[Site] = None
        if self.stack:
            self.spend(move.step)
            caller = Site(self.stack[-1].code, self.stack[-1].line)
        line = self.source.functions[move.code].line
        if move.record is not None and move.record.seen.event != "PY_START":
            line = self.resumed.get((move.code, move.record.seen.at), line)
        self.stack.append(Frame(move.code, line, caller, move.step))

    def leave(self, move):
        self.spend(move.step)
        frame = self.stack.pop()
        if frame.caller is not None:
            self.call(frame.caller, frame.code, max(move.step - frame.step, 0))

    def see(self, move):
        seen, frame = move.record.seen, self.stack[-1]
        line = self.line_of(seen)
        if line is not None and seen.code == frame.code and line != frame.line:
            self.spend(move.step)
            frame.line = line
        if seen.event == "PY_YIELD":
            self.resumed[seen.code, seen.at + 2] = frame.line
        if seen.event == "CALL" and seen.first.startswith(("<built-in ", "<class ")):
            self.call(Site(frame.code, frame.line), seen.first, 0)

    def line_of(self, seen):
        if seen.event == "LINE":
            return seen.at
        return None if self.listing is None else self.listing.line_at(seen.code, seen.at)


class Names:
    """Names of callgrind, numbered as they come: a name is written out once."""

    def __init__(self):
        self.numbers: Dict[str, int] = {}

    def write(self, name):
        if name in self.numbers:
            return f"({self.numbers[name]})"
        self.numbers[name] = len(self.numbers) + 1
        return f"({self.numbers[name]}) {name}"


def check(report):
    missing = missing_events(report)
    if missing:
        last = report.threads[-1].end_line
        raise Fault(report.name, last, f"no tool keeps {', '.join(missing)} in all code from the first step to the last")


def function_lines(source, costs, name, files, functions):
    """The block of a function: the steps of its lines, and the calls from them."""
    lines = sorted((site.line, count) for site, count in costs.own.items() if site.code == name)
    calls = sorted((site.line, callee, counts) for (site, callee), counts in costs.calls.items() if site.code == name)
    if lines or calls:
        yield f"fn={functions.write(name)}"
    for line, count in lines:
        yield f"{line} {count}"
    for line, callee, (count, steps) in calls:
        is_own = callee in source.functions
        yield f"cfi={files.write(source.name if is_own else BUILT_IN)}"
        yield f"cfn={functions.write(callee)}"
        yield f"calls={count} {source.functions[callee].line if is_own else 0}"
        yield f"{line} {steps}"


def write(source, listing, reports):
    """The profile of FILE, over all threads of all reports."""
    generators = {name for name, function in source.functions.items() if function.is_generator}
    costs = Costs(source, listing)
    for report in reports:
        check(report)
        for thread in report.threads:
            costs.add(report, thread, generators)
    files, functions = Names(), Names()
    total = sum(costs.own.values())
    text = ["# callgrind format", "version: 1", "creator: view", f"cmd: {source.name}", "positions: line", "events: Steps"]
    text += [f"summary: {total}", "", f"fl={files.write(source.name)}"]
    for name in source.functions:
        text += function_lines(source, costs, name, files, functions)
    text += ["", f"totals: {total}"]
    return "\n".join(text) + "\n"
