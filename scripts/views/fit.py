"""Whether a report is one of FILE, and of its listing where that is given."""

from .fault import Fault
from .listing import BRANCHES, JUMPS
from .values import function_name

OPS = {
    "PY_START": {"RESUME"}, "PY_RESUME": {"RESUME"}, "PY_RETURN": {"RETURN_VALUE"}, "PY_YIELD": {"YIELD_VALUE"},
    "CALL": {"CALL"}, "C_RETURN": {"CALL"}, "C_RAISE": {"CALL"}, "BRANCH": BRANCHES, "JUMP": JUMPS,
    "STOP_ITERATION": {"END_FOR"}, "EXCEPTION_HANDLED": {"PUSH_EXC_INFO"},
}


def check(report, source, listing=None):
    """Refuses a report with names, lines or offsets that FILE does not have."""
    for entry in report.journal:
        check_name(report, entry.line, entry.code, source)
    for thread in report.threads:
        check_name(report, thread.line, thread.name, source)
        for record in thread.disables:
            check_name(report, record.line, record.seen.code, source)
            check_offset(report, record.line, record.seen, listing)
    for seen, line in report.known:
        check_name(report, line, seen.code, source)
        if seen.event == "LINE":
            check_statement(report, line, seen, source)
        else:
            check_offset(report, line, seen, listing)
            check_op(report, line, seen, listing)
        if seen.first is not None:
            check_name(report, line, function_name(seen.first), source)


def check_name(report, line, name, source):
    if name is not None and name not in source.functions:
        raise Fault(report.name, line, f"{source.name} has no function {name}")


def check_statement(report, line, seen, source):
    if seen.at not in source.functions[seen.code].statements:
        raise Fault(report.name, line, f"{seen.code} has no statement on line {seen.at} of {source.name}")


def check_offset(report, line, seen, listing):
    if seen.at % 2 or listing is not None and listing.codes[seen.code].at(seen.at) is None:
        raise Fault(report.name, line, f"{seen.code} has no offset {seen.at}")


def check_op(report, line, seen, listing):
    """Without a listing nothing is known of the instruction at an offset."""
    if listing is None:
        return
    found = listing.codes[seen.code].at(seen.at)
    sides = (found.dest, seen.at + 2) if seen.event == "BRANCH" else (found.dest,)
    if found.op not in OPS.get(seen.event, {found.op}) or seen.dest is not None and seen.dest not in sides:
        raise Fault(report.name, line, f"the instruction at {seen.at} of {seen.code} makes no such {seen.event}")
