"""A page of its own to look at: FILE with what was reached, by tool and thread."""

import html
import json
import os
import re
from typing import Dict, List, NamedTuple, Optional, Tuple

from .journal import heard_throughout, tool_names
from .tally import check_lines, split, tally

ALL = "all"
SIGNS = {
    "hit": ("✓", "reached"),
    "half": ("◐", "reached, a branch in one way alone"),
    "missed": ("✗", "missed"),
    "none": ("", ""),
}


class Branch(NamedTuple):
    """A branch: its function, line and offset, where its sides go, and what they are called."""

    code: str
    line: int
    offset: int
    dests: Tuple[int, int]
    names: Tuple[str, str]


class View(NamedTuple):
    """What one choice of a tool and a thread shows: counts of lines, and of the sides of the branches that were reached."""

    lines: Dict[int, int]
    sides: List[Optional[List[Optional[int]]]]


def branches_of(listing):
    for name, code in listing.codes.items() if listing else ():
        for offset, dests in code.branches():
            yield Branch(name, code.at(offset).line, offset, dests, tuple(code.way_from(dest) for dest in dests))


def sides_of(branch, tallies):
    """The counts of a branch, None where it was not reached, and a None for each side that is not known."""
    where = (branch.code, branch.offset, branch.dests)
    if not any(one.is_reached(*where) for one in tallies):
        return None
    known = [counts for counts in (one.sides(*where) for one in tallies) if counts]
    return [sum(side) for side in zip(*known)] if known else [None, None]


def view_of(tallies, branches):
    lines: Dict[int, int] = {}
    for one in tallies:
        for (_, line), count in one.lines.items():
            lines[line] = lines.get(line, 0) + count
    return View(lines, [sides_of(branch, tallies) for branch in branches])


def groups_of(report):
    """The counted records by tool and thread, and by thread alone, each with those of `once` apart."""
    groups: Dict[Tuple, Tuple[list, list]] = {(ALL, thread.number): ([], []) for thread in report.threads}
    for which, records in enumerate(split(report)):
        for pair in records:
            groups[ALL, pair[0]][which].append(pair)
            groups.setdefault((pair[1].seen.tool, pair[0]), ([], []))[which].append(pair)
    return groups


def joined(groups):
    return [sum(lists, []) for lists in zip(*groups)]


def parts_of(reports):
    """The counts of each report by tool and by thread, `all` for every one: (tool, report, thread) to a tally."""
    found = {}
    for number, report in enumerate(reports):
        groups = groups_of(report)
        for tool in {tool for tool, _ in groups}:
            of_tool = {thread: group for (other, thread), group in groups.items() if other == tool}
            found[tool, number, ALL] = tally(*joined([of_tool[thread] for thread in sorted(of_tool)]))
            found.update(((tool, number, thread), tally(*group)) for thread, group in of_tool.items())
    return found


def choices(reports, branches):
    """What each choice shows, by a tool and a place: all reports, one (`r`), or a thread of one (`r.t`)."""
    parts = parts_of(reports)
    tools = sorted({tool for tool, _, _ in parts}, key=str)
    places = [(ALL, [(number, ALL) for number in range(len(reports))])]
    for number, report in enumerate(reports):
        places.append((str(number), [(number, ALL)]))
        places += [(f"{number}.{thread.number}", [(number, thread.number)]) for thread in report.threads]
    for tool in tools:
        for place, held in places:
            tallies = [parts[(tool, *key)] for key in held if (tool, *key) in parts]
            yield (tool, place), view_of(tallies, branches)


def state_of(line, executable, view, branches):
    """The class of a line, as page.js tells it again."""
    if line not in executable:
        return "none"
    if not view.lines.get(line):
        return "missed"
    sides = [sides for branch, sides in zip(branches, view.sides) if branch.line == line and sides]
    return "half" if any(0 in counts for counts in sides) else "hit"


def side_text(branch, sides):
    """What is said of a branch below its line."""
    if sides is None:
        return ""
    if sides[0] is None:
        return f"branch at {branch.offset}: recorded once, sides not known"
    ways = (f"{name} {f'×{count}' if count else 'never'}" for name, count in zip(branch.names, sides))
    return f"{'◐ ' if 0 in sides else ''}branch at {branch.offset}: {', '.join(ways)}"


def row(number, text, state, count, notes):
    sign, title = SIGNS[state]
    indent = len(text) - len(text.lstrip(" "))
    below = "".join(f'<div class="side" data-branch="{at}">{html.escape(note)}</div>' for at, note in notes)
    return (
        f'<tr id="L{number}" class="{state}"><td class="sign" title="{title}">{sign}</td><td class="number">{number}</td>'
        f'<td class="count">{count}</td><td class="code"><pre style="--indent:{indent}">{html.escape(text)}</pre>{below}</td></tr>'
    )


def rows(source, executable, view, branches):
    for number, text in enumerate(source.lines, 1):
        notes = [(at, side_text(branch, view.sides[at])) for at, branch in enumerate(branches) if branch.line == number]
        count = view.lines.get(number, 0) if number in executable else ""
        yield row(number, text, state_of(number, executable, view, branches), count, notes)


def options(pairs):
    return "".join(f'<option value="{value}">{html.escape(text)}</option>' for value, text in pairs)


def tool_text(tool, names):
    return f"tool {tool} {names[tool]}" if tool in names else f"tool {tool}"


def place_options(reports):
    groups = []
    for number, report in enumerate(reports):
        threads = [(f"{number}.{t.number}", f"thread {t.number} {t.name}: {t.ending[:60]}") for t in report.threads]
        one = [(str(number), "all of its threads")] if len(reports) > 1 else []
        groups.append(f'<optgroup label="{html.escape(report.name)}">{options(one + threads)}</optgroup>')
    return options([(ALL, "all threads")]) + "".join(groups)


def sums(view, executable):
    """The words on how much of the file was reached."""
    hit = sum(1 for line in executable if view.lines.get(line))
    reached = [counts for counts in view.sides if counts and counts[0] is not None]
    taken = sum(count > 0 for counts in reached for count in counts)
    text = f"{hit} of {len(executable)} lines reached"
    return text + (f", {taken} of {2 * len(view.sides)} sides of branches taken" if view.sides else "")


def table(views, reports, names, executable):
    """The sums by tool and thread, for those who read without choosing."""
    for (tool, place), view in views.items():
        if tool == ALL or "." not in place:
            continue
        number, thread = map(int, place.split("."))
        where = f"{reports[number].name}, thread {thread} {reports[number].threads[thread].name}"
        cells = (tool_text(tool, names), where, sums(view, executable))
        yield "<tr>" + "".join(f"<td>{html.escape(cell)}</td>" for cell in cells) + "</tr>"


def missed_text(executable, view):
    missed = [line for line in sorted(executable) if not view.lines.get(line)]
    return "Missed: " + ", ".join(f'<a href="#L{line}">{line}</a>' for line in missed) if missed else "No line was missed."


def warning(reports):
    if all("LINE" in heard_throughout(report, ("keep", "once")) for report in reports):
        return ""
    return '<p class="warning">Not all code was listened to at each step: a line marked as missed may have been reached.</p>'


def data_of(views, executable, branches):
    shown = {f"{tool}|{place}": [view.lines, view.sides] for (tool, place), view in views.items()}
    known = {"executable": sorted(executable), "branches": [[b.line, b.offset, b.names] for b in branches], "views": shown}
    return json.dumps(known, separators=(",", ":"), ensure_ascii=False).replace("<", "\\u003c")


def part(name):
    """A file that stands beside this one."""
    with open(os.path.join(os.path.dirname(__file__), name), encoding="utf-8") as file:
        return file.read()


def write(source, listing, reports):
    """The page of FILE, over all reports."""
    check_lines(reports)
    branches = list(branches_of(listing)) if any(s.event == "BRANCH" for report in reports for s, _ in report.known) else []
    executable = {line for _, line in (listing or source).executable()}
    views = dict(choices(reports, branches))
    view = views[ALL, ALL]
    names: Dict[int, str] = {}
    for report in reports:
        names.update(tool_names(report))
    tools = sorted({tool for tool, _ in views if tool != ALL})
    fields = {
        "title": html.escape(source.name),
        "style": part("page.css"),
        "script": part("page.js"),
        "sums": sums(view, executable),
        "warning": warning(reports),
        "tools": options([(ALL, "all tools"), *((tool, tool_text(tool, names)) for tool in tools)]),
        "places": place_options(reports),
        "missed": missed_text(executable, view),
        "rows": "\n".join(rows(source, executable, view, branches)),
        "table": "\n".join(table(views, reports, names, executable)),
        "data": data_of(views, executable, branches),
    }
    return re.sub(r"\{\{(\w+)\}\}", lambda field: fields[field.group(1)], part("page.html"))
