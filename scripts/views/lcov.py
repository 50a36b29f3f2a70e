"""Coverage in the form of lcov: a tracefile for genhtml, lcov, and what shows it in an editor."""

from .tally import check_lines, tally_of


def branch_lines(listing, tallies):
    """BRDA for each side of each branch: its offset is the block, side 0 goes on, side 1 jumps."""
    for name, code in listing.codes.items():
        for offset, dests in code.branches():
            known = [tally.sides(name, offset, dests) for tally in tallies]
            reached = any(tally.is_reached(name, offset, dests) for tally in tallies)
            if reached and not any(known):
                continue
            for side in (0, 1):
                taken = sum(counts[side] for counts in known if counts) if reached else "-"
                yield f"BRDA:{code.at(offset).line},{offset},{side},{taken}"


def function_lines(source, tallies):
    for name, function in source.functions.items():
        yield f"FN:{function.line},{name}"
    for name in source.functions:
        yield f"FNDA:{sum(tally.starts.get(name, 0) for tally in tallies)},{name}"


def write(source, listing, reports):
    """The tracefile of FILE. Each report is counted by itself, and the counts are added."""
    check_lines(reports)
    tallies = [tally_of(report) for report in reports]
    text = ["TN:", f"SF:{source.name}"]
    if any(tally.starts for tally in tallies):
        entered = list(function_lines(source, tallies))
        hit = sum(line.startswith("FNDA:") and not line.startswith("FNDA:0,") for line in entered)
        text += [*entered, f"FNF:{len(source.functions)}", f"FNH:{hit}"]
    if listing is not None and any(tally.branches for tally in tallies):
        sides = list(branch_lines(listing, tallies))
        taken = sum(not line.endswith((",0", ",-")) for line in sides)
        text += [*sides, f"BRF:{len(sides)}", f"BRH:{taken}"]
    executable = sorted((listing or source).executable(), key=lambda place: place[1])
    counts = [sum(tally.lines.get(place, 0) for tally in tallies) for place in executable]
    text += [f"DA:{line},{count}" for (_, line), count in zip(executable, counts)]
    text += [f"LF:{len(counts)}", f"LH:{sum(count > 0 for count in counts)}", "end_of_record"]
    return "\n".join(text) + "\n"
