"""Runs FILE's thread under CPython 3.13's sys.monitoring and shows its LINE events beside those of a report.

    ./ponduxe replay examples/while_loop.py examples/while_loop.plan > report
    python3.13 examples/compare.py examples/while_loop.py report f 3

The report is one of a plan with one thread, whose tool keeps LINE. Behind it stand the function and its integers, as in the
plan's line `thread`. The exit status is 0 where the two lists are equal, and 1 where they differ.
"""

import contextlib
import io
import sys

TOOL = 1


def lines_here(path, name, args):
    """The lines that CPython reports, as pairs of a function and a line, and how the call ended."""
    with open(path, encoding="utf-8") as file:
        code = compile(file.read(), path, "exec")
    module = {}
    exec(code, module)
    seen = []
    monitoring = sys.monitoring
    monitoring.use_tool_id(TOOL, "compare")

    def at_line(code, line):
        if code.co_filename == path:
            seen.append((code.co_name, line))

    monitoring.register_callback(TOOL, monitoring.events.LINE, at_line)
    monitoring.set_events(TOOL, monitoring.events.LINE)
    try:
        with contextlib.redirect_stdout(io.StringIO()):
            module[name](*args)
    except BaseException as error:
        ended = f"raised {type(error).__name__}"
    else:
        ended = "returned"
    finally:
        monitoring.set_events(TOOL, 0)
        monitoring.free_tool_id(TOOL)
    return seen, ended


def lines_there(path):
    """The lines of a report's records, and how its thread ended."""
    seen, ended = [], ""
    with open(path, encoding="utf-8") as file:
        for line in file:
            words = line.split()
            if words[:1] == ["rec"] and words[3] == "LINE":
                seen.append((words[4], int(words[5])))
            elif words[:1] == ["end"]:
                ended = " ".join(words[2:])
    return seen, ended


def main(words):
    if len(words) < 3 or not hasattr(sys, "monitoring"):
        print(__doc__, file=sys.stderr)
        return 2
    path, report, name, *args = words
    here, here_ended = lines_here(path, name, [int(arg) for arg in args])
    there, there_ended = lines_there(report)
    print(f"{'CPython ' + sys.version.split()[0]:24}ponduxe")
    for at in range(max(len(here), len(there))):
        left = "{} {}".format(*here[at]) if at < len(here) else "-"
        right = "{} {}".format(*there[at]) if at < len(there) else "-"
        print(f"{left:24}{right:24}{'' if left == right else 'differs'}".rstrip())
    print(f"{here_ended:24}{there_ended}")
    print("equal" if here == there else "different")
    return 0 if here == there else 1


if __name__ == "__main__":
    sys.exit(main(sys.argv[1:]))
