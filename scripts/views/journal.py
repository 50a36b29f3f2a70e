"""The journal's lines, and what tools listen to by them."""

import re
from typing import Dict, FrozenSet, List, NamedTuple, Optional, Set, Tuple

from .events import EVENTS

ID = "-?(?:0|[1-9][0-9]*)"
NAME = "[A-Za-z_][A-Za-z0-9_]*"
TOOL_NAME = "[A-Za-z0-9_.-]{1,32}"
EVENT = f"(?:{'|'.join(EVENTS)})"
SET = rf"(?:{EVENT}(?:\|{EVENT})*|0|[1-9][0-9]*)"
POLICY = "(?:keep|once|None)"
CALL = "|".join((
    f"use_tool_id {ID} {TOOL_NAME}", f"free_tool_id {ID}", f"get_tool {ID}", f"set_events {ID} {SET}", f"get_events {ID}",
    f"set_local_events {ID} {NAME} {SET}", f"get_local_events {ID} {NAME}", f"register_callback {ID} {SET} {POLICY}",
    "restart_events",
))
REPLY = rf"None|keep|once|'{TOOL_NAME}'|{SET}|BadTool\({ID}\)|ToolInUse\('{TOOL_NAME}'\)|BadEvent\([0-9]+\)"
LINE = re.compile(f"(before|script [0-3]) ({CALL}) = ({REPLY})(?: at((?: [0-9]{{1,9}})*))?")


class Entry(NamedTuple):
    """A control call: who made it, its words, the reply, and the threads' steps where it stopped the world."""

    who: str
    words: List[str]
    reply: str
    stops: Optional[List[int]]
    line: int

    @property
    def tool(self):
        return int(self.words[1]) if len(self.words) > 1 else None

    @property
    def code(self):
        """The function that a call on local events names, or None."""
        return self.words[2] if self.words[0] in ("set_local_events", "get_local_events") else None


def read_entry(text, line):
    """The entry behind the word `journal`, or None."""
    found = LINE.fullmatch(text)
    if found is None:
        return None
    who, call, reply, stops = found.groups()
    return Entry(who, call.split(" "), reply, None if stops is None else [int(count) for count in stops.split()], line)


def names_of(word):
    """The events of a printed set."""
    return frozenset() if word[0].isdigit() else frozenset(word.split("|"))


class Listening:
    """What each tool asks for in all code, and what its callbacks do. Only calls that stopped the world change it."""

    def __init__(self):
        self.asked: Dict[int, FrozenSet[str]] = {}
        self.policies: Dict[Tuple[int, str], str] = {}

    def apply(self, entry):
        kind, tool = entry.words[0], entry.tool
        if kind == "set_events":
            self.asked[tool] = names_of(entry.words[2])
        elif kind == "register_callback":
            for event in names_of(entry.words[2]):
                self.policies[tool, event] = entry.words[3]
        elif kind == "free_tool_id":
            self.asked.pop(tool, None)
            self.policies = {key: policy for key, policy in self.policies.items() if key[0] != tool}

    def heard(self, policies) -> Set[str]:
        """The events that some tool hears in all code, under one of these policies."""
        return {event for tool, asked in self.asked.items() for event in asked if self.policies.get((tool, event)) in policies}


def heard_throughout(report, policies=("keep",)):
    """The events that were heard in all code at each step of each thread."""
    found, listening = set(EVENTS), Listening()
    counts = [0] * len(report.threads)
    for entry in report.journal:
        if entry.stops is None:
            continue
        if entry.stops != counts:
            found &= listening.heard(policies)
            counts = entry.stops
        listening.apply(entry)
    if counts != [thread.steps for thread in report.threads]:
        found &= listening.heard(policies)
    return found


def tool_names(report):
    """The last name under which each tool was in use."""
    taken = (entry for entry in report.journal if entry.words[0] == "use_tool_id" and entry.reply == "None")
    return {entry.tool: entry.words[2] for entry in taken}
