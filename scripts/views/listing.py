"""The reader of listings, as `dis` writes them."""

import re
from typing import Dict, List, NamedTuple, Optional

from .fault import Fault, lines_of

WITH_ARGUMENT = frozenset((
    "RESUME", "LOAD_CONST", "LOAD_FAST", "STORE_FAST", "DELETE_FAST", "LOAD_GLOBAL", "LOAD_METHOD", "BINARY_OP", "COMPARE_OP",
    "CONTAINS_OP", "IS_OP", "BUILD_TUPLE", "UNPACK_SEQUENCE", "COPY", "SWAP", "JUMP_FORWARD", "JUMP_BACKWARD",
    "POP_JUMP_IF_FALSE", "POP_JUMP_IF_TRUE", "POP_JUMP_IF_DONE", "CALL", "RAISE_VARARGS",
))
ALONE = frozenset((
    "NOP", "UNARY_NEGATIVE", "UNARY_NOT", "BINARY_SUBSCR", "POP_TOP", "GET_ITER", "FOR_ITER", "END_FOR", "RETURN_VALUE",
    "RETURN_GENERATOR", "YIELD_VALUE", "RERAISE", "PUSH_EXC_INFO", "CHECK_EXC_MATCH", "POP_EXCEPT",
))
BRANCHES = frozenset(("POP_JUMP_IF_FALSE", "POP_JUMP_IF_TRUE", "POP_JUMP_IF_DONE"))
JUMPS = frozenset(("JUMP_FORWARD", "JUMP_BACKWARD"))
CODE = re.compile("code ([A-Za-z_][A-Za-z0-9_]*)")
INSTRUCTION = re.compile("([0-9]{1,6}) (-|[1-9][0-9]{0,5}) ([A-Z_]+)(?: (.*))?")
OFFSET = re.compile("[0-9]{1,6}")


class Instruction(NamedTuple):
    line: Optional[int]
    op: str
    dest: Optional[int]


class Code:
    """The instructions of a function, at twice their index, and on which line of the listing its first stands."""

    def __init__(self, name, line):
        self.name = name
        self.line = line
        self.instructions: List[Instruction] = []

    def at(self, offset):
        """The instruction at an offset, or None."""
        index, odd = divmod(offset, 2)
        return self.instructions[index] if not odd and index < len(self.instructions) else None

    def branches(self):
        """The offsets of its conditional jumps, each with the two offsets that are gone to."""
        for index, instruction in enumerate(self.instructions):
            if instruction.op in BRANCHES:
                yield 2 * index, (2 * index + 2, instruction.dest)

    def way_from(self, offset):
        """Where the way from an offset on leads without a branch: to the first line that is met, or out of the function."""
        for _ in self.instructions:
            found = self.at(offset)
            if found.line is not None:
                return f"to line {found.line}"
            if found.op in ("RETURN_VALUE", "RERAISE"):
                return "to the end" if found.op == "RETURN_VALUE" else "to raise again"
            offset = found.dest if found.op in JUMPS else offset + 2
        return "to itself"


class Listing(NamedTuple):
    name: str
    codes: Dict[str, Code]

    def line_at(self, code, offset):
        """The line of the instruction at an offset, or None where it has none."""
        found = self.codes[code].at(offset)
        return found and found.line

    def executable(self):
        """The pairs of a function's name and a line on which it has code."""
        for name, code in self.codes.items():
            for line in sorted({found.line for found in code.instructions if found.line is not None}):
                yield name, line


def instruction(code, text):
    """The next instruction of a code, or None where the line is none."""
    found = INSTRUCTION.fullmatch(text)
    if found is None or code is None or int(found.group(1)) != 2 * len(code.instructions):
        return None
    _, line, op, argument = found.groups()
    if op not in (ALONE if argument is None else WITH_ARGUMENT):
        return None
    jumps = op in BRANCHES or op in JUMPS
    if jumps and not OFFSET.fullmatch(argument):
        return None
    return Instruction(None if line == "-" else int(line), op, int(argument) if jumps else None)


def read_listing(name, data, source):
    """The listing in `data`, which has to be that of the source."""
    codes: Dict[str, Code] = {}
    code = None
    lines = lines_of(name, data)
    for number, text in enumerate(lines, 1):
        head = CODE.fullmatch(text)
        if head is not None:
            check_end(name, code, number)
            check_next(name, source, codes, head.group(1), number)
            code = codes[head.group(1)] = Code(head.group(1), number)
            continue
        found = instruction(code, text)
        if found is None:
            raise Fault(name, number, "this is no line of a listing, or out of place")
        if found.line is not None and found.line not in source.functions[code.name].statements:
            raise Fault(name, number, f"{code.name} has no statement on line {found.line} of {source.name}")
        code.instructions.append(found)
    check_end(name, code, len(lines) + 1)
    for missing in list(source.functions)[len(codes) :]:
        raise Fault(name, len(lines) + 1, f"the listing ends before {missing} of {source.name}")
    return Listing(name, codes)


def check_next(name, source, codes, found, number):
    due = list(source.functions)[len(codes) : len(codes) + 1]
    if due != [found]:
        raise Fault(name, number, f"{found} is not the next function of {source.name}")


def check_end(name, code, number):
    """A code is whole where its last instruction returns and has no line; its jumps stay in it."""
    if code is None:
        return
    last = code.instructions[-1:]
    if not last or last[0].op != "RETURN_VALUE" or last[0].line is not None:
        raise Fault(name, number, f"the listing of {code.name} is cut off")
    for index, found in enumerate(code.instructions):
        if found.dest is not None and code.at(found.dest) is None:
            raise Fault(name, code.line + 1 + index, f"{code.name} has no offset {found.dest}")
