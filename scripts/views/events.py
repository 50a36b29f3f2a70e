"""The events, and what their records carry."""

EVENTS = (
    "BRANCH", "CALL", "C_RAISE", "C_RETURN", "EXCEPTION_HANDLED", "INSTRUCTION", "JUMP", "LINE", "PY_RESUME", "PY_RETURN",
    "PY_START", "PY_THROW", "PY_UNWIND", "PY_YIELD", "RAISE", "RERAISE", "STOP_ITERATION",
)
LOCAL = frozenset((
    "BRANCH", "CALL", "INSTRUCTION", "JUMP", "LINE", "PY_RESUME", "PY_RETURN", "PY_START", "PY_YIELD", "STOP_ITERATION",
))
PLACES = frozenset(("LINE", "INSTRUCTION", "PY_START", "PY_RESUME"))
CALLS = frozenset(("CALL", "C_RETURN", "C_RAISE"))
JUMPS = frozenset(("BRANCH", "JUMP"))
TOOLS = 6
