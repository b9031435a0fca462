"""A walk over all that a cabinet has to read: from the first name by GetNext to the last (RFC 1157).

A run answers many messages at once. So with the name that the walk has reached the names are asked for that are likely
to come behind it; an answer counts only once the walk has come to its name.
"""

from streettools.shared.program import trace_of

from .alone import compact
from .messages import GET_NEXT, INTEGER, OCTETS, message, reply_of

KINDS = {INTEGER: "INTEGER", OCTETS: "OCTET STRING"}
START = (1, 0, 0)
COLUMNS, ROWS = 6, 33
"""How many numbers are tried behind the last but one arc of a name, and as its last one."""


def likely(name):
    """Returns a name and those that often follow it: its neighbours by the last two arcs."""
    *front, column, row = name
    near = [(*front, column + step, last) for step in range(COLUMNS) for last in range(ROWS)]
    return list(dict.fromkeys([name, *near, *((*front, column, row + step) for step in range(ROWS))]))


def following(program, names):
    """Returns for each name the instance behind it, as name, tag and octets of its value; None where there is none."""
    asked = [message(GET_NEXT, number, [(name, None)]).hex() for number, name in enumerate(names)]
    frames = [{"round": 1, "cabinet": 1, "stream": "poll", "hex": text} for text in asked]
    trace = trace_of(program, compact({"version": 1, "rounds": 1, "ticks": 1, "cabinets": [{}], "frames": frames}))
    answers = [line.split(b" ")[3].decode() for line in trace.splitlines() if line.startswith(b"A ")]
    replies = [reply_of(bytes.fromhex(answer)) for answer in answers]
    return {name: None if reply.status else reply.bindings[0] for name, reply in zip(names, replies, strict=True)}


def instances(program):
    """Yields each instance, in the order of the walk: name, tag and octets of its value."""
    known, name = {}, START
    while True:
        if name not in known:
            known |= following(program, likely(name))
        if known[name] is None:
            return
        yield known[name]
        name = known[name][0]
