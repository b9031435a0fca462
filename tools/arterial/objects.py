"""Names of objects in messages: those of the MIB, or numbers."""

import re
from collections.abc import Sequence

from streettools.cabinet.messages import GET, SET, message, reply_of
from streettools.shared.answers import ERRORS
from streettools.shared.ber import INTEGER, Arcs
from streettools.shared.mib import objects

from .errors import Error, Refused

Value = int | bytes
"""What an object holds: a number, or octets."""


def arcs_of(name: str) -> Arcs:
    """Returns the arcs of an instance: `phaseMinimumGreen.2` by the MIB (`.0` is added to a name without instance), or
    numbers as `1.3.6.1.4.1.1206.4.2.1.1.2.1.4.2`."""
    if not isinstance(name, str) or not re.fullmatch(r"[A-Za-z]\w*(\.\d+)*|\d+(\.\d+)+", name):
        raise Refused("", (f"{name!r} is not the name of an object: write as in phaseMinimumGreen.2 or 1.3.6.1.4",))
    head, *rest = name.split(".")
    if head.isdecimal():
        return tuple(map(int, (head, *rest)))
    known = objects()
    if not known:
        raise Error("the MIB (ARTERIAL-PROFILE-MIB) is missing here: give the numbers of the object")
    if head not in known:
        import difflib

        near = next(iter(difflib.get_close_matches(head, known, 1)), None)
        raise Refused("", (f"the MIB has no object {head}" + (f"; did you mean {near}?" if near else ""),))
    return (*known[head], *(map(int, rest) if rest else (0,)))


def get_octets(number: int, names: Sequence[str], community: bytes) -> bytes:
    """Returns the octets of a Get."""
    return message(GET, number, [(arcs_of(name), None) for name in names], community)


def set_octets(number: int, bindings: Sequence[tuple[Arcs, Value]], community: bytes) -> bytes:
    """Returns the octets of a Set."""
    return message(SET, number, [(arcs, value) for arcs, value in bindings], community)


def values_of(reply: bytes, names: Sequence[str]) -> list[Value]:
    """Returns the values of a reply; an error status is refused in words, with the object that it is about."""
    found = reply_of(reply)
    if found.status:
        error = ERRORS.get(found.status, f"error {found.status}")
        about = names[found.index - 1] if 1 <= found.index <= len(names) else ", ".join(names)
        raise Refused("", (f"the cabinet answers {error} for {about}",))
    given = ((tag, octets) for _, tag, octets in found.bindings)
    return [int.from_bytes(octets, "big", signed=True) if tag == INTEGER else octets for tag, octets in given]
