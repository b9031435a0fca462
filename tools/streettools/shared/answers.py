"""What a cabinet's reply says of the orders in it: a clock that was set, a priority request that was given or
cancelled; and a Set that was refused.

A reply repeats the bindings of a Set (RFC 1157), so an accepted order is in a reply of status 0. A reply to a Get also
names the clock, with the clock's own value; only a reader that knows the clock can distinguish the two. A refused Get
also repeats its bindings, and they have the value Null.
"""

from typing import NamedTuple

from . import oids
from .ber import INTEGER, NULL, Arcs, Field, name_content, number_of
from .snmp import Binding, bindings_of, head_of

DIGITS = {arcs: name_content(arcs).hex() for arcs in (oids.CLOCK, oids.REQUEST, oids.CANCEL, oids.ID)}
"""Objects as their hexadecimal digits appear in a message."""
ORDERS = [DIGITS[it] for it in (oids.CLOCK, oids.REQUEST, oids.CANCEL)]
OBJECTS = {
    oids.CLOCK: "cabinetClock.0", oids.CONTROL: "systemPatternControl.0",
    oids.REQUEST: "priorityRequest.0", oids.CANCEL: "priorityCancel.0",
    oids.BEGIN: "downloadBegin.0", oids.ID: "downloadId.0", oids.PART: "downloadPart.0",
    oids.TOTAL: "downloadTotal.0", oids.FINISH: "downloadFinish.0",
}  # fmt: skip
"""The objects that a Set may have in addition to the columns of the tables, by their names in
`mibs/ARTERIAL-PROFILE-MIB`."""

ERRORS = {1: "tooBig", 2: "noSuchName", 3: "badValue", 4: "readOnly", 5: "genErr"}
"""The error statuses of RFC 1157."""


class ClockNamed(NamedTuple):
    """A reply names the clock with this value, in ticks since midnight."""

    ticks: int


class Requested(NamedTuple):
    """A priority request was given: its number; its departure and its arrival in ticks from now; its phase, class and
    level."""

    number: int
    departure: int
    arrival: int
    phase: int
    klass: int
    level: int


class Cancelled(NamedTuple):
    """A priority request was cancelled."""

    number: int


class RefusedSet(NamedTuple):
    """A Set was refused: the error, and the object that it names with the value that was asked for; a download's
    number if the Set has one."""

    error: str
    object: str
    value: int | str | None
    download: int | str | None


Order = ClockNamed | Requested | Cancelled


def orders(digits: str) -> list[Order]:
    """Returns the orders that a reply's hexadecimal digits name, in their order; empty if its status isn't 0, or if the
    digits aren't a reply."""
    if not any(name in digits for name in ORDERS):
        return []
    try:
        head, pairs = head_of(bytes.fromhex(digits))
        bindings = [] if head.first else bindings_of(pairs)
    except ValueError:
        return []
    found = (order(*it) for it in bindings)
    return [it for it in found if it is not None]


def order(name: Arcs, value: Field) -> Order | None:
    """Returns the order in a binding of a name and a value, or None."""
    if name == oids.CLOCK:
        return ClockNamed(number_of(value.content))
    if name == oids.REQUEST and len(value.content) == 8:
        number, klass, level, phase = value.content[:4]
        arrival, departure = (int.from_bytes(value.content[at : at + 2], "big") for at in (4, 6))
        return Requested(number, departure, arrival, phase, klass, level)
    if name == oids.CANCEL:
        return Cancelled(number_of(value.content))
    return None


def named_object(name: Arcs) -> str:
    """Returns the name of an object: that of the MIB if it is listed here, else its numbers."""
    return OBJECTS.get(name) or oids.dotted(name)


def valued(value: Field) -> int | str:
    """Returns a value: a number, else its octets as hexadecimal digits."""
    return number_of(value.content) if value.tag == INTEGER else value.content.hex()


def refused(digits: str) -> RefusedSet | None:
    """Returns the Set that a reply's hexadecimal digits refuse; None if they refuse none, or aren't a reply."""
    try:
        head, pairs = head_of(bytes.fromhex(digits))
        bindings: list[Binding] = bindings_of(pairs) if head.first else []
    except ValueError:
        return None
    if not bindings or bindings[0].value.tag == NULL:
        return None
    name, value = bindings[head.second - 1 if 1 <= head.second <= len(bindings) else 0]
    numbers = [valued(it) for own, it in bindings if named_object(own) == "downloadId.0"]
    whole, error = None if value.tag == NULL else valued(value), ERRORS.get(head.first, f"error {head.first}")
    return RefusedSet(error, named_object(name), whole, next(iter(numbers), None))
