"""What a cabinet's agent reads in a frame, and what it answers.

RFC 1157; docs/SNMP-CONFORMANCE.md; docs/SCENARIO.md, "What is sent in a round". The bindings of a Set
are tested in order, each first by its name (status 2), then by its value (status 3); the first fault is answered and
nothing is changed.
"""

from dataclasses import dataclass, replace
from enum import IntEnum
from typing import Union

from model.cells import Cell, misfit
from model.cells import Value as CellValue
from model.messages import MOST_OCTETS, Bind, Message, Pdu, Value, read, write
from model.names import NAMES, Oid, Scalar, is_readable, next_oid
from model.plan import is_defined
from model.priority import Request
from model.shown import Shown, value_of
from model.stage import Answer, Outcome
from model.tables import Tables
from model.words import DAY


class Status(IntEnum):
    """The error statuses of RFC 1157 that are answered."""

    NO_ERROR = 0
    TOO_BIG = 1
    NO_SUCH_NAME = 2
    BAD_VALUE = 3
    GEN_ERR = 5


@dataclass(frozen=True)
class Fault:
    """A status above 0, and the place of the binding at fault."""

    status: Status
    index: int


class Refused(Exception):
    """A Set asks for what can't be."""

    def __init__(self, status: Status, index: int) -> None:
        super().__init__(status, index)
        self.fault = Fault(status, index)


@dataclass(frozen=True)
class Command:
    """A Set of the pattern in command."""

    pattern: int


@dataclass(frozen=True)
class SetClock:
    """A Set of the clock."""

    clock: int


@dataclass(frozen=True)
class Cancel:
    """A Set that takes a priority request back."""

    number: int


@dataclass(frozen=True)
class Begin:
    """A download begins."""

    load: int


@dataclass(frozen=True)
class Part:
    """A part of a download."""

    load: int
    part: int
    cells: list[tuple[Cell, CellValue]]


@dataclass(frozen=True)
class Verify:
    """The request to verify a download of `total` parts."""

    load: int
    total: int


@dataclass(frozen=True)
class Finish:
    """A download is to be put in force."""

    load: int


Order = Union[Command, SetClock, Request, Cancel]
LoadCall = Union[Begin, Part, Verify, Finish]
Wish = Union[list[Order], LoadCall, Fault, None]
"""What a Set asks for; None for Get and GetNext."""

MOST_ID, MOST_PARTS, LAST_FREE, FLASH = 2**31 - 1, 60_000, 254, 255


def whole(binds: list[Bind], place: int, low: int, high: int) -> int:
    """Returns the number of a binding, which must lie in a range."""
    value = binds[place].value
    if not isinstance(value, int) or not low <= value <= high:
        raise Refused(Status.BAD_VALUE, place + 1)
    return value


def request_of(value: Value) -> Request | None:
    """Returns the priority request of eight octets: number, class, level, phase, arrival and departure of two octets
    each."""
    if not isinstance(value, bytes) or len(value) != 8:
        return None
    number, klass, level, phase = value[:4]
    arrival, departure = int.from_bytes(value[4:6], "big"), int.from_bytes(value[6:8], "big")
    fits = all(1 <= it <= 10 for it in (number, klass, level)) and 1 <= phase <= 16 and arrival <= departure
    return Request(number, klass, level, phase, arrival, departure) if fits else None


def order_of(binds: list[Bind], place: int, tables: Tables) -> Order:
    """Returns what a binding of a Set asks for, if the Set isn't part of a download."""
    name, value = NAMES.get(binds[place].oid), binds[place].value
    if name is Scalar.PATTERN_CONTROL:
        pattern = whole(binds, place, 0, FLASH)
        if pattern not in (0, LAST_FREE, FLASH) and not is_defined(tables, pattern):
            raise Refused(Status.BAD_VALUE, place + 1)
        return Command(pattern)
    if name is Scalar.CLOCK:
        return SetClock(whole(binds, place, 0, DAY - 1))
    if name is Scalar.CANCEL:
        return Cancel(whole(binds, place, 1, 10))
    if name is not Scalar.REQUEST:
        raise Refused(Status.NO_SUCH_NAME, place + 1)
    request = request_of(value)
    if request is None:
        raise Refused(Status.BAD_VALUE, place + 1)
    return request


def cell_of(binds: list[Bind], place: int) -> tuple[Cell, CellValue]:
    """Returns the cell and the value of a binding of a part."""
    cell, value = NAMES.get(binds[place].oid), binds[place].value
    if not isinstance(cell, Cell):
        raise Refused(Status.NO_SUCH_NAME, place + 1)
    if not isinstance(value, (int, bytes)) or misfit(cell, value):
        raise Refused(Status.BAD_VALUE, place + 1)
    return cell, value


def load_call(binds: list[Bind]) -> LoadCall:
    """Returns the call of a Set whose first binding names a download."""
    load = whole(binds, 0, 1, MOST_ID)
    if len(binds) < 2:
        raise Refused(Status.NO_SUCH_NAME, 1)
    second = NAMES.get(binds[1].oid)
    if second is Scalar.PART:
        part = whole(binds, 1, 1, MOST_PARTS)
        return Part(load, part, [cell_of(binds, place) for place in range(2, len(binds))])
    if second not in (Scalar.TOTAL, Scalar.FINISH):
        raise Refused(Status.NO_SUCH_NAME, 2)
    number = whole(binds, 1, 0, MOST_PARTS) if second is Scalar.TOTAL else whole(binds, 1, 1, 1)
    if len(binds) > 2:
        raise Refused(Status.NO_SUCH_NAME, 3)
    return Verify(load, number) if second is Scalar.TOTAL else Finish(load)


def set_wish(binds: list[Bind], tables: Tables) -> Wish:
    """Returns what a Set asks for."""
    first = NAMES.get(binds[0].oid) if binds else None
    try:
        if first is Scalar.BEGIN:
            load = whole(binds, 0, 1, MOST_ID)
            if len(binds) > 1:
                raise Refused(Status.NO_SUCH_NAME, 2)
            return Begin(load)
        if first is Scalar.ID:
            return load_call(binds)
        return [order_of(binds, place, tables) for place in range(len(binds))]
    except Refused as refused:
        return refused.fault


@dataclass(frozen=True)
class Ask:
    """A message that is to be answered, and what it asks for."""

    message: Message
    wish: Wish


def ask_of(octets: bytes, community: bytes, tables: Tables) -> Ask | None:
    """Returns what a frame asks for; None if the cabinet stays silent."""
    message = read(octets)
    if message is None or message.community != community or message.pdu is Pdu.RESPONSE:
        return None
    return Ask(message, set_wish(message.binds, tables) if message.pdu is Pdu.SET else None)


def fault_of(wish: Wish, outcome: Outcome | None) -> Fault | None:
    """Returns the fault that a Set is answered; None if it was done."""
    if isinstance(wish, Fault):
        return wish
    answer = outcome.answer if outcome else None
    if answer is Answer.WRONG_TOKEN:
        return Fault(Status.BAD_VALUE, 1)
    if answer is Answer.WRONG_PART:
        return Fault(Status.BAD_VALUE, 2)
    return Fault(Status.GEN_ERR, 2) if answer in (Answer.NOT_VERIFIED, Answer.REFUSED) else None


def read_out(message: Message, shown: Shown) -> list[Bind] | Fault:
    """Returns the bindings that answer a Get or a GetNext, or the first fault."""
    binds: list[Bind] = []
    for place, bind in enumerate(message.binds, 1):
        oid: Oid | None = bind.oid if message.pdu is Pdu.GET else next_oid(bind.oid)
        if oid is None or not is_readable(oid):
            return Fault(Status.NO_SUCH_NAME, place)
        binds.append(Bind(oid, value_of(oid, shown)))
    return binds


def answer(ask: Ask, shown: Shown, outcome: Outcome | None) -> bytes:
    """Returns the octets of the answer, by what the cabinet shows and what the stage has answered."""
    response = replace(ask.message, pdu=Pdu.RESPONSE, status=0, index=0)
    if ask.message.pdu is Pdu.SET:
        told: list[Bind] | Fault = fault_of(ask.wish, outcome) or response.binds
    else:
        told = read_out(ask.message, shown)
    if isinstance(told, Fault):
        return write(replace(response, status=int(told.status), index=told.index))
    octets = write(replace(response, binds=told))
    return octets if len(octets) <= MOST_OCTETS else write(replace(response, status=int(Status.TOO_BIG)))
