"""The front: which part of a message the cabinet answers, and which the front itself."""

import asyncio
import contextlib
import functools

from ...shared.ber import END_OF_VIEW, INTEGER, NO_SUCH_INSTANCE, NO_SUCH_OBJECT, Arcs, Field
from ...shared.cells import PATTERNS
from ...shared.oids import CLOCK, CONTROL, ENTRIES, GLOBAL_TIME, PREEMPT_STATE, TRANSACTION, VEH_CALL
from ...shared.snmp import BULK, GET, GET_NEXT, SET, V1, V2C, Binding, Message, head_of
from . import report
from ..known import DAY
from ..street import LONGEST, NOBODY, Manager, Street
from .eventlog import EventLog
from .judging import has_type, is_of_a_download, is_of_a_table, misfit, number_in, of_the_cabinet
from .managers import Copies, Managers
from .objects import OBJECTS, TYPES, WRITABLE
from .order import InOrder
from .pdus import (
    GEN_ERR, MOST_OCTETS, NO_SUCH_NAME, NOT_WRITABLE, Fault, asked_of, asks_nothing_else, cut_reply, in_version, reply,
    response, whole,
)  # fmt: skip
from .reads import Front
from .shown import Shown
from .side import Silent
from .transaction import GATHERING, NORMAL
from .watch import MOST_BINDS, Watch, compare, values

MOST_REPEATED = 128
BITS = range(8)
FREE = 254
"""The command of free operation."""
STATES = (b"off", b"on")

Parted = list[tuple[int, Binding]]
"""Bindings, each with its index in the message."""


class Cabinet:
    """A cabinet and its front."""

    def __init__(
        self, street: Street, cabinet: int, before: "Cabinet | None" = None, is_carried: bool = False
    ) -> None:
        """Opens the front of a cabinet; in the place of that of the session before, whose open transaction is lost, and
        so are its tables if they weren't carried over."""
        self.street = street
        self.number = cabinet
        self.managers: Managers = before.managers if before else Managers()
        self.copies: Copies = before.copies if before else Copies()
        self.managers.discarded(None)
        if not is_carried:
            self.managers.begins_anew()
            self.copies.begins_anew((GEN_ERR, 1))
        self.front: Front = Front(street, cabinet, self.managers, before.front.log if before else EventLog())
        self.transaction = self.front.transaction
        self.order = asyncio.Lock()
        self.in_order = InOrder()

    async def answer(self, octets: bytes, manager: Manager) -> bytes | None:
        """Returns the reply to a datagram. The cabinet itself answers if the datagram isn't a valid message, or only
        concerns the cabinet."""
        asked = asked_of(octets) if len(octets) <= LONGEST else None
        if asked is None or self.is_of_the_cabinet(asked):
            passed_on = functools.partial(self.street.datagram, self.number, octets)
            return await self.in_order.done(manager, False, passed_on)
        return await self.in_order.done(manager, True, functools.partial(self.answer_here, asked, octets, manager))

    async def answer_here(self, asked: Message, octets: bytes, manager: Manager) -> bytes | None:
        """Returns the reply to a message that is carried out here, None to one of another community."""
        async with self.street.turn():
            if asked.community != self.street.community():
                return None
            with contextlib.suppress(Silent):
                async with self.order:
                    await compare(self.front)
                    return await self.carried_out(asked, octets, manager)
        return None

    def is_of_the_cabinet(self, asked: Message) -> bool:
        """Tells whether a message is one of version 1 that names nothing of the front's, sets no cell and commands no
        pattern. While a transaction is open, what reads a cell is carried out here too, in its turn."""
        if asked.version != V1 or asked.kind == GET_NEXT:
            return False
        names = [it.arcs for it in asked.bindings]
        sets = asked.kind == SET and not is_of_a_download(names)
        takes = sets or self.transaction.state == GATHERING
        return not any(self.is_own(it) or takes and is_of_a_table(it) or sets and it == CONTROL for it in names)

    def is_own(self, name: Arcs) -> bool:
        """Tells whether a name is that of an object of the front."""
        return OBJECTS.has(self.front, name)

    async def carried_out(self, asked: Message, octets: bytes, manager: Manager) -> bytes:
        """Returns the reply to a message that is carried out here."""
        try:
            if asked.kind == GET:
                return await self.got_by_cabinet(asked, octets) or reply(asked, await self.got(asked))
            if asked.kind == GET_NEXT:
                return reply(asked, await self.got_next(asked, asked.bindings))
            if asked.kind == BULK:
                return await self.got_bulk(asked)
            status, index = await self.put_once(asked, octets, manager)
            return reply(asked, asked.bindings, status, index)
        except Fault as fault:
            return reply(asked, asked.bindings, fault.status, fault.index)

    # what is read

    async def got_by_cabinet(self, asked: Message, octets: bytes) -> bytes | None:
        """Returns the cabinet's own reply to a Get of version 2c, with the version of the message. None if the message
        names an object of the front or more than the cabinet takes, or if the cabinet doesn't answer without error."""
        if asked.version == V1 or len(asked.bindings) > MOST_BINDS or not asks_nothing_else(asked):
            return None
        if any(OBJECTS.has(self.front, it.arcs) for it in asked.bindings) or not (as_v1 := in_version(octets, V2C, V1)):
            return None
        answer = await self.street.message(self.number, as_v1)
        if answer is None or head_of(answer)[0].first:
            return None
        return in_version(answer, V1, V2C)

    async def got(self, asked: Message) -> list[Binding]:
        """Returns the values of objects. In version 1 a missing object is a fault; in later versions it is reported in
        place of its value."""
        names = [it.arcs for it in asked.bindings]
        found = await values(self.front, names)
        missing = next((at for at, name in enumerate(names, 1) if found[name] is None), None)
        if missing and asked.version == V1:
            raise Fault(NO_SUCH_NAME, missing)
        return [Binding(name, found[name] or absent(name)) for name in names]

    async def following(self, name: Arcs) -> Binding | None:
        """Returns the first object after a name, of the front or of the cabinet; None after the last."""
        own = OBJECTS.following(self.front, name)
        other = await self.front.side.next(name)
        if own is None or other is not None and other.arcs < own:
            return other
        return Binding(own, await OBJECTS.read(self.front, own))

    async def got_next(self, asked: Message, binds: list[Binding]) -> list[Binding]:
        """Returns the objects after some names."""
        found = []
        for at, it in enumerate(binds, 1):
            after = await self.following(it.arcs)
            if after is None and asked.version == V1:
                raise Fault(NO_SUCH_NAME, at)
            found.append(after or Binding(it.arcs, Field(END_OF_VIEW, b"")))
        return found

    async def got_bulk(self, asked: Message) -> bytes:
        """Returns the reply to a GetBulk, which is cut at the maximum length of a message."""
        single = max(0, asked.first)
        found = await self.got_next(asked, asked.bindings[:single])
        row = asked.bindings[single:]
        for _ in range(min(max(0, asked.second), MOST_REPEATED) if row else 0):
            row = await self.got_next(asked, row)
            found = found + row
            if len(response(asked, found)) >= MOST_OCTETS or all(it.value.tag == END_OF_VIEW for it in row):
                break
        return cut_reply(asked, found)

    # what is set

    async def put_once(self, asked: Message, octets: bytes, manager: Manager) -> tuple[int, int]:
        """Sets objects, and returns status and index. A copy of a Set of the transaction that was answered gets the
        same answer, and does nothing."""
        is_of_transaction = any(it.arcs == TRANSACTION or is_of_a_table(it.arcs) for it in asked.bindings)
        if is_of_transaction and (known := self.copies.answered(manager, asked.number, octets)):
            return known
        try:
            await self.put(asked, manager)
            answered = (0, 0)
        except Fault as fault:
            answered = (fault.status, fault.index)
        if is_of_transaction:
            self.copies.keep(manager, asked.number, octets, answered)
        return answered

    async def put(self, asked: Message, manager: Manager) -> None:
        """Sets objects: those of the cabinet in one message of its own, then those of the front. A fault is raised
        before anything of the front's is done."""
        cells, others, own = self.parted(asked)
        for at, it in own:
            self.test(at, it, len(asked.bindings))
        if cells and self.transaction.state == NORMAL:
            await self.put_cells(cells, len(asked.bindings), manager)
            return
        self.transaction.test(cells, manager, asked.number)
        await self.put_others(asked, others)
        self.transaction.gather(cells, manager)
        for at, it in own:
            if it.arcs == TRANSACTION:
                await self.transaction.go_to(number_in(it.value), manager, asked.number)
            else:
                await self.do(at, it)

    def parted(self, asked: Message) -> tuple[Parted, Parted, Parted]:
        """Parts what is set into cells for a transaction or a download of their own, objects of the cabinet, and those
        of the front."""
        cells, others, own = [], [], []
        state = self.transaction.state
        takes = state == GATHERING or state == NORMAL and not is_of_a_download([it.arcs for it in asked.bindings])
        for at, it in enumerate(asked.bindings, 1):
            if self.is_own(it.arcs):
                own.append((at, it))
            elif takes and is_of_a_table(it.arcs):
                cells.append((at, it))
            else:
                others.append((at, it))
        return cells, others, own

    async def put_others(self, asked: Message, others: Parted) -> None:
        """Sets objects of the cabinet in one message. What it refuses is raised."""
        if not others:
            return
        sent = [await self.commanded(it) for _, it in others]
        status, index = await self.front.side.set(sent)
        if status:
            at, it = others[index - 1] if 1 <= index <= len(others) else (0, others[0][1])
            raise Fault(status if asked.version == V1 else of_the_cabinet(status, it.arcs, it.value), at)
        for (_, it), its in zip(others, sent):
            if it.arcs == CONTROL:
                self.front.is_undefined = its is not it

    async def commanded(self, it: Binding) -> Binding:
        """Returns what the cabinet is sent for a binding: free operation in place of a pattern that isn't defined, as
        controllers do it."""
        if it.arcs != CONTROL or it.value.tag != INTEGER or number_in(it.value) not in PATTERNS:
            return it
        (cycle,) = await self.front.side.numbers(ENTRIES["pattern"] + (2, number_in(it.value)))
        return it if cycle else Binding(CONTROL, whole(FREE))

    async def put_cells(self, cells: Parted, count: int, manager: Manager) -> None:
        """Puts cells in force that are set outside a transaction. Nothing else may be set in their message, which has
        `count` bindings: a Set is done completely or not at all."""
        if len(cells) < count:
            raise Fault(GEN_ERR, cells[0][0])
        await self.transaction.put_at_once(cells, manager)

    def test(self, at: int, it: Binding, count: int) -> None:
        """Raises Fault if a binding can't set an object of the front, in a message of `count` bindings."""
        kind = WRITABLE.get(it.arcs)
        if kind is None:
            raise Fault(NOT_WRITABLE, at)
        if status := misfit(kind, it.value):
            raise Fault(status, at)
        if it.arcs == TRANSACTION and count > 1:
            raise Fault(GEN_ERR, at)

    async def do(self, at: int, it: Binding) -> None:
        """Does what the setting of an object of the front asks for. What the street refuses is raised."""
        if report.is_of_report(it.arcs):
            report.put(self.front, it.arcs, it.value)
        elif it.arcs == GLOBAL_TIME:
            await self.set_time(at, number_in(it.value))
        elif not all([await self.street.input(each) for each in self.requests(it.arcs, number_in(it.value))]):
            raise Fault(GEN_ERR, at)

    async def set_time(self, at: int, seconds: int) -> None:
        """Sets the cabinet's clock to a second since 1970. The message has the date as its number (`Clocks`)."""
        date, second = divmod(seconds, DAY)
        status, _ = await self.front.side.set([Binding(CLOCK, whole(10 * second))], -1 - date)
        if status:
            raise Fault(status, at)

    def requests(self, name: Arcs, value: int) -> list[bytes]:
        """Returns the inputs by which an object gets a value: what is so already needs none."""
        cabinet, number, on = self.number, name[-1], self.street.inputs
        if name[:-1] == PREEMPT_STATE:
            changed = [number] if value != on.is_on("preempt", cabinet, number) else []
            return [b"preempt %d %d %b" % (cabinet, it, STATES[value]) for it in changed]
        group = number - 1
        if name[:-1] == VEH_CALL:
            before = on.bits(cabinet, group)
            changed = [bit for bit in BITS if (before ^ value) >> bit & 1]
            return [b"veh %d %d %b" % (cabinet, 8 * group + it + 1, STATES[value >> it & 1]) for it in changed]
        pressed, self.front.people[group] = value & ~self.front.people[group], value
        return [b"ped %d %d" % (cabinet, 8 * group + bit + 1) for bit in BITS if pressed >> bit & 1]


def absent(name: Arcs) -> Field:
    """Returns what replaces a missing value: that the object doesn't exist, or only this instance of it (RFC 3416)."""
    return Field(NO_SUCH_INSTANCE if has_type(name, TYPES) else NO_SUCH_OBJECT, b"")


class Fronts:
    """The fronts of a street's cabinets; a new session of the street has new ones."""

    def __init__(self, street: Street) -> None:
        self.street = street
        street.shown = Shown(street)
        self.watch = Watch()
        street.hearers += [street.shown, self.watch]
        self.sessions = -1
        self.cabinets: list[Cabinet] = []

    async def datagram(self, cabinet: int, octets: bytes, manager: Manager = NOBODY) -> bytes | None:
        """Returns the reply to a datagram."""
        if self.sessions != self.street.renewals:
            is_carried = self.street.lost_at <= self.sessions
            self.sessions = self.street.renewals
            count = len(self.street.scenario["cabinets"])
            before: list[Cabinet | None] = [*self.cabinets] or [None] * count
            self.cabinets = [Cabinet(self.street, number, it, is_carried) for number, it in enumerate(before, 1)]
            self.watch.fronts = [it.front for it in self.cabinets]
        return await self.cabinets[cabinet - 1].answer(octets, manager)
