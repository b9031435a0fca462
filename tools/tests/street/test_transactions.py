"""Transactions under two managers, the profile's own downloads and a bad line: what is said done is done, and nothing
else is."""

import asyncio
import itertools

from hypothesis import HealthCheck, Phase, given, settings, strategies as some
from streettools.shared import ber, oids, snmp
from streettools.street.ntcip.front import Fronts
from streettools.street.pace import Pace
from streettools.street.street import Street

from .conftest import PROGRAM

GREENS = [(*oids.ENTRIES["phase"], 6, phase) for phase in (2, 4, 6, 8)]
"""The maximum greens of four phases: the cells that all managers set, each time to values that nobody had before."""
ALONE = {"version": 1, "rounds": 1, "ticks": 10, "cabinets": [{}]}
NORMAL, TRANSACTION, VERIFY, WITHOUT_ERROR = 1, 2, 3, 3
REPEATED = 2
"""The outcome of a download whose number was used before."""
END = ber.Field(ber.INTEGER, bytes([NORMAL]))
TRIES = 3
LOST, UNHEARD, LATE, TWICE, WELL = range(5)
"""The faults of a line: the message is lost, its reply is lost, it arrives late, a copy arrives late, or none."""
FATES = [LOST, UNHEARD, LATE, TWICE, *[WELL] * 8]


def number_of(binding):
    """Returns the number of a binding."""
    return ber.number_of(binding.value.content)


def message(kind, number, *pairs, version=snmp.V2C):
    """Returns a message with numbers as values, nothing for None."""
    values = [ber.Field(ber.NULL, b"") if it is None else ber.Field(2, ber.number_content(it)) for _, it in pairs]
    binds = [snmp.Binding(name, value) for (name, _), value in zip(pairs, values)]
    return snmp.octets_of(snmp.Message(version, b"public", kind, number, 0, 0, binds))


class World:
    """A cabinet behind the front, and what was in force in it, one after the other."""

    def __init__(self, scenario=ALONE):
        self.street = Street(str(PROGRAM), scenario, Pace(0.0), [])
        self.fronts = Fronts(self.street)
        self.values = itertools.count(1)
        self.numbers = itertools.count(1000)
        self.in_force, self.late = [], []
        self.tried, self.words = [], set()
        """The cells of each download with its manager; the addresses told in this step that tables are in force."""

    async def ask(self, manager, octets):
        """Returns the reply to a message of a manager."""
        octets_of_reply = await self.fronts.datagram(1, octets, manager)
        if octets_of_reply is None:
            return None
        reply = snmp.message_of(octets_of_reply)
        (*_, last) = reply.bindings
        if reply.first == 0 and (last.arcs == oids.FINISH or last.arcs == oids.TRANSACTION and last.value == END):
            self.words.add(manager[0])
        return reply

    async def look(self):
        """Reads the greens in force. New greens must be those of one whole download whose manager received "done"."""
        asked = message(snmp.GET, 1, *((name, None) for name in GREENS), version=snmp.V1)
        found = snmp.message_of(await self.street.message(1, asked))
        now = {it.arcs: number_of(it) for it in found.bindings}
        before = self.in_force[-1] if self.in_force else now
        changed = {name: value for name, value in now.items() if value != before[name]}
        makers = {place[0] for place, cells in self.tried if changed.items() <= cells.items() <= now.items()}
        assert not changed or makers & self.words, (changed, self.words)
        self.in_force.append(now)
        self.words = set()


class Attempt:
    """A download that a manager tries: its cells, and how it ended."""

    def __init__(self, world, cells):
        self.cells = {name: 1 + next(world.values) % 255 for name in cells}
        self.steps = [(oids.TRANSACTION, TRANSACTION), *self.cells.items(), (oids.TRANSACTION, VERIFY)]
        self.steps += [(oids.VERIFY_STATUS, None), (oids.TRANSACTION, NORMAL)]


class Central:
    """A manager that downloads by transactions, and repeats what isn't answered."""

    def __init__(self, world, place):
        self.world, self.place = world, place
        self.begin([GREENS[0]])
        self.waiting = None
        self.tries = 0
        self.done = []

    def begin(self, cells):
        """Begins anew."""
        self.attempt, self.at = Attempt(self.world, cells), 0
        self.world.tried.append((self.place, self.attempt.cells))

    async def move(self, fate, cells):
        """Sends the message that is next, or again the one that isn't answered."""
        if self.waiting is None:
            name, value = self.attempt.steps[self.at]
            self.tries = 0
            kind = snmp.GET if value is None else snmp.SET
            self.waiting = message(kind, next(self.world.numbers), (name, value))
        octets, self.tries = self.waiting, self.tries + 1
        reply = await self.sent(octets, fate)
        if reply is not None:
            self.waiting = None
            self.heard(reply, cells)
        elif self.tries == TRIES:
            self.waiting = None
            self.fail(cells)

    async def sent(self, octets, fate):
        """Sends a message over the line; returns the reply that comes back."""
        if fate in (LATE, TWICE):
            self.world.late.append((self, octets))
        if fate in (LOST, LATE):
            return None
        reply = await self.world.ask(self.place, octets)
        return None if fate == UNHEARD else reply

    def heard(self, reply, cells):
        """Takes a reply."""
        name, value = self.attempt.steps[self.at]
        if reply.first or value is None and number_of(reply.bindings[0]) != WITHOUT_ERROR:
            self.fail(cells)
        elif self.at + 1 < len(self.attempt.steps):
            self.at += 1
        else:
            if len(self.attempt.steps) > 1:
                self.done.append(self.attempt)
            self.begin(cells)

    def fail(self, cells):
        """Gives up: a NORMAL ends what may be open, then it begins anew."""
        is_cleaning = len(self.attempt.steps) == 1
        self.begin(cells)
        if not is_cleaning:
            self.attempt.steps = [(oids.TRANSACTION, NORMAL)]


class Rival:
    """Software that downloads by the profile itself, with a number that nobody else has."""

    place = ("127.0.0.9", 9)

    def __init__(self, world):
        self.world, self.number, self.steps = world, 0, []

    async def move(self, fate, cells):
        """Sends its next step, without a bad line."""
        if not self.steps:
            self.number += 1 + 7 * fate
            own, new = (oids.ID, self.number), {name: 1 + next(self.world.values) % 255 for name in cells}
            self.world.tried.append((self.place, new))
            self.steps = [[(oids.BEGIN, self.number)], [own, (oids.PART, 1), *new.items()]]
            self.steps += [[own, (oids.TOTAL, 1)], [own, (oids.FINISH, 1)]]
        step = self.steps.pop(0)
        number = next(self.world.numbers)
        reply = await self.world.ask(self.place, message(snmp.SET, number, *step, version=snmp.V1))
        outcome = message(snmp.GET, number, (oids.OUTCOME, None), version=snmp.V1)
        (seen,) = (await self.world.ask(self.place, outcome)).bindings
        if reply.first or len(self.steps) == 3 and number_of(seen) == REPEATED:
            self.steps, self.number = [], self.number + 517


MOVES = some.tuples(
    some.sampled_from(["rival", "late", "both", "session", *["first", "second"] * 4]),
    some.sampled_from(FATES), some.sets(some.sampled_from(GREENS), min_size=1).map(sorted), some.integers(0, 9),
)  # fmt: skip


async def lived(world, places, moves):
    """Lets all happen, and says what is wrong of it."""
    await world.street.open()
    first, second, rival = Central(world, places[0]), Central(world, places[1]), Rival(world)
    actors = {"first": [first], "second": [second], "rival": [rival], "both": [first, second]}
    for who, fate, cells, which in moves:
        if who == "late" and world.late:
            sender, octets = world.late.pop(which % len(world.late))
            await world.ask(sender.place, octets)
        await asyncio.gather(*(it.move(fate, cells) for it in actors.get(who, ())))
        if who == "session" and which == 1:
            await world.street.change()
        if who == "session" and which <= 1:
            await world.street.renewed()
        if who == "session" and which == 0:
            world.in_force.clear()
        await world.look()
        for central in (first, second):
            for it in central.done:
                assert any(now.items() >= it.cells.items() for now in world.in_force), (central.place, it.cells)
            central.done.clear()


async def alone(places, moves):
    """Lives through moves, in a world of its own."""
    world = World()
    try:
        await lived(world, places, moves)
    finally:
        await world.street.close()


@settings(max_examples=40, deadline=None, derandomize=True, phases=[Phase.generate],
          suppress_health_check=list(HealthCheck))  # fmt: skip
@given(some.sampled_from([("127.0.0.1", 2), ("127.0.0.2", 2)]), some.lists(MOVES, min_size=60, max_size=160))
def test_what_is_said_done_is_in_force(second, moves):
    asyncio.run(alone([("127.0.0.1", 1), second], moves))


# one by one

ONE, TWO, FAR = ("127.0.0.1", 1), ("127.0.0.1", 2), ("127.0.0.2", 1)
FIRST = GREENS[0]
GEN_ERR, WRONG_TYPE, WRONG_VALUE, NO_CREATION, INCONSISTENT, NOT_WRITABLE = 5, 7, 10, 11, 12, 17


class Talk:
    """What managers ask of one cabinet, and are answered, each with a number of its own."""

    def __init__(self, world):
        self.world = world

    async def set(self, manager, *pairs, number=None, version=snmp.V2C):
        """Returns the status of a Set of numbers."""
        octets = message(snmp.SET, number or next(self.world.numbers), *pairs, version=version)
        return snmp.message_of(await self.world.fronts.datagram(1, octets, manager)).first

    async def go_to(self, manager, state, number=None):
        """Returns the status of a Set of the transaction's state."""
        return await self.set(manager, (oids.TRANSACTION, state), number=number)

    async def gathered(self, manager, value):
        """Opens a transaction, sets the first green in it, and has it tested; returns the statuses."""
        return [await self.go_to(manager, TRANSACTION), await self.set(manager, (FIRST, value)),
                await self.go_to(manager, VERIFY)]  # fmt: skip

    async def profile(self, *pairs):
        """Returns the status of a Set by the profile itself."""
        reply = await self.world.street.message(1, message(snmp.SET, 1, *pairs, version=snmp.V1))
        return snmp.message_of(reply).first

    async def read(self, *names):
        """Returns the values of objects: a number, or octets."""
        octets = message(snmp.GET, 1, *((name, None) for name in names))
        found = snmp.message_of(await self.world.fronts.datagram(1, octets, ONE)).bindings
        return [number_of(it) if it.value.tag == ber.INTEGER else it.value.content for it in found]


def talk(talked, scenario=ALONE):
    """Lets managers talk with a cabinet."""

    async def lives():
        world = World(scenario)
        await world.street.open()
        try:
            await talked(Talk(world))
        finally:
            await world.street.close()

    asyncio.run(lives())


def test_tables_whose_download_another_one_has_ended_are_not_said_done():
    async def talked(it):
        assert await it.gathered(ONE, 41) == [0, 0, 0]
        assert await it.read(oids.VERIFY_STATUS) == [3]
        assert await it.profile((oids.BEGIN, 1000)) == 0
        assert await it.read(oids.VERIFY_STATUS, oids.VERIFY_ERROR) == [2, b"another download came between"]
        # the first answer, one to a message that is sent again, one to a new message
        assert [await it.go_to(ONE, NORMAL, number) for number in (70_000, 70_000, 70_001)] == [GEN_ERR] * 3
        assert await it.read(FIRST, oids.TRANSACTION) == [40, NORMAL]
        assert await it.gathered(ONE, 42) == [0, 0, 0]
        assert [await it.go_to(ONE, NORMAL), *await it.read(FIRST)] == [0, 42]

    talk(talked)


def test_any_download_number_that_is_left_is_found():
    async def talked(it):
        for number in (1_796_108_410, 2_147_483_646):
            assert await it.profile((oids.BEGIN, number)) == 0
            assert await it.gathered(ONE, number % 250) == [0, 0, 0]
            assert [await it.go_to(ONE, NORMAL), *await it.read(FIRST)] == [0, number % 250]
        assert await it.gathered(ONE, 9) == [0, 0, 0]
        said = await it.read(oids.VERIFY_STATUS, oids.VERIFY_ERROR)
        assert said == [2, b"no download number is left: the last was 2147483647"]

    talk(talked)


def test_a_download_never_has_the_number_of_one_of_the_master():
    """With the number of the last download the master's would be answered as its copy, and said to be in force."""
    loads = [{"round": 2, "cabinet": 1, "cells": [["phase", 2, 6, 77]]}]
    async def talked(it):
        assert it.world.street.downloads.next(1) > 1
        assert await it.gathered(ONE, 41) == [0, 0, 0]
        assert await it.go_to(ONE, NORMAL) == 0
        await it.world.street.session.take(90)
        assert await it.read(FIRST) == [41]

    talk(talked, ALONE | {"loads": loads})


def test_each_set_in_a_transaction_is_tested_as_it_comes():
    name, index = (*oids.ENTRIES["phase"], 4, 2), (*oids.ENTRIES["phase"], 1, 2)

    async def talked(it):
        await it.go_to(ONE, TRANSACTION)
        assert [await it.set(ONE, (name, value)) for value in (1200, -1, 256, 255, 0)] == [*[WRONG_VALUE] * 3, 0, 0]
        octets = snmp.Binding(name, ber.Field(ber.OCTETS, b"abc"))
        asked = snmp.octets_of(snmp.Message(snmp.V2C, b"public", snmp.SET, 6000, 0, 0, [octets]))
        assert snmp.message_of(await it.world.fronts.datagram(1, asked, ONE)).first == WRONG_TYPE
        assert await it.set(ONE, (index, 5)) == NOT_WRITABLE
        assert await it.set(ONE, ((*oids.ENTRIES["phase"], 4, 17), 5)) == NO_CREATION
        assert await it.set(ONE, (name, 12), (name, 1200)) == WRONG_VALUE
        assert await it.set(ONE, (name, 13)) == 0
        assert [await it.go_to(ONE, VERIFY), await it.go_to(ONE, NORMAL), *await it.read(name)] == [0, 0, 13]

    talk(talked)


def test_copies_of_steps_are_answered_as_their_first_and_do_nothing():
    async def talked(it):
        assert await it.go_to(ONE, TRANSACTION, 5000) == 0
        assert await it.set(ONE, (FIRST, 41), number=5001) == 0
        assert await it.set(ONE, (FIRST, 42), number=5002) == 0
        assert [await it.go_to(ONE, TRANSACTION, 5000), await it.set(ONE, (FIRST, 41), number=5001)] == [0, 0]
        assert [await it.go_to(ONE, VERIFY, number) for number in (5003, 5003, 5004)] == [0, 0, 0]
        assert await it.go_to(ONE, TRANSACTION, 5000) == 0
        assert await it.read(oids.TRANSACTION, oids.VERIFY_STATUS) == [6, 3]
        assert [await it.go_to(ONE, NORMAL, number) for number in (5005, 5005, 5006)] == [0, 0, 0]
        assert await it.read(FIRST, oids.VERSION) == [42, 1]

    talk(talked)


def test_alarms_follow_the_mode():
    """Start-up, free, on the way to a pattern from the green of the side street, coordinated, flash, preempt."""
    names = [(*oids.ASC, 3, arc, 0) for arc in (8, 7, 9)]
    steps = [((), 10), ((), 350), ((oids.CONTROL, 1), 5), ((), 300), ((oids.CONTROL, 255), 3000)]

    async def talked(it):
        street = it.world.street
        await street.input(b"veh 1 4 on")
        for order, ticks in steps:
            assert not order or await it.set(ONE, order) == 0
            await street.session.take(ticks)
            statuses.append(await it.read(*names))
        await it.set(ONE, (oids.CONTROL, 254))
        await street.session.take(3000)
        await street.input(b"preempt 1 1 on")
        await street.session.take(400)
        statuses.append(await it.read(*names))

    statuses = []
    talk(talked, ALONE | {"cabinets": [{"cells": [["preempt", 1, 13, "0206"]]}]})
    assert statuses == [[0, 0, 0], [64, 0, 0], [0, 32, 0], [128, 0, 0], [32, 0, 2], [0, 0, 1]]


def test_the_set_id_changes_with_the_tables():
    name = (*oids.GLOBAL, 1, 1, 0)

    async def talked(it):
        seen = [*await it.read(name), *await it.read(name)]
        await it.gathered(ONE, 41)
        seen += await it.read(name)
        await it.go_to(ONE, NORMAL)
        seen += await it.read(name)
        await it.world.street.renewed()
        seen += await it.read(name)
        assert seen[0] == seen[1] == seen[2] and len(set(seen)) == 3

    talk(talked)


def test_cells_that_wait_are_discarded_by_normal_only():
    async def talked(it):
        await it.go_to(ONE, TRANSACTION, 5000)
        await it.set(ONE, (FIRST, 41))
        assert await it.go_to(ONE, TRANSACTION) == GEN_ERR
        assert [await it.go_to(ONE, NORMAL), await it.go_to(ONE, VERIFY)] == [0, INCONSISTENT]
        assert [await it.go_to(ONE, TRANSACTION), await it.go_to(ONE, VERIFY), await it.go_to(ONE, NORMAL)] == [0] * 3
        assert await it.read(FIRST) == [40]

    talk(talked)


def test_messages_of_an_earlier_transaction_are_refused():
    async def talked(it):
        await it.go_to(ONE, TRANSACTION, 5000)
        await it.set(ONE, (FIRST, 41))
        for late in ((FIRST, 7), (oids.TRANSACTION, NORMAL), (oids.TRANSACTION, VERIFY), (oids.TRANSACTION, 2)):
            assert await it.set(ONE, late, number=4999) == GEN_ERR
        assert [await it.go_to(ONE, VERIFY), await it.go_to(ONE, NORMAL), *await it.read(FIRST)] == [0, 0, 41]

    talk(talked)


def test_a_manager_whose_transaction_another_one_ends_is_told_so():
    async def talked(it):
        for other, value in ((TWO, 41), (FAR, 43)):
            assert await it.gathered(ONE, value) == [0, 0, 0]
            assert await it.go_to(other, TRANSACTION) == GEN_ERR
            assert [await it.set(other, (FIRST, 99)) != 0, await it.go_to(other, NORMAL)] == [True, 0]
            assert await it.read(oids.VERIFY_ERROR) == [b"another manager has ended the transaction"]
            assert await it.gathered(other, value + 1) == [0, 0, 0]
            assert [await it.go_to(ONE, NORMAL), await it.go_to(ONE, VERIFY), await it.set(ONE, (FIRST, 9)) != 0] == [
                GEN_ERR, GEN_ERR, True,
            ]  # fmt: skip
            assert [await it.go_to(other, NORMAL), *await it.read(FIRST)] == [0, value + 1]

    talk(talked)


def test_a_tool_with_a_new_port_for_each_message_is_one_manager():
    async def talked(it):
        ports = iter(range(10, 99))
        steps = [(oids.TRANSACTION, 2), (FIRST, 41), (oids.TRANSACTION, 3), (oids.TRANSACTION, 1)]
        assert [await it.set(("127.0.0.1", next(ports)), step) for step in steps] == [0] * 4
        assert await it.read(FIRST) == [41]

    talk(talked)


def test_cells_that_are_sent_right_after_the_begin_of_a_transaction_belong_to_it():
    async def talked(it):
        it.world.street.after_message = 1
        pairs = [(oids.CONTROL, 254), (oids.GLOBAL_TIME, 0), (oids.TRANSACTION, TRANSACTION), (FIRST, 41), (FIRST, 42)]
        assert await asyncio.gather(*(it.set(ONE, pair, version=snmp.V1) for pair in pairs)) == [0] * 5
        assert await it.read(oids.TRANSACTION, FIRST) == [TRANSACTION, 40]

    talk(talked)


def test_a_transaction_does_not_outlive_its_session():
    async def talked(it):
        assert [*await it.gathered(ONE, 39), await it.go_to(ONE, NORMAL, 5000)] == [0] * 4
        await it.world.street.renewed()
        assert [await it.go_to(ONE, NORMAL, 5000), await it.go_to(ONE, NORMAL)] == [GEN_ERR] * 2
        assert await it.gathered(ONE, 41) == [0, 0, 0]
        await it.world.street.renewed()
        assert [await it.go_to(ONE, NORMAL), *await it.read(FIRST, oids.TRANSACTION)] == [GEN_ERR, 40, NORMAL]
        assert await it.gathered(ONE, 42) == [0, 0, 0]
        assert [await it.go_to(ONE, NORMAL), *await it.read(FIRST)] == [0, 42]

    talk(talked)


def test_tables_in_force_are_carried_over_and_a_transaction_is_not():
    async def talked(it):
        assert [*await it.gathered(ONE, 39), await it.go_to(ONE, NORMAL, 5000)] == [0] * 4
        assert await it.gathered(TWO, 41) == [0, 0, 0]
        await it.world.street.change()
        await it.world.street.renewed()
        assert [await it.go_to(ONE, NORMAL, 5000), await it.go_to(ONE, NORMAL), *await it.read(FIRST)] == [0, 0, 39]
        assert [await it.go_to(TWO, NORMAL), *await it.read(FIRST)] == [GEN_ERR, 39]

    talk(talked)


def test_verified_tables_that_nobody_here_knows_are_not_said_done():
    """As after a restart with --resume: the cabinet's stage has them, the front doesn't."""

    async def talked(it):
        own = (oids.ID, 5)
        assert [await it.profile(*step) for step in ([(oids.BEGIN, 5)], [own, (oids.PART, 1), (FIRST, 41)],
                                                     [own, (oids.TOTAL, 1)])] == [0, 0, 0]  # fmt: skip
        assert await it.go_to(ONE, NORMAL) == GEN_ERR

    talk(talked)


def test_a_set_of_the_transaction_stands_alone_in_its_message():
    async def talked(it):
        assert await it.set(ONE, (oids.CONTROL, 254), (oids.TRANSACTION, TRANSACTION)) == GEN_ERR
        assert await it.read(oids.CONTROL, oids.TRANSACTION) == [0, NORMAL]

    talk(talked)
