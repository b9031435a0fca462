"""A session that follows another one begins with what the cabinets had."""

import asyncio

import pytest
from streettools.cabinet.messages import SET, message, reply_of
from streettools.shared import oids
from streettools.shared.cells import kinds
from streettools.street import street as module
from streettools.street.carried import cells_of, later
from streettools.street.pace import Pace
from streettools.street.street import Hearer, Street

from .conftest import CLOCK, CONTROL, PROGRAM, VERSION
from .test_agents import get, value_in

TWO = {
    "version": 1, "rounds": 1, "ticks": 10, "master": {"clock": 500, "poll_every": 7},
    "cabinets": [{"clock": 100}, {"base": "max8", "clock": 863_900}],
    "inputs": [{"round": 5, "cabinet": 2, "veh": 3, "on": True}, {"round": 33, "cabinet": 2, "veh": 3, "on": False}],
}  # fmt: skip
GREEN, FIRST, ORDER = ("phase", 2, 6), ("sequence", 3, 1), ("sequence", 3, 2)


def sets(street, cabinet, *pairs):
    """Sets objects of a cabinet, and returns the status."""
    return street.message(cabinet, message(SET, 1, list(pairs)))


async def download(street, cabinet, *cells):
    """Puts cells in force."""
    own = (oids.ID, 9)
    parts = [(oids.object_of(cell), value) for cell, value in cells]
    for step in ([(oids.BEGIN, 9)], [own, (oids.PART, 1), *parts], [own, (oids.TOTAL, 1)], [own, (oids.FINISH, 1)]):
        assert reply_of(await sets(street, cabinet, *step)).status == 0


class Keeps(Hearer):
    """Keeps the scenarios of sessions."""

    def __init__(self):
        self.scenarios = []

    def began(self, scenario):
        self.scenarios.append(scenario)


async def through(street, changes):
    """Lets time go on until a session has changed so often, and stand then."""
    living = asyncio.create_task(street.live())
    while street.renewals < changes and not living.done():
        await asyncio.sleep(0.01)
    street.end()
    await living


@pytest.fixture
def short(monkeypatch):
    """Sessions of 40 rounds: they change at 300 of 400 ticks, and take the 10 of the round that has begun."""
    monkeypatch.setattr(module, "MOST_ROUNDS", 40)


def test_tables_patterns_clocks_and_inputs_are_carried_over(short):
    kept = Keeps()

    async def lived():
        street = Street(str(PROGRAM), TWO, Pace(100.0), [kept])
        await street.open()
        try:
            await download(street, 1, (GREEN, 41), (FIRST, bytes((1, 2, 3, 4))), (ORDER, bytes((6, 5, 7, 8))))
            await sets(street, 1, (CONTROL, 1))
            await street.input(b"veh 1 4 on")
            await street.input(b"preempt 1 2 on")
            await through(street, 2)
            taken = street.session.taken
            names = [CLOCK, CONTROL, oids.object_of(GREEN), oids.object_of(ORDER), VERSION]
            reply = await street.message(1, get(1, *names))
            other = value_in(await street.message(2, get(1, CLOCK)))
            return taken, [value_in(reply, at) for at in range(5)], other, street.inputs.names()
        finally:
            await street.close()

    taken, values, other, inputs = asyncio.run(lived())
    assert values == [100 + 2 * 310 + taken, 1, 41, int.from_bytes(bytes((6, 5, 7, 8)), "big"), 0]
    assert other == (863_900 + 2 * 310 + taken) % 864_000
    # the scenario's own input goes off in round 33, the second round of the second session
    assert inputs == ["preempt 1 2", "veh 1 4"]
    second = kept.scenarios[1]
    assert second["master"] == {"clock": 810, "poll_every": 7}
    assert second["inputs"] == [
        {"round": 1, "cabinet": 1, "preempt": 2, "on": True},
        {"round": 1, "cabinet": 1, "veh": 4, "on": True},
        {"round": 1, "cabinet": 2, "veh": 3, "on": True},
        {"round": 2, "cabinet": 2, "veh": 3, "on": False},
    ]
    assert second["cabinets"][0]["cells"] == [[*GREEN, 41], [*FIRST, "01020304"], [*ORDER, "06050708"]]
    assert "cells" not in second["cabinets"][1]


def test_all_cells_that_differ_are_read():
    """Every number of phase 9, which isn't enabled, and a list: 22 cells."""
    cells = [(cell, b"\1\2" if cell[2] == 23 else 3) for cell in kinds() if cell[:2] == ("phase", 9) and cell[2] != 21]

    async def read():
        street = Street(str(PROGRAM), TWO, Pace(0.0), [])
        await street.open()
        try:
            await download(street, 2, *cells)
            return await cells_of(street, 2, "max8")
        finally:
            await street.close()

    assert asyncio.run(read()) == [[*cell, value if isinstance(value, int) else "0102"] for cell, value in cells]


def test_messages_that_come_while_a_session_changes_are_answered(short):
    async def lived():
        street = Street(str(PROGRAM), TWO, Pace(100.0), [])
        await street.open()
        living, answers = asyncio.create_task(street.live()), []
        try:
            while street.renewals < 3:
                answers += await asyncio.gather(*(street.datagram(1, get(number, CLOCK)) for number in range(20)))
            return answers
        finally:
            street.end()
            await living
            await street.close()

    answers = asyncio.run(lived())
    assert None not in answers and len(answers) > 100


def test_items_of_later_rounds_are_counted_from_the_new_first_round():
    assert later([{"round": 3, "veh": 1}, {"round": 4, "veh": 2}, {"round": 9, "veh": 3}], 3) == [
        {"round": 1, "veh": 2}, {"round": 6, "veh": 3},
    ]  # fmt: skip
