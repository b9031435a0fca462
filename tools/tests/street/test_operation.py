"""The front's objects of rings, preempts, the unit and detectors follow the frames and the inputs of a cabinet."""

import asyncio

import pytest
from streettools.shared import ber, oids, snmp
from streettools.street.ntcip.front import Fronts
from streettools.street.ntcip.shown import Volumes
from streettools.street.pace import Pace
from streettools.street.street import Street

from .conftest import PROGRAM

CELLS = [["preempt", 1, 13, "0206"], ["preempt", 1, 10, 5], ["unit", 5, 900], ["unit", 7, 2], ["phase", 4, 10, 5]]
SCENARIO = {"version": 1, "rounds": 9, "ticks": 10, "cabinets": [{"cells": CELLS}]}
RING, PREEMPT = (*oids.ASC, 7, 6, 1, 1, 1), (*oids.ENTRIES["preempt"], 16, 1)
REPORT = (*oids.ASC, 2, 5)


class Central:
    """A central that reads numbers of a cabinet, whose time stands."""

    def __init__(self):
        self.street = Street(str(PROGRAM), SCENARIO, Pace(0.0), [])
        self.fronts = Fronts(self.street)

    async def read(self, *names):
        """Returns the numbers of some objects."""
        binds = [snmp.Binding(name, ber.Field(ber.NULL, b"")) for name in names]
        octets = snmp.octets_of(snmp.Message(snmp.V2C, b"public", snmp.GET, 1, 0, 0, binds))
        reply = snmp.message_of(await self.fronts.datagram(1, octets))
        return [ber.number_of(it.value.content) if it.value.tag == ber.INTEGER else None for it in reply.bindings]

    async def after(self, ticks, *names):
        """Lets ticks go by, and returns the numbers of some objects."""
        await self.street.session.take(ticks)
        found = await self.read(*names)
        return found[0] if len(names) == 1 else found


def lived(story):
    """Runs a story with a central."""

    async def run():
        central = Central()
        await central.street.open()
        try:
            return await story(central)
        finally:
            await central.street.close()

    return asyncio.run(run())


def test_the_status_of_a_ring_follows_its_colours():
    """Start-up ends at tick 60 with green for phase 2, whose minimum is 10 s; yellow lasts 4 s, red clearance 1.5 s."""

    async def story(central):
        found = [await central.after(it, RING) for it in (20, 50, 110)]
        await central.street.input(b"veh 1 4 on")
        found += [await central.after(it, RING) for it in (5, 40)]
        return [*found, await central.after(0, (*RING[:-1], 2))]

    # red rest, minimum green, green rest; phase 4 calls: yellow, red clearance; ring 2 waits at the same barrier
    assert lived(story) == [6, 0, 3, 4, 5, 5]


def test_a_green_with_a_call_of_another_phase_is_an_extension():
    async def story(central):
        await central.street.input(b"veh 1 2 on")
        await central.street.input(b"veh 1 4 on")
        return await central.after(170, RING)

    # phase 2 is green since tick 61, has had its 10 s, and its detector is on
    assert lived(story) == 1


def test_the_state_of_a_preempt_is_that_of_the_mode():
    async def story(central):
        found = [await central.after(200, PREEMPT)]
        await central.street.input(b"preempt 1 1 on")
        found += [await central.after(it, PREEMPT) for it in (0, 60)]
        return [*found, await central.after(0, (*PREEMPT[:-1], 2))]

    # not active, its input is on, dwell on the phases that are green; preempt 2 isn't active
    assert lived(story) == [2, 3, 6, 2]


def test_numbers_of_the_unit_are_those_of_the_tables():
    """Backup time, red revert, and the force mode: floating is 2 in the profile as in NTCIP 1202."""
    names = [(*oids.ASC, *it, 0) for it in ((3, 3), (3, 4), (4, 4), (4, 1), (4, 6), (3, 1))]
    assert lived(lambda central: central.read(*names)) == [900, 5, 2, 0, 2, 0]


def test_what_cannot_be_had_is_refused():
    """PhaseNexts, ring control, phase omits, alarm groups, special functions, systemSyncControl."""
    names = [(*oids.STATUS_GROUP, 11, 1), (*oids.ASC, 7, 5, 1, 2, 1), (*oids.PHASE_CONTROL, 2, 1),
             (*oids.ASC, 3, 11, 0), (*oids.ASC, 3, 13, 0), (*oids.ASC, 4, 15, 0)]  # fmt: skip
    assert lived(lambda central: central.read(*names)) == [None] * len(names)


def test_volumes_and_occupancies_are_those_of_the_last_minute():
    """Two vehicles on detector 4 in the first minute, of 3 s each: 6 of 60 s are 20 half percents."""

    async def story(central):
        for _ in range(2):
            await central.street.input(b"veh 1 4 on")
            await central.street.session.take(30)
            await central.street.input(b"veh 1 4 off")
        names = [(*REPORT, 1, 0), (*REPORT, 4, 1, 1, 4), (*REPORT, 4, 1, 2, 4), (*REPORT, 4, 1, 1, 2)]
        return [await central.after(it, *names) for it in (0, 539, 1, 600)]

    assert lived(story) == [[0, 0, 0, 0], [0, 0, 0, 0], [1, 2, 20, 0], [2, 0, 0, 0]]


@pytest.mark.parametrize("ticks", [1, 600])
def test_a_vehicle_that_stays_is_counted_once(ticks):
    """It comes with round 31 of rounds of 10 ticks, after 30 s, and stays."""
    volumes = Volumes()
    volumes.began({"ticks": 10})
    volumes.told(1, 3, True, 31)
    found = []
    for _ in range(0, 1200, ticks):
        volumes.heard(b"tick %d" % ticks, [])
        found.append(volumes.last.get((1, 3)))
    assert list(dict.fromkeys(it for it in found if it)) == [(1, 100), (0, 200)]
