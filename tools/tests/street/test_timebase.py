"""The front's time base is the schedule of the scenario's master for the section of the cabinet."""

import asyncio

from streettools.shared import ber, oids, snmp
from streettools.street.ntcip.front import Fronts
from streettools.street.pace import Pace
from streettools.street.street import Street

from .conftest import PROGRAM

TIME, ASC = (*oids.GLOBAL, 3), oids.ASC
HOUR, MINUTE, ACTION = ((*TIME, 3, 5, 1, column, 1) for column in (3, 4, 5))
NOW = (*ASC, 5, 4, 0)
SCHEDULE = [
    {"second": 32_400, "section": 1, "pattern": 2},
    {"second": 25_200, "section": 1, "pattern": 1},
    {"second": 79_230, "section": 1, "pattern": 254},
    {"second": 30_000, "section": 2, "pattern": 7},
]
"""Section 1: pattern 1 from 7:00, 2 from 9:00, free from 22:00:30. Section 2: pattern 7 from 8:20."""


def asked(clock, schedule, names, ticks=0, kind=snmp.GET):
    """Returns the values of some objects of the second cabinet of a street, whose first is of section 2."""
    master = {"clock": clock} | ({"schedule": schedule} if schedule is not None else {})
    scenario = {"version": 1, "rounds": 9, "ticks": 10, "cabinets": [{"section": 2}, {"section": 1}], "master": master}

    async def run():
        street = Street(str(PROGRAM), scenario, Pace(0.0), [])
        fronts = Fronts(street)
        await street.open()
        try:
            await street.session.take(ticks)
            binds = [snmp.Binding(name, ber.Field(ber.NULL, b"")) for name in names]
            octets = snmp.octets_of(snmp.Message(snmp.V2C, b"public", kind, 1, 0, 0, binds))
            return snmp.message_of(await fronts.datagram(2, octets))
        finally:
            await street.close()

    reply = asyncio.run(run())
    values = [it.value for it in reply.bindings]
    return reply.first, [ber.number_of(it.content) if it.tag == ber.INTEGER else it for it in values]


def test_the_events_of_the_day_plan_are_those_of_the_section_by_time_of_day():
    """7:00, 9:00 and 22:00 (its seconds are left out); the fourth event isn't used."""
    names = [(*column, event) for event in (1, 2, 3, 4) for column in (HOUR, MINUTE)]
    assert asked(0, SCHEDULE, names) == (0, [7, 0, 9, 0, 22, 0, 0, 0])


def test_an_event_names_the_action_of_its_pattern():
    """Actions 1 and 2 command patterns 1 and 2; action 50 commands 254, which is free operation; the last is 255."""
    objects = [ber.Field(ber.NAME, ber.name_content((*ASC, 5, 3, 1, 1, it))) for it in (1, 2, 50)]
    nothing = ber.Field(ber.NAME, ber.name_content((0, 0)))
    assert asked(0, SCHEDULE, [(*ACTION, it) for it in (1, 2, 3, 4)]) == (0, [*objects, nothing])
    patterns = [(*ASC, 5, 3, 1, 2, it) for it in (1, 48, 49, 50, 51)]
    assert asked(0, SCHEDULE, patterns) == (0, [1, 48, 0, 254, 255])


def test_the_action_now_follows_the_masters_clock_over_midnight():
    """At 6:00 it is that of the evening before (254, action 50); ten ticks later than 6:59:59 it is 7:00:00."""
    assert asked(216_000, SCHEDULE, [NOW]) == (0, [50])
    assert asked(251_990, SCHEDULE, [NOW], 9) == (0, [50])
    assert asked(251_990, SCHEDULE, [NOW], 10) == (0, [1])
    assert asked(400_000, SCHEDULE, [NOW]) == (0, [2])


def test_without_a_schedule_there_is_no_day_plan():
    names = [(*TIME, 3, 2, 1, 5, 1), (*TIME, 3, 6, 0), (*TIME, 3, 7, 0), NOW, (*HOUR, 1)]
    assert asked(0, None, names) == (0, [0, 0, 0, 0, 0])
    assert asked(0, SCHEDULE, names) == (0, [1, 1, 1, 50, 7])


def test_of_two_entries_for_one_second_the_later_in_the_list_counts():
    twice = [*SCHEDULE, {"second": 25_200, "section": 1, "pattern": 5}]
    assert asked(252_000, twice, [NOW, (*HOUR, 2)]) == (0, [5, 9])


def test_a_pattern_that_no_action_commands_has_no_object():
    odd = [{"second": 0, "section": 1, "pattern": 200}]
    assert asked(0, odd, [NOW, (*HOUR, 1)]) == (0, [0, 0])


def test_a_set_is_refused_as_not_writable():
    """Only the scenario's master has a schedule. Status 17 is notWritable (RFC 3416)."""
    assert asked(0, SCHEDULE, [(*HOUR, 1)], kind=snmp.SET)[0] == 17
