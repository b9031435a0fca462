"""The time base of a cabinet as NTCIP 1201 and 1202 have it: a schedule entry, a day plan, and its actions, made of the
schedule of the scenario's master for the section of the cabinet. They are read only: the master commands the patterns.

One schedule entry has every month, day and date, and names the one day plan. Event n of the day plan is the n-th entry
of the master's schedule for the section, by time of day; an entry later than the last event isn't shown. Action n
commands pattern n; the last three command free operation (0 and 254) and flash (255)."""

from functools import partial

from ...shared.ber import GAUGE, NAME, Arcs, Field, name_content
from ...shared.cells import PATTERNS
from ...shared.clock import DAY_SECONDS
from ...shared.oids import ASC, GLOBAL
from .pdus import whole
from .reads import Front, Read, constant, kept, rows

TIME, TIMEBASE = GLOBAL + (3,), ASC + (5,)
SCHEDULE, DAY_PLAN, ACTIONS = TIME + (3, 2, 1), TIME + (3, 5, 1), TIMEBASE + (3, 1)
"""The rows of timeBaseScheduleTable, timeBaseDayPlanTable and timebaseAscActionTable."""
EVENTS = 48
"""How many events the day plan has."""
COMMANDED = (*PATTERNS, 0, 254, 255)
"""The pattern that each action commands, from action 1 on."""
ALL_MONTHS, ALL_DAYS, ALL_DATES = 0x1FFE, 0xFE, 0xFFFFFFFE
"""The bits of January to December, of Sunday to Saturday, and of the dates 1 to 31; bit 0 isn't used."""
NO_DAYLIGHT_SAVING = 2

Entry = tuple[int, int]
"""A second of the day, and the pattern that is scheduled from then on."""


def entries(front: Front) -> list[Entry]:
    """Returns the master's schedule for the section of a cabinet, by second. Of two for one second the later in the
    list counts."""
    scenario = front.street.scenario
    section = scenario["cabinets"][front.cabinet - 1].get("section", 1)
    own = [it for it in scenario.get("master", {}).get("schedule", ()) if it["section"] == section]
    return sorted({it["second"]: it["pattern"] for it in own}.items())


def action_of(pattern: int) -> int:
    """Returns the number of the action that commands a pattern; 0 if none does."""
    return COMMANDED.index(pattern) + 1 if pattern in COMMANDED else 0


def has_plan(front: Front) -> Field:
    """Returns 1 if the master has a schedule for the section, otherwise 0."""
    return whole(int(bool(entries(front))))


def action_now(front: Front) -> Field:
    """Returns the action that is scheduled at the time of the master's clock, 0 without a schedule."""
    found = entries(front)
    if not found:
        return whole(0)
    clock = front.street.scenario["master"].get("clock", 0)
    now = (clock + front.street.session.taken) // 10 % DAY_SECONDS
    begun = [pattern for second, pattern in found if second <= now]
    return whole(action_of((begun or [found[-1][1]])[-1]))


def event(number: int, column: int, front: Front) -> Field:
    """Returns a cell of the day plan: hour, minute, or the object of the action; what isn't used is 0."""
    found = entries(front)
    second, pattern = found[number - 1] if number <= len(found) else (0, -1)
    if column == 3:
        return whole(second // 3600)
    if column == 4:
        return whole(second // 60 % 60)
    action = action_of(pattern)
    return Field(NAME, name_content(ACTIONS + (1, action) if action else (0, 0)))


def day_plan() -> dict[Arcs, Read]:
    """Returns the cells of the one day plan; its rows have the plan's number and the event's."""
    made: dict[Arcs, Read] = {}
    for number in range(1, EVENTS + 1):
        made[DAY_PLAN + (1, 1, number)] = constant(whole(1))
        made[DAY_PLAN + (2, 1, number)] = constant(whole(number))
        for column in (3, 4, 5):
            made[DAY_PLAN + (column, 1, number)] = kept(partial(event, number, column))
    return made


def timebase() -> dict[Arcs, Read]:
    """Returns the objects."""
    fixed = {
        TIME + (2, 0): NO_DAYLIGHT_SAVING, TIME + (3, 1, 0): 1, TIME + (3, 3, 0): 1, TIME + (3, 4, 0): EVENTS,
        TIMEBASE + (1, 0): 0, TIMEBASE + (2, 0): len(COMMANDED),
    }  # fmt: skip
    made = {name: constant(whole(value)) for name, value in fixed.items()}
    bits = {1: whole(1), 2: whole(ALL_MONTHS), 3: whole(ALL_DAYS), 4: whole(ALL_DATES, GAUGE)}
    made |= {SCHEDULE + (column, 1): constant(value) for column, value in bits.items()}
    made |= {SCHEDULE + (5, 1): kept(has_plan), TIME + (3, 6, 0): kept(has_plan), TIME + (3, 7, 0): kept(has_plan)}
    made |= day_plan()
    nothing = {column: lambda _: constant(whole(0)) for column in (3, 4)}
    numbers = {1: lambda n: constant(whole(n)), 2: lambda n: constant(whole(COMMANDED[n - 1]))}
    made |= rows(ACTIONS, len(COMMANDED), numbers | nothing)
    return made | {TIMEBASE + (4, 0): kept(action_now)}
