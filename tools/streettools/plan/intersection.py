"""An intersection of a sheet as a cabinet of a scenario: the standard table, the rings as drawn, and what the sheet
says besides."""

import functools
from typing import Any

from ..shared.given import Given
from ..shared.tables import Tables
from . import conflicts, drawing, fields, names, readers
from ..shared.cells import cells_between, put, value
from .fields import one_line
from .pattern_reading import SPLIT_NAMES, read_pattern, read_split
from .started import Read, started, word_of

NAMES = (
    "name", "note", "standard", "command", "clock", "section", "gain", "lose", "rings", "coordination", "phase",
    "sequence",
    "pattern", "split", "preempt", "detector", "travel", "distance", "conflicts",
)  # fmt: skip
HOMES = {
    **dict.fromkeys(("standard", "clock", "section", "rings", "travel", "distance", "conflicts"), "[[intersection]]"),
    **dict.fromkeys(fields.UNIT_FIELDS, "[intersection.coordination]"),
    **dict.fromkeys((*fields.PHASE_FIELDS, *fields.OPTIONS), "[intersection.phase]"),
    **dict.fromkeys(("speed", "grade", "crossing", "width"), "[intersection.phase]"),
    **dict.fromkeys((*fields.PATTERN_FIELDS, *SPLIT_NAMES), "[intersection.pattern.1], or another pattern"),
}  # fmt: skip
"""The right table for names that people write in a wrong one."""

ABOUT = ("name", "kind", "speed", "grade", "crossing", "width")


def read_phase(it: Given, number: int, found: Read) -> None:
    """Reads the row of a phase."""
    it.allow((*ABOUT, *fields.PHASE_FIELDS, *fields.OPTIONS))
    for name, each in fields.PHASE_FIELDS.items():
        new = it.read(name, each.read)
        if new is not None:
            put(found.tables, ("phase", number, each.column), new)
    cell = ("phase", number, 21)
    for name in fields.OPTIONS:
        options = value(found.tables, cell)
        put(
            found.tables,
            cell,
            it.read(name, functools.partial(fields.read_option, name, options=options), options),
        )
    about = names.Phase(
        name=it.read("name", one_line, ""), kind=it.read("kind", word_of("vehicle", "pedestrian"), "vehicle"),
        speed=it.read("speed", readers.measure), grade=it.read("grade", readers.percent),
        crossing=it.read("crossing", readers.measure), width=it.read("width", readers.measure),
    )  # fmt: skip
    if about != names.Phase():
        found.names.phases[number] = about


def fill_partners(found: Read) -> None:
    """Gives each partner the times of the phase that it is like: no walk, no call."""
    for partner, like in found.partners.items():
        for column in (4, 8, 9, 10):
            put(found.tables, ("phase", partner, column), value(found.tables, ("phase", like, column)))
        for column, new in {2: 0, 3: 0, 5: 0, 6: 0, 20: 2, 21: fields.ENABLED}.items():
            put(found.tables, ("phase", partner, column), new)


def read_rows(it: Given, found: Read) -> None:
    """Reads all rows of the tables."""
    for number, row in it.numbered("phase", 16):
        if number in found.partners:
            row.fault("this number is used for the placeholder phase that the rings need: draw it, or leave it out")
        read_phase(row, number, found)
    fill_partners(found)
    used: dict[int, str] = {}
    for number, row in it.numbered("split", 32):
        row.allow(SPLIT_NAMES)
        used[number] = f"split {number}"
        read_split(row, number, found, None, f"split {number}")
    for number, row in it.numbered("pattern", 48):
        read_pattern(row, number, found, used)
    for number, row in it.numbered("preempt", 8):
        row.allow(("name", *fields.PREEMPT_FIELDS))
        for name, each in fields.PREEMPT_FIELDS.items():
            new = row.read(name, each.read)
            if new is not None:
                put(found.tables, ("preempt", number, each.column), new)
        called = row.read("name", one_line, "")
        if called:
            found.names.preempts[number] = called


def read_sequences(it: Given, found: Read) -> None:
    """Reads the orders of the rings. Partners are at the place of the phases that they face."""
    below = it.below("sequence")
    below.allow(map(str, range(1, 17)))
    for number in range(1, 17):
        rings = below.read(str(number), drawing.read_order)
        if rings is not None:
            for ring, order in enumerate(rings, 1):
                put(found.tables, ("sequence", number, ring), with_partners_in(order, ring, rings, found))


def with_partners_in(order: tuple, ring: int, rings: list[tuple], found: Read) -> tuple:
    """Returns the order of a ring with the partners that it lacks, by the order of the sides in the other ring."""
    missing = {partner for partner in found.partners if partner in found.drawn.ring(ring) and partner not in order}
    if not missing or not any(rings):
        return order
    sides = found.drawn.sides
    place = {phase: number for number, side in enumerate(sides) for phase in (*side[0], *side[1])}
    turns = list(dict.fromkeys(place[phase] for phase in rings[2 - ring] if phase in place))
    turns += [number for number in range(len(sides)) if number not in turns]
    laid = []
    for number in turns:
        laid += [it for it in order if place.get(it) == number] + [it for it in sorted(missing) if place[it] == number]
    return (*laid, *(it for it in order if it not in place))


def read(it: Given) -> tuple[Read, dict]:
    """Returns an intersection, and the cabinet that it is in a scenario."""
    it.allow(NAMES, HOMES)
    found = started(it)
    found.names.name = it.read("name", one_line, "")
    found.names.note = it.read("note", readers.text, "")
    found.names.travel = it.read("travel", readers.travel)
    found.names.distance = it.read("distance", readers.measure)
    found.names.conflicts = it.read("conflicts", conflicts.read, [])
    unit = it.below("coordination")
    unit.allow(fields.UNIT_FIELDS)
    for name, each in fields.UNIT_FIELDS.items():
        new = unit.read(name, each.read)
        if new is not None:
            put(found.tables, ("unit", each.column), new)
    sequences = it.table.get("sequence")
    read_rows(it.inner({name: row for name, row in it.table.items() if name != "sequence"}, it.place), found)
    if sequences is not None:
        read_sequences(it, found)
    cabinet: dict[str, Any] = {"base": found.base}
    for name, taken in (
        ("pattern", it.read("command", readers.command)), ("clock", it.read("clock", readers.day_ticks)),
        ("section", it.read("section", readers.number(1, 8))), ("gain", it.read("gain", readers.number(0, 864_000))),
        ("lose", it.read("lose", readers.number(0, 864_000))),
    ):  # fmt: skip
        if taken is not None:
            cabinet[name] = taken
    cells = cells_between(Tables(found.base), found.tables)
    if cells:
        cabinet["cells"] = cells
    return found, cabinet
