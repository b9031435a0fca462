"""What is read of a device before the tests: its tables, how its time runs, its command."""

import time
from collections.abc import Callable
from typing import Any

from ..plan import live, sources, walk
from ..shared.cells import kinds, put, tables_of, value
from ..shared.fault import Fault
from ..shared.oids import CONTROL, TRANSACTION, object_of
from ..shared.tables import Tables
from .device import Device
from .driving import Bench
from .hands import Hands
from .objects import UP_TIME, name_of
from .watching import Watch

STEP = 0.0
"""The speed of a device whose time advances with each message."""
CLOSE = 0.2
"""By which part sysUpTime may count faster or slower than this machine's clock."""
GROUPED = ("phase", "unit", "preempt", "pattern")


def walked(where: tuple[str, int], community: str) -> dict[Any, int | bytes]:
    """Returns the objects of plans that a device has, as `plan from live` reads them."""
    agent = live.Agent(where[0], where[1], community)
    try:
        return live.walk(agent)
    finally:
        agent.socket.close()


def column_of(cell: tuple[Any, ...]) -> tuple[Any, ...]:
    """Returns the column of a cell."""
    return (cell[0], cell[-1]) if cell[0] in GROUPED else (cell[0],)


def unread(objects: dict[Any, int | bytes], tables: Tables) -> list[tuple[Any, ...]]:
    """Returns the columns of which a device has no object, of tables of which it has some; and those of the unit."""
    names = {cell: object_of(cell) for cell in kinds()}
    there = {cell for cell in kinds() if names[cell] in objects}
    there |= {cell for cell in kinds() if cell[0] == "unit" and value(tables, cell) != Tables().cells.get(cell)}
    known_tables = {cell[0] for cell in there} | {"unit"}
    columns: dict[tuple[Any, ...], bool] = {}
    for cell in kinds():
        if cell[0] in known_tables:
            columns[column_of(cell)] = columns.get(column_of(cell), False) or cell in there
    alternatives: dict[tuple[Any, ...], Any] = {("unit", 5): walk.BACKUP, ("unit", 7): walk.FORCE_MODE}
    return [it for it, is_there in columns.items() if not is_there and alternatives.get(it) not in objects]


def tables_read(where: tuple[str, int], community: str, sheet: str | None) -> tuple[Tables, list[str]]:
    """Returns the tables of a device; what it doesn't have is that of a sheet. Also a line for each part that the sheet
    gave."""
    objects = walked(where, community)
    street = walk.street_of([objects], [f"{where[0]}:{where[1]}"])
    tables, notes = tables_of(street.scenario["cabinets"][0]), list[str]()
    lacking = unread(objects, tables)
    if not lacking:
        return tables, notes
    names = ", ".join(dict.fromkeys(words_of(it) for it in lacking))
    if sheet is None:
        raise Fault(f"the device doesn't have {names}: --sheet FILE says what they are")
    source = sources.load(sheet)
    if source.errors or source.street is None:
        raise Fault("\n".join(f"{sheet}: {it}" for it in source.errors))
    given = tables_of(source.street.scenario["cabinets"][0])
    for cell in kinds():
        if column_of(cell) in lacking:
            put(tables, cell, value(given, cell))
    return tables, [f"from {sheet}: {names}"]


def words_of(column: tuple[Any, ...]) -> str:
    """Returns a column in words."""
    if len(column) == 1:
        return f"the {column[0]} table"
    cell = next(it for it in kinds() if column_of(it) == column)
    return name_of(object_of(cell)).rsplit(".", len(cell) - 2 if cell[0] != "unit" else 1)[0]


def step_of(device: Device) -> int:
    """Returns by how many ticks each message advances the time of a device."""
    first, second = (device.get([UP_TIME]).get(UP_TIME) for _ in range(2))
    if first is None or second is None:
        raise Fault(f"{device.where}: --speed step needs sysUpTime.0")
    if second <= first or (second - first) % 10:
        raise Fault(f"{device.where}: its time doesn't advance by whole tenths of a second with each message")
    return (second - first) // 10


def is_stamped(device: Device, speed: float) -> bool:
    """Tells whether sysUpTime counts hundredths of the device's time."""
    began, first = time.monotonic(), device.get([UP_TIME]).get(UP_TIME)
    time.sleep(0.4)
    took, second = time.monotonic() - began, device.get([UP_TIME]).get(UP_TIME)
    if first is None or second is None:
        return False
    due = 100 * speed * took
    return abs(second - first - due) <= CLOSE * due + 3


def bench_of(
    device: Device, hands: Hands, speed: float, tables: Tables, read: Callable[[], Tables]
) -> tuple[Bench, list[str]]:
    """Returns the bench of a device, and what is said about it. `read` reads its tables again."""
    notes = []
    watch = Watch(device)
    step = step_of(device) if speed == STEP else 0
    stamped = bool(step) or watch.has_time and is_stamped(device, speed)
    if not stamped:
        notes.append("its sysUpTime doesn't count its time: polls are dated by this machine's clock")
        watch.names = [it for it in watch.names if it != UP_TIME]
    if not watch.has_clearance:
        notes.append("it doesn't have phaseStatusGroupPhaseOns: red clearance isn't distinguished from red")
    found = device.get([CONTROL, TRANSACTION])
    bench = Bench(device, watch, hands, speed, step, stamped, tables.copy(), tables.copy())
    bench.read = read
    bench.command, bench.has_transactions = found.get(CONTROL, 0), TRANSACTION in found
    return bench, notes
