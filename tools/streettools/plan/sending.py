"""Puts new tables into devices by SNMP: each intersection's own into its device.

First every device is read. Nothing is set if one of them isn't the intersection's: if it has another name, if its
tables aren't those of the old plan, or if nothing distinguishes it from the device of another intersection. Then each
download is sent, and read back.
"""

import time
from collections.abc import Iterator
from dataclasses import dataclass, field
from typing import Any

from ..cabinet.messages import GET, OCTETS, SET, Reply
from ..shared.cells import differing, kinds, tables_of, value
from ..shared.fault import Fault
from ..shared.oids import BEGIN, DETAIL, FINISH, ID, OUTCOME, PART, ROW, STATE, SYSTEM, TOTAL, object_of
from ..shared.tables import Cell, Tables, Value
from .addresses import Place
from .cell_words import change, place, shown
from .live import NO_SUCH_NAME, Agent, dotted
from .loads import CELLS_OF_A_PART
from .reading import Street
from .walk import Name

SYS_NAME: Name = SYSTEM + (5, 0)
"""sysName (RFC 3418): the name of a device."""
STAGED, REPEATED, VERIFIED, ACCEPTED, REFUSED = 1, 2, 3, 4, 8
OUTCOMES = {5: "wrong id", 6: "wrong part", 7: "not verified", REFUSED: "refused"}
TRIES = 128
"""How many ids are tried until the device takes one: each must be greater than those before it."""
MOST_SHOWN = 3
Cells = list[list[Any]]
"""Cells with their new values, as a scenario's download has them."""
IN_FORCE_SECONDS = 5.0
"""How long accepted tables may take until they are in force."""


@dataclass
class Load:
    """What an intersection's device gets: its number and name, where it is, its tables before and after, and the
    downloads between them, each a list of cells. `alike` are the intersections that only a name distinguishes from it,
    `called_before` is its name in the old plan, `held` the intersections by their tables in the old plan."""

    number: int
    called: str
    where: Place
    old: Tables
    new: Tables
    downloads: list[Cells] = field(default_factory=list)
    alike: list[str] = field(default_factory=list)
    called_before: str = ""
    held: dict[tuple[Value, ...], str] = field(default_factory=dict)

    def __str__(self) -> str:
        return f"intersection {self.number} ({self.called}) at {self.where}"

    def names(self) -> set[str]:
        """Returns the names that its device may have: that in the new plan, and that in the old one."""
        return {" ".join(it.split()) for it in (self.called, self.called_before)}

    def lines(self) -> Iterator[str]:
        """Yields the steps to do, in words."""
        count, cells = len(self.downloads), differing(self.old, self.new)
        yield f"{self}: {count} download{'s'[: count - 1]}, {len(cells)} value{'s'[: len(cells) - 1]} to change"
        for cell in cells:
            yield f"  {change(cell, value(self.old, cell), value(self.new, cell))}"


class Wrong(Fault):
    """A device can't be loaded, in words."""


class Device:
    """The device of an intersection."""

    def __init__(self, load: Load, agent: Agent) -> None:
        self.load, self.agent = load, agent

    def wrong(self, words: str) -> Wrong:
        """Returns the refusal of this device."""
        return Wrong(f"{self.load}: {words}")

    def value_at(self, name: Name) -> Value | None:
        """Returns the value of an object; None if the device doesn't have it."""
        reply = self.agent.ask(GET, [(name, None)])
        if reply.status == NO_SUCH_NAME:
            return None
        return self.values_of(reply, [name])[0]

    def values_of(self, reply: Reply, asked: list[Name]) -> list[Value]:
        """Returns the values of a reply to a Get."""
        if reply.status == NO_SUCH_NAME and 1 <= reply.index <= len(asked):
            raise self.wrong(f"it has no object {dotted(asked[reply.index - 1])}")
        if reply.status or [name for name, _, __ in reply.bindings] != asked:
            raise self.wrong(f"it answers Get with status {reply.status}")
        return [
            content if tag == OCTETS else int.from_bytes(content, "big", signed=True)
            for _, tag, content in reply.bindings
        ]

    def read(self, cells: list[Cell]) -> dict[Cell, Value]:
        """Returns the values of some cells."""
        found: dict[Cell, Value] = {}
        for at in range(0, len(cells), CELLS_OF_A_PART):
            part = cells[at : at + CELLS_OF_A_PART]
            asked = [object_of(cell) for cell in part]
            reply = self.agent.ask(GET, [(name, None) for name in asked])
            for cell, it in zip(part, self.values_of(reply, asked), strict=True):
                found[cell] = tuple(it) if isinstance(it, bytes) else it
        return found

    def name(self) -> str:
        """Returns what the device is called; empty if it has no name."""
        found = self.value_at(SYS_NAME)
        return " ".join(found.decode("utf-8", "replace").split()) if isinstance(found, bytes) else ""

    def check(self, by_address: bool) -> bool:
        """Refuses a device that isn't the intersection's, or that takes no downloads; it is only read. Returns whether
        it is to be loaded: not if it has the new plan already."""
        name = self.name()
        if name and name not in self.load.names():
            shown_name = "".join(it if it.isprintable() else "?" for it in name)
            raise self.wrong(f"the device there is called {shown_name!r} (sysName)")
        if self.value_at(STATE) is None:
            words = "it isn't a cabinet of this bench, and real controllers aren't loaded"
            raise self.wrong(f"the device has no objects of downloads ({dotted(STATE[:-2])}): {words}")
        found = self.read(list(kinds()))
        other = [cell for cell in kinds() if found[cell] != value(self.load.old, cell)]
        if other and any(found[cell] != value(self.load.new, cell) for cell in kinds()):
            raise self.wrong(self.not_the_old_plan(other, found))
        if self.load.alike and not name and not by_address:
            words = f"its tables are also those of {', '.join(self.load.alike)}, and the device has no name"
            raise self.wrong(f"{words}: nothing tells it from theirs. With --by-address its address does")
        return not other

    def not_the_old_plan(self, other: list[Cell], found: dict[Cell, Value]) -> str:
        """Returns the words for tables that aren't those of the old plan."""
        said = [f"{place(it)} is {shown(it, found[it])}, not {shown(it, value(self.load.old, it))}" for it in other]
        more = f"; and {len(said) - MOST_SHOWN} more" if len(said) > MOST_SHOWN else ""
        whose = self.load.held.get(tuple(found[cell] for cell in kinds()))
        hint = f"`./arterial plan from live {self.load.where}` writes what it has"
        hint = f"they are those of {whose}" if whose else hint
        return f"its tables aren't those of the old plan: {'; '.join(said[:MOST_SHOWN])}{more}; {hint}"

    def set(self, bindings: list[tuple[Name, int | bytes | None]]) -> Reply:
        """Sets objects, and returns the answer."""
        return self.agent.ask(SET, bindings)

    def begin(self, first: int) -> int:
        """Begins a download with the first id from this one on that the device takes, and returns that."""
        for number in range(first, first + TRIES):
            if self.set([(BEGIN, number)]).status == 0 and self.value_at(OUTCOME) == STAGED:
                return number
        raise self.wrong(f"it takes no id of {first} to {first + TRIES - 1}; --id names a greater one")

    def step(self, bindings: list[tuple[Name, int | bytes | None]], outcome: int) -> None:
        """Sets the objects of a step of a download, which must have this outcome. The outcome is that of a repeated Set
        if the answer to the first try was lost."""
        status = self.set(bindings).status
        said, rule, row = (self.value_at(it) for it in (OUTCOME, DETAIL, ROW))
        if status or said not in (outcome, REPEATED):
            more = f": rule {rule} at row {row}" if said == REFUSED else ""
            words = f"the download was not taken ({OUTCOMES.get(said or 0, said)}{more}); nothing of it is in force"
            raise self.wrong(words)

    def download(self, cells: Cells, first: int) -> int:
        """Sends a download and reads it back; returns its id."""
        number = self.begin(first)
        parts = [cells[at : at + CELLS_OF_A_PART] for at in range(0, len(cells), CELLS_OF_A_PART)]
        for count, part in enumerate(parts, 1):
            rows = [
                (object_of(tuple(cell)), bytes.fromhex(new) if isinstance(new, str) else new) for *cell, new in part
            ]
            self.step([(ID, number), (PART, count), *rows], STAGED)
        self.step([(ID, number), (TOTAL, len(parts))], VERIFIED)
        self.step([(ID, number), (FINISH, 1)], ACCEPTED)
        self.read_back(cells)
        return number

    def read_back(self, cells: Cells) -> None:
        """Waits until the cells of a download have their values."""
        due = {tuple(cell): tuple(bytes.fromhex(new)) if isinstance(new, str) else new for *cell, new in cells}
        end = time.monotonic() + IN_FORCE_SECONDS
        while self.read(list(due)) != due:
            if time.monotonic() > end:
                raise self.wrong("the download was accepted, but isn't in force: the cabinet's time stands still?")
            time.sleep(0.05)


def whole(tables: Tables) -> tuple[Value, ...]:
    """Returns all values of tables, in their order."""
    return tuple(value(tables, cell) for cell in kinds())


def alike(both: list[tuple[Tables, Tables]]) -> list[list[int]]:
    """Returns for each intersection, with its tables before and after, the numbers of those that only a name
    distinguishes from it: whose tables, before or after, are also its own."""
    held = [{whole(before), whole(after)} for before, after in both]
    return [
        [number for number, other in enumerate(held, 1) if other is not mine and other & mine] for mine in held
    ]


def loads_of(old: Street, new: Street, found: list[dict[str, Any]], places: dict[int, Place]) -> list[Load]:
    """Returns what each intersection's device gets, by the downloads between two plans. An intersection that changes
    and has no address is refused."""
    streets = zip(old.scenario["cabinets"], new.scenario["cabinets"], strict=True)
    both = [(tables_of(before), tables_of(after)) for before, after in streets]
    same, made = alike(both), dict[int, Load]()
    held = {
        whole(before): f"intersection {number} ({old.names.called(number)})"
        for number, (before, _) in enumerate(both, 1)
    }
    for load in found:
        number = load["cabinet"]
        if number not in places:
            words = f"intersection {number} ({new.names.called(number)}) also changes, and has no address"
            raise Fault(f"{words}: {number}=HOST:PORT, or --only with the numbers of those that are to be loaded")
        if number not in made:
            made[number] = Load(number, new.names.called(number), places[number], *both[number - 1])
            made[number].called_before, made[number].held = old.names.called(number), held
            made[number].alike = [f"intersection {at} ({new.names.called(at)})" for at in same[number - 1]]
        made[number].downloads.append(load["cells"])
    return list(made.values())


def send(loads: list[Load], community: str, first: int, by_address: bool) -> Iterator[str]:
    """Reads all devices, then sends each its downloads; yields what was done, in words. All devices that can't be
    loaded are named at once."""
    devices = [Device(it, Agent(it.where.host, it.where.port, community)) for it in loads]
    faults, waiting = [], []
    for it in devices:
        try:
            waiting += [it] if it.check(by_address) else []
        except Fault as fault:
            faults.append(str(fault))
    if faults:
        raise Wrong("\n".join([*faults, "nothing was set"]))
    yield f"{len(devices)} device{'s'[: len(devices) - 1]} read: each is its intersection's"
    for it in devices:
        if it not in waiting:
            yield f"{it.load}: it has the new plan already"
            continue
        number = first
        for cells in it.load.downloads:
            number = it.download(cells, number) + 1
        yield f"{it.load}: loaded, and read back"
