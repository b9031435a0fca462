"""Scenarios as plain data classes. Their fields have the names and the units of docs/SCENARIO.md: a clock is in tenths
of a second since midnight, a tick is 0.1 s. `value()` gives what JSON has; what is None is left out."""

import dataclasses
import json
import os
import pathlib
from dataclasses import dataclass, field
from typing import Any, TypeVar

from streettools.shared.shapes import scenario_faults

from .errors import Refused, own

Cell = list[Any]
"""A cell: the name of a table, the numbers of the row, the column, the value; as `["phase", 2, 8, 43]`."""
JSON_NAMES = {"cls": "class"}
"""Names of JSON that are words of Python."""
T = TypeVar("T")


def written(it: Any) -> Any:
    """Returns a value as JSON has it: data classes as objects, without what is None."""
    if dataclasses.is_dataclass(it):
        given = ((each.name, getattr(it, each.name)) for each in dataclasses.fields(it))
        return {JSON_NAMES.get(name, name): written(value) for name, value in given if value is not None}
    if isinstance(it, (list, tuple)):
        return [written(one) for one in it]
    return it


@dataclass
class Cabinet:
    """A cabinet: its standard table and the cells that change it, the pattern and the clock with which it opens, its
    section. `gain` and `lose` need version 2."""

    base: str | None = None
    cells: list[Cell] | None = None
    pattern: int | None = None
    clock: int | None = None
    section: int | None = None
    gain: int | None = None
    lose: int | None = None


@dataclass
class Entry:
    """An entry of the master's schedule: from a second of the day on a section has a pattern."""

    second: int
    section: int
    pattern: int


@dataclass
class Master:
    """The master: its clock, the number of rounds between its polls, between its settings of clocks and between its
    repeated patterns, its attempts, and its schedule."""

    clock: int | None = None
    poll_every: int | None = None
    clock_every: int | None = None
    pattern_every: int | None = None
    retries: int | None = None
    schedule: list[Entry] | None = None


@dataclass
class Vehicle:
    """The vehicle detector of phase `veh` turns on or off before the first tick of a round."""

    round: int
    cabinet: int
    veh: int
    on: bool = True


@dataclass
class Pedestrian:
    """The push button of phase `ped` is pressed before the first tick of a round."""

    round: int
    cabinet: int
    ped: int


@dataclass
class Preempt:
    """The input of a preempt turns on or off before the first tick of a round."""

    round: int
    cabinet: int
    preempt: int
    on: bool = True


@dataclass
class Load:
    """A download that the master begins in a round."""

    round: int
    cabinet: int
    cells: list[Cell]


@dataclass
class Request:
    """A priority request: arrival and departure in ticks from now. `cls` is the name `class` of JSON."""

    round: int
    cabinet: int
    number: int
    cls: int
    level: int
    phase: int
    arrival: int
    departure: int


@dataclass
class Cancel:
    """A priority request is cancelled."""

    round: int
    cabinet: int
    cancel: int


@dataclass
class Message:
    """A message of other software, in hexadecimal digits."""

    round: int
    cabinet: int
    stream: str
    hex: str


@dataclass
class LinkFault:
    """A fault of the link: what happens to a message of a stream in a round."""

    round: int
    cabinet: int
    stream: str
    way: str
    kind: str
    index: int | None = None
    by: int | None = None
    octet: int | None = None


@dataclass
class Scenario:
    """A scenario for `arterial.run` and `arterial.live` (docs/SCENARIO.md).

    `faults_of_link` is the name `faults` of JSON. The program decides whether a scenario is valid. `faults()` doesn't
    need the program: it lists what is wrong with names, kinds and ranges.

    >>> import arterial
    >>> street = arterial.Scenario(rounds=60, cabinets=[arterial.Cabinet(base="max8")])
    >>> street.json()
    '{"version":1,"rounds":60,"ticks":10,"cabinets":[{"base":"max8"}]}'
    >>> street.inputs = [arterial.Vehicle(round=61, cabinet=1, veh=4)]
    >>> street.faults()
    ['inputs[0].round: expected 1 to 60, found 61']
    """

    rounds: int
    cabinets: list[Cabinet] = field(default_factory=lambda: [Cabinet()])
    ticks: int = 10
    version: int = 1
    community: str | None = None
    master: Master | None = None
    inputs: list[Vehicle | Pedestrian | Preempt] | None = None
    loads: list[Load] | None = None
    priority: list[Request | Cancel] | None = None
    frames: list[Message] | None = None
    faults_of_link: list[LinkFault] | None = None

    def value(self) -> dict[str, Any]:
        """Returns the scenario as a dict with the names of its JSON."""
        found: dict[str, Any] = written(self)
        faults = found.pop("faults_of_link", None)
        head = {name: found.pop(name) for name in ("version", "rounds", "ticks")}
        return head | found | ({} if faults is None else {"faults": faults})

    def json(self) -> str:
        """Returns the text of the scenario in one line; raises `Refused` if a value can't be written as JSON."""
        from .given import of_value

        return of_value(self.value()).decode()

    def save(self, path: str | os.PathLike[str]) -> pathlib.Path:
        """Writes the scenario to a file, and returns its path."""
        with own():
            pathlib.Path(path).write_text(self.json() + "\n", encoding="utf-8")
        return pathlib.Path(path)

    def faults(self) -> list[str]:
        """Returns what is wrong with names, kinds and ranges, each with its path; an empty list if nothing is wrong.
        The rules of tables are checked only by the program and by `Plan.check`."""
        return [f"{it.path}: {it.words}" for it in scenario_faults(json.loads(self.json()))]

    @classmethod
    def of(cls, given: Any) -> "Scenario":
        """Returns the scenario of a dict, of JSON text, of a file, or of a timing sheet. Raises `Refused` with path and
        words if this isn't a scenario."""
        from .given import value_of

        value = value_of(given)
        for fault in scenario_faults(value):
            raise Refused(fault.line, (fault.words,))
        return read(value)


def read(value: dict[str, Any]) -> Scenario:
    """Returns the data classes of a value that has no fault."""
    lists: dict[str, Any] = {
        "cabinets": [Cabinet(**it) for it in value["cabinets"]],
        "inputs": each(value, "inputs", input_of),
        "loads": each(value, "loads", lambda it: Load(**it)),
        "priority": each(value, "priority", request_of),
        "frames": each(value, "frames", lambda it: Message(**it)),
        "faults_of_link": each(value, "faults", lambda it: LinkFault(**it)),
    }
    head = {name: value[name] for name in ("version", "rounds", "ticks", "community") if name in value}
    if "master" in value:
        master = dict(value["master"])
        if "schedule" in master:
            master["schedule"] = [Entry(**it) for it in master["schedule"]]
        head["master"] = Master(**master)
    return Scenario(**head, **lists)


def each(value: dict[str, Any], name: str, made: Any) -> list[Any] | None:
    """Returns the items of a list, None if it isn't there."""
    return [made(it) for it in value[name]] if name in value else None


def input_of(it: dict[str, Any]) -> Vehicle | Pedestrian | Preempt:
    """Returns an input."""
    if "veh" in it:
        return Vehicle(**it)
    return Pedestrian(**it) if "ped" in it else Preempt(**it)


def request_of(it: dict[str, Any]) -> Request | Cancel:
    """Returns a priority request, or its cancel."""
    if "cancel" in it:
        return Cancel(**it)
    return Request(**{"cls" if name == "class" else name: number for name, number in it.items()})
