"""What a scenario says.

docs/SCENARIO.md, "Names" to "The rules of tables".
"""

from dataclasses import dataclass
from enum import Enum
from typing import Any, Union

from model.orders import Drift
from model.tables import Tables


@dataclass(frozen=True)
class Detector:
    """A vehicle detector goes on or off."""

    phase: int
    on: bool


@dataclass(frozen=True)
class Button:
    """A push button is pressed."""

    phase: int


@dataclass(frozen=True)
class PreemptInput:
    """The input of a preempt goes on or off."""

    number: int
    on: bool


Input = Union[Detector, Button, PreemptInput]


class Stream(Enum):
    """The streams of frames, by the passes that bring them."""

    POLL = 1
    LOAD = 2
    PRIORITY = 3


class Way(Enum):
    """The way of a frame: to the cabinet, or a reply of it."""

    DOWN = "down"
    UP = "up"


class Harm(Enum):
    """What the line does to a frame."""

    LOSE = "lose"
    REPEAT = "repeat"
    LATE = "late"
    FLIP = "flip"
    CUT = "cut"


@dataclass(frozen=True)
class CabinetSetup:
    """What a cabinet opens with."""

    tables: Tables
    pattern: int
    clock: int
    section: int
    drift: Drift


@dataclass(frozen=True)
class Entry:
    """An entry of the master's schedule."""

    second: int
    section: int
    pattern: int


@dataclass(frozen=True)
class MasterSetup:
    """What the master does."""

    clock: int
    poll_every: int
    clock_every: int
    pattern_every: int
    retries: int
    schedule: list[Entry]


@dataclass(frozen=True)
class Item:
    """Something that a scenario has in a round at a cabinet: an input, a download's cells, a request or the number
    of one that is taken back, or the octets of a frame. `place` is its place in its list."""

    round: int
    cabinet: int
    place: int
    what: Any


@dataclass(frozen=True)
class FrameItem:
    """A frame of the scenario's own."""

    stream: Stream
    octets: bytes


@dataclass(frozen=True)
class Fault:
    """A fault of the line."""

    stream: Stream
    way: Way
    index: int
    harm: Harm
    by: int
    octet: int


@dataclass(frozen=True)
class Scenario:
    """All that a scenario says."""

    rounds: int
    ticks: int
    community: bytes
    cabinets: list[CabinetSetup]
    master: MasterSetup
    inputs: list[Item]
    loads: list[Item]
    priority: list[Item]
    frames: list[Item]
    faults: list[Item]
    compact: bytes
