"""The records of a trace: one for each kind of line, and one for each thing that happens (docs/TRACE.md)."""

from typing import Any, NamedTuple

from .fault import Fault

new = tuple.__new__
"""Makes a record of a class from all its values in one tuple, as `new(Class, (1, 2))`: a third of the time that
`Class(1, 2)` takes."""


class NotATrace(Fault):
    """A line that isn't one of a trace, or not at this place; `line` is its number, from 1."""

    def __init__(self, line: int) -> None:
        super().__init__(f"line {line} is not a line of a trace")
        self.line = line


class Scenario(NamedTuple):
    """The scenario that is run, as its JSON value."""

    value: dict[str, Any]


class Frame(NamedTuple):
    """What a cabinet shows after a tick: 16 letters of colours, 16 of pedestrian signals, the mode as it is written;
    counter and target in ticks of 0.1 s."""

    cabinet: int
    tick: int
    vehicles: str
    pedestrians: str
    mode: str
    counter: int
    target: int
    version: int


class Round(NamedTuple):
    """A round begins."""

    number: int


class Journal(NamedTuple):
    """What a cabinet did in a round: runs of a pass and a number of events, as tuples."""

    cabinet: int
    runs: tuple[tuple[int, int], ...]


class Answer(NamedTuple):
    """A reply of a cabinet, as hexadecimal digits; None if it was silent."""

    cabinet: int
    way: int
    digits: str | None


class Load(NamedTuple):
    """The end of a download: the version that it made, or the rule that refused it and the row."""

    cabinet: int
    number: int
    version: int | None
    rule: int
    row: int


class Note(NamedTuple):
    """A note of the master, in its own words."""

    cabinet: int
    words: str


class End(NamedTuple):
    """The end, after a number of rounds."""

    rounds: int


Record = Frame | Round | Journal | Answer | Load | Note | End


class Input(NamedTuple):
    """An input from the street after a tick: `kind` is veh, ped or preempt, `number` the phase or the preempt."""

    cabinet: int
    tick: int
    kind: str
    number: int
    on: bool


class Answered(NamedTuple):
    """A reply after a tick: `way` is 1 for polls, 2 for downloads, 3 for priority; `digits` None if silent."""

    cabinet: int
    tick: int
    way: int
    digits: str | None


class Ended(NamedTuple):
    """A download's end after a tick: accepted, or refused by a rule in a row."""

    cabinet: int
    tick: int
    load: Load


class Noted(NamedTuple):
    """A note of the master in a round, whose first tick comes after `tick`."""

    cabinet: int
    tick: int
    round: int
    words: str


class Marked(NamedTuple):
    """A remark of a tool at a tick, which no line of a trace has: its kind, and its words."""

    cabinet: int
    tick: int
    kind: str
    words: str


class RoundEnd(NamedTuple):
    """A round is over at this tick."""

    round: int
    tick: int


Happening = Frame | Input | Answered | Ended | Noted | Marked | RoundEnd
