"""A run of a scenario: the lines of its trace, for any order in which a cabinet receives the items of a round.

docs/TRACE.md, "How a trace is read". Each expected line is yielded in turn. Where a J line is expected, the caller
sends the journal: `run` the serial one, `check` that of the text.
"""

from collections import defaultdict
from collections.abc import Generator, Iterator
from dataclasses import dataclass
from typing import Optional, Union

from model.cabinet import FIELDS, TICKS, Cabinet
from model.controller import Controller
from model.link import Link
from model.lines import frame_line, journal_line
from model.master import Master, Sent
from model.scenario import Input, Scenario, Stream

Runs = list[tuple[int, int]]
"""A journal in runs of a pass and a number."""


@dataclass(frozen=True)
class JournalDue:
    """A J line of a cabinet is expected, whose journal takes each item of each pass once; `items` has their number by
    pass."""

    cabinet: int
    items: list[int]

    def serial(self) -> Runs:
        """Returns the journal that takes pass after pass."""
        return [(stream, count) for stream, count in enumerate(self.items) if count]

    def is_merge(self, runs: Runs) -> bool:
        """Tells whether a journal takes each item once."""
        taken: dict[int, int] = defaultdict(int)
        for stream, count in runs:
            taken[stream] += count
        return dict(taken) == dict(self.serial())


Due = Generator[Union[bytes, JournalDue], Optional[Runs], None]


class Round:
    """The streams of a cabinet in a round, of which a journal takes the items."""

    def __init__(self, cabinet: Cabinet, inputs: list[Input], frames: dict[Stream, list[bytes]], ticks: int) -> None:
        self.cabinet = cabinet
        self.due = JournalDue(cabinet.number, [len(inputs), *(len(frames[stream]) for stream in Stream), ticks])
        self.inputs = iter(inputs)
        self.frames = {stream.value: iter(frames[stream]) for stream in Stream}

    def item(self, number: int) -> Iterator[bytes]:
        """Takes the next item of a pass, and yields its lines."""
        if number == TICKS:
            yield from self.cabinet.tick()
        elif number == FIELDS:
            self.cabinet.tell(next(self.inputs))
        else:
            yield from self.cabinet.frame(number, next(self.frames[number]))

    def lines(self) -> Due:
        """Gives the lines of the round at the cabinet."""
        runs = yield self.due
        for number, count in runs:
            for _ in range(count):
                yield from self.item(number)


class Run:
    """All that a run of a scenario goes by."""

    def __init__(self, scenario: Scenario) -> None:
        self.scenario = scenario
        self.cabinets = [
            Cabinet(number, Controller(setup.tables, setup.pattern, setup.clock, setup.drift), scenario.community)
            for number, setup in enumerate(scenario.cabinets, 1)
        ]
        self.masters = [Master(number, scenario, setup) for number, setup in enumerate(scenario.cabinets, 1)]
        self.link = Link(scenario)
        self.arrived: list[dict[Stream, list[bytes]]] = [{stream: [] for stream in Stream} for _ in self.cabinets]
        self.inputs: dict[tuple[int, int], list[Input]] = defaultdict(list)
        for item in scenario.inputs:
            self.inputs[item.cabinet, item.round].append(item.what)

    def master_turns(self, number: int) -> tuple[list[bytes], list[Sent]]:
        """Returns the master's notes of a round, and what it sends to each cabinet."""
        turns = [
            master.turn(number, arrived[Stream.POLL], arrived[Stream.LOAD])
            for master, arrived in zip(self.masters, self.arrived)
        ]
        return [note for notes, _ in turns for note in notes], [sent for _, sent in turns]

    def opened_round(self, number: int, cabinet: Cabinet, sent: Sent) -> Round:
        """Returns the round of a cabinet with what master, line and scenario bring to it."""
        cabinet.replies = []
        inputs = self.inputs.get((cabinet.number, number), [])
        return Round(cabinet, inputs, self.link.down(number, cabinet.number, sent), self.scenario.ticks)

    def close_round(self, number: int, cabinet: Cabinet) -> None:
        """Sends a cabinet's replies of a round to the master."""
        replies = {stream: [it.octets for it in cabinet.replies if it.stream == stream.value] for stream in Stream}
        self.arrived[cabinet.number - 1] = self.link.up(number, cabinet.number, replies)

    def round(self, number: int) -> Due:
        """Gives the lines of a round: the master's notes, then, cabinet by cabinet, those of what it receives."""
        yield b"R %d" % number
        notes, sent = self.master_turns(number)
        yield from notes
        for cabinet, frames in zip(self.cabinets, sent):
            yield from self.opened_round(number, cabinet, frames).lines()
            self.close_round(number, cabinet)

    def openings(self) -> Iterator[bytes]:
        """Yields the line of tick 0 of each cabinet."""
        for cabinet in self.cabinets:
            yield frame_line(cabinet.number, 0, cabinet.controller.past.last.frame)

    def lines(self) -> Due:
        """Gives the lines of the trace."""
        yield b"S " + self.scenario.compact
        yield from self.openings()
        for number in range(1, self.scenario.rounds + 1):
            yield from self.round(number)
        yield b"Z %d" % self.scenario.rounds


def trace_lines(scenario: Scenario) -> Iterator[bytes]:
    """Yields the lines of the trace in the serial order."""
    due = Run(scenario).lines()
    given: Runs | None = None
    while True:
        try:
            told = due.send(given)
        except StopIteration:
            return
        given = told.serial() if isinstance(told, JournalDue) else None
        yield told if given is None else journal_line(told.cabinet, given)
