"""Walks over a trace with the one reader of traces, and collects the rows of each table."""

import io
from collections.abc import Iterator
from dataclasses import dataclass, field
from typing import Any, NamedTuple

from streettools.shared.cabinet import Cabinet, changes, mode_of, opened
from streettools.shared.trace_reader import TraceReader
from streettools.shared.trace_records import Ended, Frame, Happening, Input, NotATrace, Noted

from .errors import own

STILL = "still green"
"""How a green ends that has not ended with the trace."""


class Green(NamedTuple):
    """A green: `split_ticks` is the time that the split of the pattern gives the phase, None without a pattern."""

    cabinet: int
    phase: int
    start: int
    end: int
    ending: str
    mode: str
    split_ticks: int | None


class Served(NamedTuple):
    """A green with its clearance, under a pattern: the ticks at which green, yellow and red clearance ended."""

    cabinet: int
    pattern: int
    phase: int
    start: int
    green_end: int
    yellow_end: int
    end: int
    ending: str
    split_ticks: int | None


class Zero(NamedTuple):
    """A local zero: a cycle of a pattern begins."""

    cabinet: int
    tick: int
    pattern: int
    is_pickup: bool
    error: int | None
    is_met: bool
    elapsed: int | None


class Note(NamedTuple):
    """A note of the master."""

    cabinet: int
    round: int
    tick: int
    words: str


class Download(NamedTuple):
    """The end of a download."""

    cabinet: int
    tick: int
    number: int
    version: int | None
    rule: int | None
    row: int | None


class Event(NamedTuple):
    """An event of the field's log (docs/EVENTS.md)."""

    cabinet: int
    tick: int
    code: int
    parameter: int


@dataclass
class Rows:
    """The rows of all tables but that of events."""

    frames: list[Frame] = field(default_factory=list)
    greens: list[Green] = field(default_factory=list)
    served: list[Served] = field(default_factory=list)
    zeros: list[Zero] = field(default_factory=list)
    notes: list[Note] = field(default_factory=list)
    downloads: list[Download] = field(default_factory=list)


def reader_of(text: bytes) -> TraceReader:
    """Returns a reader of a trace."""
    return TraceReader(io.BytesIO(text))


def happenings(reader: TraceReader, ends: bool = False) -> Iterator[Happening]:
    """Yields what happened; a trace that isn't whole is refused."""
    yield from reader.happenings(ends)
    if not reader.whole:
        raise NotATrace(reader.line)


class Watch:
    """One cabinet as the walk goes on: the greens that last, and the clearances after them."""

    def __init__(self, scenario: dict[str, Any], number: int, rows: Rows) -> None:
        self.cabinet: Cabinet = opened(scenario, number)
        self.rows = rows
        self.clearing: dict[int, tuple[Green, int]] = {}

    def split_of(self, phase: int, mode: str) -> int | None:
        """Returns the ticks of a phase's split, None without a pattern that is known."""
        known = mode_of(mode)
        if known.letter != "C" or not self.cabinet.told:
            return None
        tables = self.cabinet.tables
        return 10 * int(tables.split(tables.pattern(known.number, 4), phase, 3))

    def take(self, it: Happening) -> None:
        """Takes over what happened at the cabinet."""
        match it:
            case Frame():
                self.shown(it)
            case Input():
                self.cabinet.sensed(it)
            case Ended(number, tick, load):
                self.cabinet.ended(load)
                is_refused = load.version is None
                rule, row = (load.rule, load.row) if is_refused else (None, None)
                self.rows.downloads.append(Download(number, tick, load.number, load.version, rule, row))
            case Noted(number, tick, round_, words):
                self.rows.notes.append(Note(number, round_, tick, words))

    def shown(self, frame: Frame) -> None:
        """Takes over a frame."""
        before, cabinet = self.cabinet.frame, self.cabinet
        self.rows.frames.append(frame)
        if before is not None:
            cycle = cabinet.cycle(frame)
            if cycle:
                found = (cycle.tick, cycle.pattern, cycle.pickup, cycle.error, cabinet.is_met(cycle), cycle.elapsed)
                self.rows.zeros.append(Zero(cabinet.number, *found))
            for phase, was, shows in changes(before.vehicles, frame.vehicles):
                self.turned(phase, was, shows, frame)
        cabinet.shown(frame)

    def turned(self, phase: int, was: str, shows: str, frame: Frame) -> None:
        """Takes over a change of a phase's colour."""
        if was == "G":
            start, ending = self.cabinet.green[phase], self.cabinet.ending(phase, frame)
            split = self.split_of(phase, frame.mode)
            green = Green(self.cabinet.number, phase, start, frame.tick, ending, frame.mode, split)
            self.rows.greens.append(green)
            self.clearing[phase] = (green, frame.tick)
        elif was == "Y" and phase in self.clearing:
            self.clearing[phase] = (self.clearing[phase][0], frame.tick)
        if shows == "R" and phase in self.clearing:
            self.cleared(*self.clearing.pop(phase), frame.tick)

    def cleared(self, green: Green, yellow_end: int, tick: int) -> None:
        """Keeps a phase's service under a pattern, which ends with its clearance."""
        mode = mode_of(green.mode)
        if mode.letter == "C":
            head = (green.cabinet, mode.number, green.phase, green.start, green.end)
            self.rows.served.append(Served(*head, yellow_end, tick, green.ending, green.split_ticks))

    def close(self, tick: int) -> None:
        """Keeps at the end of the trace the greens that last."""
        frame = self.cabinet.frame
        for phase, shows in enumerate(frame.vehicles if frame else "", 1):
            if shows == "G" and frame:
                head = (self.cabinet.number, phase, self.cabinet.green[phase], tick)
                self.rows.greens.append(Green(*head, STILL, frame.mode, self.split_of(phase, frame.mode)))


def rows_of(text: bytes) -> Rows:
    """Returns the rows of a trace, each table in the order of time."""
    rows = Rows()
    with own():
        reader = reader_of(text)
        watches = [Watch(reader.scenario, number, rows) for number in range(1, reader.cabinets + 1)]
        for it in happenings(reader):
            watches[it.cabinet - 1].take(it)  # type: ignore[union-attr]
        for watch in watches:
            watch.close(reader.rounds * reader.ticks)
    rows.frames.sort(key=lambda it: (it.tick, it.cabinet))
    rows.greens.sort(key=lambda it: (it.start, it.cabinet, it.phase))
    rows.served.sort(key=lambda it: (it.start, it.cabinet, it.phase))
    rows.zeros.sort(key=lambda it: (it.tick, it.cabinet))
    rows.downloads.sort(key=lambda it: (it.tick, it.cabinet))
    return rows


def events_of(text: bytes) -> list[Event]:
    """Returns the event log of a trace, as `arterial look events` writes it."""
    from streettools.look import events
    from streettools.shared.trace_records import RoundEnd

    look: Any = events  # its modules have no types
    found: list[Event] = []
    with own():
        reader = reader_of(text)
        logs = [look.Log(reader.scenario, number) for number in range(1, reader.cabinets + 1)]
        touched: dict[int, Any] = {}
        for it in happenings(reader, ends=True):
            if isinstance(it, RoundEnd):
                found += [Event(cabinet, *rest) for rest, cabinet in rows_in(look.round_rows(touched, it.tick))]
            else:
                logs[it.cabinet - 1].take(it)
                touched[it.cabinet] = logs[it.cabinet - 1]
    return found


def rows_in(rows: list[tuple[int, int, int, int]]) -> Iterator[tuple[tuple[int, int, int], int]]:
    """Yields rows of tick, cabinet, code and parameter as what an event holds, and the cabinet."""
    for tick, cabinet, code, parameter in rows:
        yield (tick, code, parameter), cabinet
