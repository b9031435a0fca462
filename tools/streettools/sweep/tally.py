"""Counts what happened in a run: each green, each wait, each local zero, each download, each note.

Only what is asked for is counted. Inputs are taken phase by phase, when something of the phase changes: while its
signal stays the same, a call begins and ends only by them.
"""

import functools
from bisect import bisect_left
from typing import Any

from ..shared.cabinet import Cabinet, Cycle, mode_of
from ..shared.lines import mode
from ..shared.trace_records import Frame
from ..shared.tables import ALL, Tables
from .bands import Greens
from .counts import CabinetCounts, PhaseCounts
from .needs import Needs
from .sensed import Button, Detector, Sensed
from .trace_rows import Over, Row, Said, frame_of

NON_LOCK = 32
CYCLING = ord("C")
PHASES = tuple(ALL)


@functools.lru_cache(maxsize=4096)
def turned(before: bytes, after: bytes, letter: bytes) -> tuple[tuple[int, ...], tuple[int, ...]]:
    """Returns the phases that begin to show a letter between two frames, and those that cease to."""
    shown = letter[0]
    changed = [(phase, now) for phase, was, now in zip(PHASES, before, after) if was != now and shown in (was, now)]
    return (
        tuple(phase for phase, now in changed if now == shown),
        tuple(phase for phase, now in changed if now != shown),
    )


class PhaseTally:
    """A phase of a cabinet: since when it is called, since when a person waits, since when it is green."""

    __slots__ = ("counts", "start", "called", "asked", "green", "detector", "button", "is_walk", "is_lock", "can_walk")

    def __init__(self, start: int, detector: Detector, button: Button) -> None:
        self.counts, self.start = PhaseCounts(), start
        self.detector, self.button = detector, button
        self.called: int | None = None
        self.asked: int | None = None
        self.green: int | None = None
        self.is_walk = self.is_lock = self.can_walk = False

    def follows(self, tables: Tables, phase: int) -> None:
        """Takes over the settings of its calls from tables."""
        self.is_lock = not tables.option(phase, NON_LOCK)
        self.can_walk = tables.phase(phase, 2) > 0

    def sensed(self, until: int) -> None:
        """Processes the vehicle inputs that come before a tick. If the phase isn't green, a call begins with the first
        that turns on; without lock memory it ends as the detector turns off."""
        detector = self.detector
        first = detector.place
        detector.place = bisect_left(detector.ticks, until, first)
        if self.green is not None or first == detector.place or (self.is_lock and self.called is not None):
            return
        if self.is_lock:
            at = detector.ons.find(1, first, detector.place)
            self.called = None if at < 0 else detector.ticks[at]
            return
        for at in range(first, detector.place):
            if not detector.ons[at]:
                self.called = None
            elif self.called is None:
                self.called = detector.ticks[at]

    def pressed(self, until: int) -> None:
        """Takes the presses that come before a tick: with the first a person begins to wait."""
        button = self.button
        first = button.place
        button.place = bisect_left(button.ticks, until, first)
        if first < button.place and self.can_walk and not self.is_walk and self.asked is None:
            self.asked = button.ticks[first]

    def begins(self, tick: int) -> None:
        """Counts a green that begins, and the wait that ends with it."""
        self.green = tick
        self.counts.services += tick >= self.start
        if self.called is not None and self.called >= self.start:
            self.counts.wait.add(tick - self.called)
        self.called = None

    def ends(self, tick: int, ending: str | None) -> None:
        """Counts a green that ends; a vehicle that is still there calls again."""
        begun, self.green = self.green, None
        if begun is not None and begun >= self.start:
            self.counts.green.add(tick - begun)
            if ending is not None:
                self.counts.endings[ending] += 1
        if begun is not None and tick > self.start:
            self.counts.green_ticks += tick - max(begun, self.start)
        self.called = tick if self.detector.is_occupied() else None

    def walks(self, tick: int) -> None:
        """Counts a walk that begins."""
        self.counts.walks += tick >= self.start
        if self.asked is not None and self.asked >= self.start:
            self.counts.walk_wait.add(tick - self.asked)
        self.asked = None

    def close(self, last: int) -> PhaseCounts:
        """Returns the counts at the end of the run."""
        counts = self.counts
        counts.ticks = max(0, last - self.start)
        if self.green is not None:
            counts.green_ticks += max(0, last - max(self.green, self.start))
        counts.waiting = int(self.called is not None and self.called >= self.start)
        counts.walk_waiting = int(self.asked is not None and self.asked >= self.start)
        return counts


class CabinetTally:
    """A cabinet of a run. What happens before `start` is followed, and not counted."""

    def __init__(self, scenario: dict[str, Any], number: int, start: int, needs: Needs, sensed: Sensed) -> None:
        self.cabinet, self.needs = Cabinet(scenario, number), needs
        self.start, self.ticks, self.counts = start, scenario["ticks"], CabinetCounts()
        self.phases = {
            phase: PhaseTally(
                start,
                sensed.detector(number, phase) if needs.waits or needs.endings else Detector(),
                sensed.button(number, phase) if needs.walks else Button(),
            )
            for phase in needs.phases(number)
        }
        self.follows_tables()
        self.street: Greens | None = None
        self.row: Row | None = None
        self.mode, self.since = b"S", 0
        self.picked: tuple[int, int] | None = None
        self.zeros = 0
        self.failed: int | None = None

    def follows_tables(self) -> None:
        """Takes over the settings of calls from the tables in force."""
        for phase, tally in self.phases.items():
            tally.follows(self.cabinet.tables, phase)

    def shown(self, row: Row) -> None:
        """Takes a frame."""
        _, written, vehicles, pedestrians, word, counter, _, _ = row
        before, tick = self.row, int(written)
        if before is None:
            self.opens(row, tick)
        else:
            if counter == b"0" and word[0] == CYCLING and self.needs.cycles:
                self.cycles(before, row)
            if vehicles != before[2]:
                self.changed(row, tick, *turned(before[2], vehicles, b"G"))
            if pedestrians != before[3] and self.needs.walks:
                self.signalled(tick, *turned(before[3], pedestrians, b"W"))
        if word != self.mode:
            self.timed(tick)
            self.mode, self.since = word, tick
            if mode_of(mode(word)).letter not in "CK":
                self.picked = None
        self.row = row

    def opens(self, row: Row, tick: int) -> None:
        """Takes the first frame: its colours don't count as beginnings."""
        green, _ = turned(b"R" * 16, row[2], b"G")
        for phase in green:
            self.cabinet.green[phase] = tick
        if self.street:
            self.street.turned(green, (), tick)
        walks, _ = turned(b"D" * 16, row[3], b"W")
        for phase in walks:
            if phase in self.phases:
                self.phases[phase].pressed(tick)
                self.phases[phase].is_walk = True

    def changed(self, row: Row, tick: int, begun: tuple[int, ...], ended: tuple[int, ...]) -> None:
        """Takes the phases whose greens begin and end with a frame."""
        if self.street and (begun or ended):
            self.street.turned(begun, ended, tick)
        for phase in begun:
            if (tally := self.phases.get(phase)) is not None:
                tally.sensed(tick)
                tally.begins(tick)
            self.cabinet.green[phase] = tick
        frame = frame_of(row) if ended and self.needs.endings else None
        for phase in ended:
            if (tally := self.phases.get(phase)) is not None:
                tally.sensed(tick)
                tally.ends(tick, self.ending(phase, tally.detector, frame) if frame else None)

    def ending(self, phase: int, detector: Detector, frame: Frame) -> str:
        """Returns how the green of a phase ends with a frame."""
        cabinet = self.cabinet
        cabinet.active[phase] = detector.active()
        if detector.is_occupied():
            cabinet.occupied.add(phase)
        else:
            cabinet.occupied.discard(phase)
        return cabinet.ending(phase, frame)

    def signalled(self, tick: int, begun: tuple[int, ...], ended: tuple[int, ...]) -> None:
        """Takes the phases whose walks begin and end with a frame."""
        for phase in begun + ended:
            if (tally := self.phases.get(phase)) is not None:
                tally.pressed(tick)
                tally.is_walk = phase in begun
                if tally.is_walk:
                    tally.walks(tick)

    def take_inputs(self, until: int) -> None:
        """Takes all inputs that come before a tick."""
        for tally in self.phases.values():
            tally.sensed(until)
            tally.pressed(until)

    def cycles(self, before: Row, row: Row) -> None:
        """Takes a frame in which a cycle may begin."""
        self.cabinet.frame = frame_of(before)
        cycle = self.cabinet.cycle(frame_of(row))
        if cycle:
            self.cycled(cycle, self.cabinet.is_met(cycle))

    def cycled(self, cycle: Cycle, met: bool) -> None:
        """Counts a local zero: at a pickup the way to the offset begins, on the offset it ends."""
        is_counted = cycle.tick >= self.start
        self.counts.zeros += is_counted
        self.counts.met += is_counted and met
        if cycle.pickup:
            self.counts.pickups += is_counted
            self.picked, self.zeros = (cycle.tick, cycle.pattern), 0
        elif self.picked:
            self.zeros += 1
        if met and self.picked:
            if self.picked[0] >= self.start:
                self.counts.cycles.add(self.zeros)
                self.counts.seconds.add(cycle.tick - self.picked[0])
            self.picked = None

    def timed(self, tick: int) -> None:
        """Counts the time of the mode that ends."""
        if self.mode[0] == CYCLING and tick > self.start:
            self.counts.coordinated += tick - max(self.since, self.start)

    def over(self, it: Over) -> None:
        """Counts a download that ended."""
        tick = (it.round - 1) * self.ticks
        self.take_inputs(tick + 1)
        self.cabinet.ended(it.load)
        self.follows_tables()
        if tick >= self.start:
            self.counts.accepted += it.load.version is not None
            self.counts.refused += it.load.version is None

    def said(self, it: Said) -> None:
        """Counts a note of the master."""
        is_counted = (it.round - 1) * self.ticks >= self.start
        self.counts.notes += is_counted
        if it.words == "fail":
            self.counts.fails += is_counted
            self.failed = it.round if is_counted else None
        elif it.words == "good" and self.failed is not None:
            self.counts.failed_rounds.add(it.round - self.failed)
            self.failed = None

    def close(self, last: int) -> CabinetCounts:
        """Returns the counts at the end of the run."""
        self.take_inputs(last + 1)
        self.timed(last)
        self.counts.ticks = max(0, last - self.start)
        self.counts.still_failed = int(self.failed is not None)
        return self.counts
