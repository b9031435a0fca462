"""What a page has of a trace: each cabinet's frames, local zeros, barriers, ends of greens, calls and marks.

Frames are kept as they are in the trace; all else that needs the tables in force is worked out here, as for the other
pictures.
"""

from collections.abc import Iterator
from typing import Any, NamedTuple, Protocol

from streettools.shared import answers
from streettools.shared.answers import Cancelled, ClockNamed, Requested
from streettools.shared.cabinet import changes, mode_of, opened
from streettools.shared.trace_records import Answered, Ended, Frame, Happening, Input, Load, Marked, Noted, RoundEnd
from streettools.shared.plans import coordinated
from streettools.shared.tables import ALL

from .tables import FIELDS, Table, Words

KINDS = ("note", "accepted", "refused", "clock", "priority", "breach")
"""The kinds of marks; `parts/marks.js` has their letters."""

CALLS = ("veh", "ped", "preempt")
NOTE, ACCEPTED, REFUSED, CLOCK, PRIORITY, BREACH = range(len(KINDS))


class Readable(Protocol):
    """What a page is made of: the reader of a trace, or of something else that has cabinets and what happened."""

    scenario: dict[str, Any]

    @property
    def cabinets(self) -> int:
        """Returns the number of cabinets."""

    @property
    def rounds(self) -> int:
        """Returns the number of rounds."""

    @property
    def ticks(self) -> int:
        """Returns the ticks of a round."""

    def happenings(self) -> Iterator[Happening]:
        """Yields what happened, for each cabinet in the order of time."""

    def finish(self) -> None:
        """Makes sure that all was read."""


class Shared(NamedTuple):
    """Texts that all cabinets share: what phases and walks show together, modes, ends of greens, words of marks."""

    shown: Words
    modes: Words
    endings: Words
    words: Words


def set_words(refused) -> str:
    """Returns the words for a Set that was refused."""
    value = "" if refused.value is None else f" = {refused.value}"
    download = "" if refused.download is None else f", download {refused.download}"
    return f"refused Set: {refused.object}{value}{download}, {refused.error}"


class CabinetNumbers:
    """A cabinet's tables of numbers, filled as the trace is read. `rings` tells the ring of each phase from a tick on,
    `pairs` the coordinated phases of ring 1 and ring 2."""

    def __init__(self, scenario: dict[str, Any], number: int, shared: Shared):
        self.cabinet, self.shared = opened(scenario, number), shared
        self.tables = {name: Table(fields) for name, fields in FIELDS.items()}
        self.side: int | None = None
        self.rings: list[tuple[int, str]] = []
        self.pairs: list[tuple[int, int, int]] = []
        self.laid(0)
        self.paired(0, self.opening_pair())

    def opening_pair(self) -> tuple[int, int]:
        """Returns the coordinated phases of the pattern that opens, or of the first that has such, or else 2 and 6."""
        tables = self.cabinet.tables
        chosen = [it for it in (self.cabinet.opening, *tables.patterns()) if it in tables.patterns()]
        return next((pair for pair in (coordinated(tables, it) for it in chosen) if pair), (2, 6))

    def laid(self, tick: int) -> None:
        """Processes the rings of the tables in force."""
        tables = self.cabinet.tables
        digits = "".join(str(tables.phase(phase, 22) if tables.option(phase, 1) else 0) for phase in ALL)
        if not self.rings or self.rings[-1][1] != digits:
            self.rings.append((tick, digits))

    def paired(self, tick: int, pair: tuple[int, int]) -> None:
        """Processes coordinated phases."""
        if not self.pairs or self.pairs[-1][1:] != pair:
            self.pairs.append((tick, *pair))

    def mark(self, tick: int, kind: int, text: str) -> None:
        """Keeps a mark with its words."""
        self.tables["marks"].add(tick, kind, self.shared.words.number(text))

    def take(self, happening: Happening) -> None:
        """Processes what happened at the cabinet."""
        match happening:
            case Frame():
                self.shown(happening)
            case Input(_, tick, kind, number, on):
                self.cabinet.sensed(happening)
                self.tables["calls"].add(tick, CALLS.index(kind), number, int(on))
            case Ended(_, tick, load):
                self.ended(tick, load)
            case Noted(_, tick, _, words):
                self.mark(tick, NOTE, f"master notes: {words}")
            case Answered(_, tick, _, str() as digits):
                self.answered(tick, digits)
            case Marked(_, tick, kind, words):
                self.mark(tick, KINDS.index(kind), words)

    def ended(self, tick: int, load: Load) -> None:
        """Keeps the end of a download."""
        self.cabinet.ended(load)
        if load.version is None:
            self.mark(tick, REFUSED, f"download {load.number} refused by rule {load.rule} in row {load.row}")
        else:
            self.mark(tick, ACCEPTED, f"download {load.number} accepted, version {load.version}")
            self.laid(tick)

    def answered(self, tick: int, digits: str) -> None:
        """Keeps the orders in a reply, and that it refuses a Set."""
        refused = answers.refused(digits)
        if refused is not None:
            self.mark(tick, REFUSED, set_words(refused))
        for order in answers.orders(digits):
            match order:
                case ClockNamed(ticks) if self.cabinet.clock.named(ticks, tick):
                    self.mark(tick, CLOCK, f"clock set to {ticks}")
                case Requested(number=number, departure=departure):
                    self.mark(tick, PRIORITY, f"priority request {number}, departure in {departure} ticks")
                case Cancelled(number):
                    self.mark(tick, PRIORITY, f"priority request {number} cancelled")

    def shown(self, frame: Frame) -> None:
        """Keeps a frame, and what begins and ends with it."""
        shared, before = self.shared, self.cabinet.frame
        self.tables["frames"].add(
            frame.tick, shared.shown.number(f"{frame.vehicles} {frame.pedestrians}"), shared.modes.number(frame.mode),
            frame.counter, frame.target, frame.version,
        )  # fmt: skip
        if before is not None:
            self.cycled(frame)
            self.changed(before, frame)
        self.cabinet.shown(frame)

    def cycled(self, frame: Frame) -> None:
        """Keeps a local zero, by how much it is late or early, and the coordinated phases of the pattern."""
        mode = mode_of(frame.mode)
        plan = self.cabinet.plan(mode.number) if mode.letter in "CK" else None
        if plan:
            self.paired(frame.tick, plan.coordinated)
        cycle = self.cabinet.cycle(frame)
        if cycle:
            told, met = cycle.error is not None, self.cabinet.is_met(cycle)
            self.tables["zeros"].add(
                cycle.tick, cycle.pattern, int(cycle.pickup), int(told), cycle.error or 0, int(met)
            )  # fmt: skip

    def changed(self, before: Frame, frame: Frame) -> None:
        """Keeps how greens end with a frame, and a barrier if a phase of another side turns green."""
        for phase, was, shows in changes(before.vehicles, frame.vehicles):
            if was == "G":
                ending = self.shared.endings.number(self.cabinet.ending(phase, frame))
                self.tables["greens"].add(frame.tick, phase, ending)
            if shows == "G":
                side = self.cabinet.side(phase)
                if self.side not in (None, side):
                    self.tables["barriers"].add(frame.tick)
                self.side = side


def collect(reader: Readable) -> tuple[list[CabinetNumbers], Shared]:
    """Reads the trace and returns what is kept of each cabinet, and the texts that they share."""
    shared = Shared(Words(), Words(), Words(), Words())
    cabinets = [CabinetNumbers(reader.scenario, number, shared) for number in range(1, reader.cabinets + 1)]
    for happening in reader.happenings():
        if not isinstance(happening, RoundEnd):
            cabinets[happening.cabinet - 1].take(happening)
    return cabinets, shared
