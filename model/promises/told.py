"""What a trace says of each cabinet: its frames, the tables of its versions, and what it received.

docs/TRACE.md. The tables of a version are the opening ones with the cells of the downloads that the L lines accept;
these cells are in the A lines, since an answer without a fault repeats what it answers.
"""

from collections.abc import Iterator
from dataclasses import dataclass, field

from model.cells import Cell, Value
from model.lines import runs_of
from model.messages import Message, Pdu, read
from model.names import NAMES, Scalar
from model.preempts import preempt
from model.rules import Broken
from model.scenario import CabinetSetup, Scenario
from model.scenario_read import content, read_value
from model.tables import Tables
from model.words import STAGES, Kind, Mode

TICKS = 4
KINDS = {kind.value: kind for kind in Kind}


class Untold(Exception):
    """The text isn't in the order of a trace."""


@dataclass(frozen=True)
class Seen:
    """An F line: from this tick on the cabinet shows this, up to the next one."""

    tick: int
    colours: str
    signals: str
    mode: Mode
    counter: int
    target: int
    version: int


@dataclass(frozen=True)
class Order:
    """A pattern that was commanded, or a clock that was set, after a tick."""

    tick: int
    scalar: Scalar
    value: int


@dataclass(frozen=True)
class LoadEnd:
    """An L line after a tick: the tables in force before it, those of the download, whether the cabinet was in flash;
    the version that it names, or the broken rule."""

    tick: int
    in_force: Tables
    staged: Tables
    is_flashing: bool
    version: int | None
    broken: Broken | None


@dataclass
class Street:
    """All that a trace says of a cabinet."""

    number: int
    setup: CabinetSetup
    versions: list[Tables]
    seen: list[Seen] = field(default_factory=list)
    orders: list[Order] = field(default_factory=list)
    ends: list[LoadEnd] = field(default_factory=list)
    ticks: int = 0
    kept: int = 0
    parts: list[list[tuple[Cell, Value]]] = field(default_factory=list)

    def tables(self, seen: Seen) -> Tables:
        """Returns the tables of the version that a frame names; if that version doesn't exist, those of the last
        (whole.py reports it)."""
        return self.versions[min(seen.version, len(self.versions) - 1)]

    def staged(self) -> Tables:
        """Returns the tables as the download under way would make them."""
        return self.versions[-1].with_cells(cell for part in self.parts for cell in part)


def mode_of(word: str) -> Mode:
    """Returns the mode that a word of an F line tells."""
    if word[0] == "P":
        return Mode(KINDS[word[-1]], int(word[1:-1]))
    return Mode(KINDS[word[0]], int(word[1:] or 0))


def seen_in(words: list[str]) -> Seen:
    """Returns the frame of an F line."""
    return Seen(int(words[2]), words[3], words[4], mode_of(words[5]), *map(int, words[6:9]))


def hear(street: Street, message: Message) -> None:
    """Takes an answer without a fault to a Set: a download that begins or continues, or an order."""
    names = [NAMES.get(bind.oid) for bind in message.binds]
    if names[:1] == [Scalar.BEGIN]:
        if message.binds[0].value > street.kept:
            street.kept, street.parts = message.binds[0].value, []
    elif names[:2] == [Scalar.ID, Scalar.PART]:
        if message.binds[1].value == len(street.parts) + 1:
            street.parts.append([(name, bind.value) for name, bind in zip(names[2:], message.binds[2:])])
    else:
        told = ((name, bind.value) for name, bind in zip(names, message.binds))
        street.orders += [
            Order(street.ticks, it, value) for it, value in told if it in (Scalar.PATTERN_CONTROL, Scalar.CLOCK)
        ]


def hear_line(street: Street, words: list[str]) -> None:
    """Takes an A line."""
    message = None if words[3] == "-" else read(bytes.fromhex(words[3]))
    binds = message.binds if message is not None and message.status == 0 and message.pdu is Pdu.RESPONSE else []
    is_set = bool(binds) and NAMES.get(binds[0].oid) in (
        Scalar.BEGIN,
        Scalar.ID,
        Scalar.PATTERN_CONTROL,
        Scalar.CLOCK,
        Scalar.REQUEST,
        Scalar.CANCEL,
    )
    if is_set:
        hear(street, message)


def end_load(street: Street, words: list[str]) -> None:
    """Takes an L line."""
    accepted = words[3] == "accepted"
    in_force, staged = street.versions[-1], street.staged()
    version, broken = (int(words[4]), None) if accepted else (None, Broken(int(words[4]), int(words[5])))
    flashing = street.seen[-1].mode.kind is Kind.FLASH
    street.ends.append(LoadEnd(street.ticks, in_force, staged, flashing, version, broken))
    if accepted:
        street.versions.append(staged)


class Lines:
    """The lines of a text, of which the next can be looked at."""

    def __init__(self, text: bytes) -> None:
        self.lines = text.decode("latin-1").split("\n")
        self.at = 0

    def words(self, kind: str, *more: str) -> list[str]:
        """Takes the next line, which must begin with these words."""
        words = self.lines[self.at].split(" ") if self.at < len(self.lines) else []
        if words[: 1 + len(more)] != [kind, *more]:
            raise Untold(f"line {self.at + 1} is no {' '.join((kind, *more))}")
        self.at += 1
        return words

    def may(self, kind: str, *more: str) -> list[str] | None:
        """Takes the next line if it begins with these words."""
        words = self.lines[self.at].split(" ", 1 + len(more)) if self.at < len(self.lines) else []
        return self.words(kind, *more) if words[: 1 + len(more)] == [kind, *more] else None


def hear_round(lines: Lines, street: Street) -> None:
    """Takes the lines of a round at a cabinet, in the order of its journal."""
    number = str(street.number)
    runs = runs_of(" ".join(lines.words("J", number)).encode())
    for stream, count in runs:
        if stream == TICKS:
            street.ticks += count
            while words := lines.may("F", number):
                street.seen.append(seen_in(words))
        elif stream > 0:
            for _ in range(count):
                if words := lines.may("L", number):
                    end_load(street, words)
                hear_line(street, lines.words("A", number, str(stream)))


def streets_of(text: bytes) -> tuple[Scenario, list[Street]]:
    """Returns the scenario of a trace, and what the trace says of each cabinet."""
    lines = Lines(text)
    scenario = content(read_value(" ".join(lines.words("S"))[2:].encode("latin-1")))
    streets = [Street(number, it, [it.tables]) for number, it in enumerate(scenario.cabinets, 1)]
    for street in streets:
        street.seen.append(seen_in(lines.words("F", str(street.number))))
    for number in range(1, scenario.rounds + 1):
        lines.words("R", str(number))
        while lines.may("M"):
            pass
        for street in streets:
            hear_round(lines, street)
    lines.words("Z", str(scenario.rounds))
    return scenario, streets


@dataclass(frozen=True)
class Interval:
    """A longest run of ticks with one colour or signal of a phase; `end` is the frame that shows a different one, None
    if it still runs as the trace ends, and `after` what that frame shows."""

    phase: int
    shows: str
    first: Seen
    end: Seen | None
    before: str
    after: str
    lasted: int


def intervals(street: Street, of_signals: bool) -> Iterator[Interval]:
    """Yields all intervals of the colours, or of the signals, of all phases."""
    for p in range(1, 17):
        texts = [seen.signals if of_signals else seen.colours for seen in street.seen]
        first, before = 0, ""
        for at in range(1, len(texts) + 1):
            if at < len(texts) and texts[at][p - 1] == texts[first][p - 1]:
                continue
            end = street.seen[at] if at < len(texts) else None
            after = texts[at][p - 1] if end else ""
            last = end.tick if end else street.ticks + 1
            shows = texts[first][p - 1]
            yield Interval(p, shows, street.seen[first], end, before, after, last - street.seen[first].tick)
            first, before = at, shows


def served_preempt(street: Street, at: Interval) -> int:
    """Returns the preempt for whose stage the phase of an interval makes way as the interval ends, or 0."""
    mode = at.end.mode if at.end else street.seen[-1].mode
    if mode.kind not in STAGES:
        return 0
    row = preempt(street.tables(at.end or street.seen[-1]), mode.number)
    goal = row.dwell if mode.kind is Kind.DWELL else row.entry
    return 0 if at.phase in goal else mode.number
