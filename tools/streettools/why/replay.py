"""One cabinet of a trace, once more by the model: the scenario and the journals are those of the text, and each frame
line of the cabinet is compared with the one that the model derives."""

import bisect
import re
import sys
from collections.abc import Callable, Iterator
from dataclasses import dataclass

from model.check import MOST_TEXT
from model.lines import is_line, runs_of
from model.run import JournalDue, Run, Runs
from model.scenario import Scenario, Stream
from model.scenario_read import content, read_value
from model.shapes import Refused
from model.tick import Decided

from ..shared.fault import Fault

GREEN = ord("G")


def octets_of(name: str) -> bytes:
    """Returns a file's bytes, as far as a trace may be long; `-` is standard input."""
    if name == "-":
        return sys.stdin.buffer.read(MOST_TEXT + 1)
    with open(name, "rb") as file:
        return file.read(MOST_TEXT + 1)


class Line:
    """A line of the text: where it begins, its bytes without the newline."""

    __slots__ = ("at", "octets")

    def __init__(self, found: re.Match[bytes]) -> None:
        self.at, self.octets = found.start(), found[0]


@dataclass
class Text:
    """A trace as a text: its scenario, and the lines of a cabinet."""

    name: str
    data: bytes
    scenario: Scenario

    def fault(self, at: int, words: str) -> Fault:
        """Returns the fault of the line that begins at a place."""
        number = self.data.count(b"\n", 0, at) + 1
        return Fault(f"{self.name}: not a trace: line {number} {words}; `arterial check` has more")

    def lines(self, kind: bytes, cabinet: int) -> list[Line]:
        """Returns the lines of a kind of a cabinet."""
        pattern = re.compile(rb"^%b %d [^\n]*$" % (kind, cabinet), re.MULTILINE)
        return [Line(it) for it in pattern.finditer(self.data)]

    def journals(self, cabinet: int) -> dict[int, Line]:
        """Returns the J lines of a cabinet, by the round after whose R line each comes."""
        pattern = re.compile(rb"^(?:R (?P<round>[0-9]{1,9})|J %d [^\n]*)$" % cabinet, re.MULTILINE)
        found, number = {}, 0
        for it in pattern.finditer(self.data):
            if it["round"]:
                number = int(it["round"])
            else:
                found[number] = Line(it)
        return found

    @property
    def ticks(self) -> int:
        """The number of ticks."""
        return int(self.scenario.rounds * self.scenario.ticks)


def read(name: str) -> Text:
    """Returns a trace, whose first line is a scenario and whose last line says that it is whole."""
    data, called = octets_of(name), "standard input" if name == "-" else name
    if len(data) > MOST_TEXT:
        raise Fault(f"{called}: not a trace: it has more than {MOST_TEXT} bytes")
    first = data.partition(b"\n")[0]
    if data.lstrip().startswith(b"{"):
        raise Fault(f"{called}: a scenario, not a trace: run it first (./arterial run FILE > street.trace)")
    if not first.startswith(b"S "):
        raise Fault(f"{called}: not a trace: its first line has no scenario")
    try:
        scenario = content(read_value(first[2:]))
    except Refused as fault:
        raise Fault(f"{called}: not a trace: its first line has no valid scenario ({fault})") from None
    if not data.endswith(b"\nZ %d\n" % scenario.rounds):
        raise Fault(f"{called}: not a trace: it has no line Z {scenario.rounds} at its end")
    return Text(called, data, scenario)


class Shown:
    """What a phase shows by the frame lines of its cabinet: when its greens begin and end."""

    def __init__(self, text: Text, cabinet: int, phase: int) -> None:
        self.begins: list[int] = []
        self.ends: list[int] = []
        was_green = False
        for line in text.lines(b"F", cabinet):
            words = line.octets.split(b" ", 4)
            if not is_line(line.octets):
                raise text.fault(line.at, "is not a frame line")
            is_green = words[3][phase - 1] == GREEN
            if is_green != was_green:
                (self.begins if is_green else self.ends).append(int(words[2]))
            was_green = is_green

    def is_green(self, tick: int) -> bool:
        """Tells whether the phase is green in the frame of a tick."""
        return bisect.bisect_right(self.begins, tick) > bisect.bisect_right(self.ends, tick)

    def began(self, tick: int) -> int:
        """Returns when the last green began that begins at a tick or before; 0 if there is none."""
        return last_before(self.begins, tick)

    def ended(self, tick: int) -> int:
        """Returns when the last green ended that ends at a tick or before; 0 if there is none."""
        return last_before(self.ends, tick)

    def comes(self, tick: int) -> int | None:
        """Returns when the next green after a tick begins; None if there is none."""
        return first_after(self.begins, tick)

    def goes(self, tick: int) -> int | None:
        """Returns when the next green that ends after a tick does so; None if there is none."""
        return first_after(self.ends, tick)


def last_before(ticks: list[int], tick: int) -> int:
    """Returns the last of some ticks in order that is no later than one; 0 if there is none."""
    place = bisect.bisect_right(ticks, tick)
    return ticks[place - 1] if place else 0


def first_after(ticks: list[int], tick: int) -> int | None:
    """Returns the first of some ticks in order that is later than one; None if there is none."""
    place = bisect.bisect_right(ticks, tick)
    return ticks[place] if place < len(ticks) else None


class Replay:
    """A cabinet of a trace, which the model takes through its rounds. `watch` is given what each tick decides."""

    def __init__(self, text: Text, cabinet: int, watch: Callable[[Decided], None]) -> None:
        self.text, self.number, self.watch = text, cabinet, watch
        self.run = Run(text.scenario)
        self.cabinet, self.master = self.run.cabinets[cabinet - 1], self.run.masters[cabinet - 1]
        self.journals, self.frames = text.journals(cabinet), iter(text.lines(b"F", cabinet))
        self.cabinet.controller.watch = self.decided
        self.expect(next(iter(line for line in self.run.openings() if line.startswith(b"F %d " % cabinet))))

    def decided(self, at: Decided) -> None:
        """Is given what a tick decides."""
        self.watch(at)
        at.past.thin()

    def rounds(self, last: int) -> Iterator[int]:
        """Goes through the rounds up to the one that has a tick; yields the number of ticks after each."""
        size = self.text.scenario.ticks
        for number in range(1, -(-last // size) + 1):
            self.round(number)
            yield number * size

    def round(self, number: int) -> None:
        """Goes through a round, with the journal that the text has."""
        arrived = self.run.arrived[self.number - 1]
        _, sent = self.master.turn(number, arrived[Stream.POLL], arrived[Stream.LOAD])
        lines = self.run.opened_round(number, self.cabinet, sent).lines()
        given: Runs | None = self.journal(number, next(lines))
        while True:
            try:
                line = lines.send(given)
            except StopIteration:
                break
            given = None
            if line.startswith(b"F"):
                self.expect(line)
        self.run.close_round(number, self.cabinet)

    def journal(self, number: int, due: JournalDue) -> Runs:
        """Returns the journal of a round, which takes each item of it once."""
        line = self.journals.get(number)
        if line is None:
            raise Fault(f"{self.text.name}: not a trace: round {number} has no J line of cabinet {self.number}")
        runs: Runs = runs_of(line.octets) if is_line(line.octets) else []
        if not due.is_merge(runs):
            raise self.text.fault(line.at, "is not a journal of its round")
        return runs

    def expect(self, due: bytes) -> None:
        """Compares the next frame line of the text with the one that the model derives."""
        line = next(self.frames, None)
        if line is None or line.octets != due:
            at = len(self.text.data) - 1 if line is None else line.at
            raise self.text.fault(at, "differs from the model")
