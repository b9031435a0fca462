"""The command `judge`: it reads a scenario and a log line by line, and writes the breaches that each line shows.

docs/JUDGE.md. A log has lines of a trace; only its F lines and the L lines of accepted downloads count.
"""

from collections.abc import Callable, Iterator
from dataclasses import dataclass
from enum import Enum

from model.judge import CabinetLog, Terms, line_breaches, overruns
from model.lines import is_line
from model.live import Lines
from model.requests import LONGEST_LINE
from model.promises.told import seen_in
from model.scenario import Scenario
from model.scenario_read import MOST_BYTES, read_scenario
from model.shapes import Refused, limit_fault


class Kind(Enum):
    """Why a line is refused, in words."""

    NOT_A_LINE = "is not a line of a trace"
    CABINET = "is of a cabinet that the scenario does not have"
    TICK = "is not later than the frame before it"
    FRAME_VERSION = "has a version other than the number of accepted loads"
    LOAD_VERSION = "has a version other than the next one"


class LineRefused(Exception):
    """A line of a log is refused: its number, and why."""

    def __init__(self, line: int, kind: Kind) -> None:
        super().__init__(f"line {line} {kind.value}")


@dataclass
class Judging:
    """A log that is judged: its scenario, and what is known of each cabinet."""

    scenario: Scenario
    terms: Terms

    def __post_init__(self) -> None:
        cabinets = self.scenario.cabinets
        self.logs = [CabinetLog([it.tables]) for it in cabinets]
        self.loads = [[it.what for it in self.scenario.loads if it.cabinet == n] for n in range(1, len(cabinets) + 1)]
        self.last = 0
        self.count = 0

    def log_of(self, words: list[str], number: int) -> CabinetLog:
        """Returns the log of the cabinet that a line names."""
        if not 1 <= int(words[1]) <= len(self.logs):
            raise LineRefused(number, Kind.CABINET)
        return self.logs[int(words[1]) - 1]

    def frame(self, words: list[str], number: int) -> Iterator[str]:
        """Takes an F line, and yields its breaches."""
        log, seen = self.log_of(words, number), seen_in(words)
        if log.lines and seen.tick <= log.lines[-1].tick:
            raise LineRefused(number, Kind.TICK)
        if seen.version != log.downloads:
            raise LineRefused(number, Kind.FRAME_VERSION)
        self.last = max(self.last, seen.tick)
        if log.versions is not None:
            for it in line_breaches(log, seen, self.terms):
                self.count += 1
                yield f"B {words[1]} {it.tick} {int(it.clause)} {it.phase} {it.other}"
        log.lines.append(seen)

    def load(self, words: list[str], number: int) -> Iterator[str]:
        """Takes the L line of an accepted download; a line says where its cells aren't known."""
        log, cabinet, id = self.log_of(words, number), int(words[1]), int(words[2])
        if int(words[4]) != log.downloads + 1:
            raise LineRefused(number, Kind.LOAD_VERSION)
        log.downloads += 1
        if log.versions is None:
            return
        known = self.loads[cabinet - 1]
        if 1 <= id <= len(known):
            log.versions.append(log.versions[-1].with_cells(known[id - 1]))
        else:
            log.versions = None
            yield f"U {cabinet} {id}"

    def line(self, line: bytes, number: int) -> Iterator[str]:
        """Takes a line without its newline, and yields what is written for it."""
        if not is_line(line):
            raise LineRefused(number, Kind.NOT_A_LINE)
        if line[:1] == b"F":
            yield from self.frame(line.decode().split(" "), number)
        elif line[:1] == b"L" and line.split(b" ")[3] == b"accepted":
            yield from self.load(line.decode().split(" "), number)

    def end(self) -> Iterator[str]:
        """Yields what runs over its time as the log ends, and the number of cabinets and of breaches."""
        for cabinet, log in enumerate(self.logs, 1):
            if log.versions is not None:
                for it in overruns(log, self.last, self.terms.tolerance):
                    yield f"W {cabinet} {it.phase} {it.letter} {it.since}"
        yield f"Z {len(self.logs)} {self.count}"


def scenario_of(line: bytes) -> Scenario:
    """Returns the scenario of the first line, which follows `S `."""
    if len(line) > MOST_BYTES:
        raise limit_fault(".")
    if line[:2] != b"S ":
        raise Refused("not JSON")
    return read_scenario(line[2:])


class Breaches(Exception):
    """The log shows breaches."""


def judge(read: Callable[[], bytes], terms: Terms) -> Iterator[bytes]:
    """Yields what is written for each line of the input in turn; raises `Breaches` at its end if there are some. Lines
    that are longer than any F or L line are ignored, and so are bytes after the last newline."""
    lines = Lines(read)
    judging, number = Judging(scenario_of(lines.next(MOST_BYTES).octets), terms), 1
    while (line := lines.next(LONGEST_LINE)).is_ended:
        number += 1
        if len(line.octets) <= LONGEST_LINE:
            yield "".join(f"{it}\n" for it in judging.line(line.octets, number)).encode()
    yield "".join(f"{it}\n" for it in judging.end()).encode()
    if judging.count:
        raise Breaches


__all__ = ["Breaches", "LineRefused", "Refused", "judge"]
