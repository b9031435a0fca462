"""A session: the cabinets of a scenario, driven request by request.

docs/LIVE.md. A round begins with what master, line and scenario bring, all of it before any tick; what the session
brings comes after that, when it is requested.
"""

from collections.abc import Iterator

from model.cabinet import FIELDS, TICKS, Cabinet
from model.lines import journal_line
from model.requests import Bounds, Framed, Given, NotTaken, Request, Tick, request_of
from model.run import Round, Run, Runs
from model.scenario import Item, Scenario
from model.scenario_read import read_scenario
from model.shapes import limit_fault

MOST_BROUGHT = 100_000
"""How many inputs and frames a session may bring in a round."""


def first_out_of_order(items: list[Item]) -> int | None:
    """Returns the place of the first item whose round is lower than that of the one before it, None if there is
    none."""
    return next((two.place for one, two in zip(items, items[1:]) if two.round < one.round), None)


def session_scenario(line: bytes) -> Scenario:
    """Returns the scenario of a session's first line; else its first fault is raised."""
    scenario = read_scenario(line)
    for name, items in (("loads", scenario.loads), ("priority", scenario.priority)):
        place = first_out_of_order(items)
        if place is not None:
            raise limit_fault(f"{name}[{place}].round")
    return scenario


class Journal:
    """What a cabinet took in a round, in order, in runs of a pass and a number."""

    def __init__(self) -> None:
        self.runs: Runs = []

    def took(self, number: int, count: int = 1) -> None:
        """Adds a number of items of a pass."""
        if self.runs and self.runs[-1][0] == number:
            count += self.runs.pop()[1]
        self.runs.append((number, count))


class Session:
    """A session that was opened with a scenario."""

    def __init__(self, scenario: Scenario) -> None:
        self.run = Run(scenario)
        self.scenario = scenario
        self.number = 0
        self.left = 0
        self.brought = 0
        self.journals: list[Journal] = []
        self.is_over = False

    def open(self) -> Iterator[bytes]:
        """Yields the answer to the scenario."""
        yield from self.run.openings()
        yield from self.begin_round()

    def begin_round(self) -> Iterator[bytes]:
        """Yields the lines with which the next round begins."""
        self.number += 1
        self.left, self.brought = self.scenario.ticks, 0
        self.journals = [Journal() for _ in self.run.cabinets]
        yield b"R %d" % self.number
        notes, sent = self.run.master_turns(self.number)
        yield from notes
        for cabinet, frames, journal in zip(self.run.cabinets, sent, self.journals):
            yield from bring(self.run.opened_round(self.number, cabinet, frames), journal)

    def end_round(self) -> Iterator[bytes]:
        """Yields the lines with which the round ends."""
        for cabinet, journal in zip(self.run.cabinets, self.journals):
            yield journal_line(cabinet.number, journal.runs)
            self.run.close_round(self.number, cabinet)

    def take_ticks(self, count: int) -> Iterator[bytes]:
        """Yields the lines of some ticks of each cabinet; with none left the round ends."""
        for cabinet, journal in zip(self.run.cabinets, self.journals):
            journal.took(TICKS, count)
            for _ in range(count):
                yield from cabinet.tick()
        self.left -= count
        if self.left == 0:
            yield from self.end_round()

    def finish(self) -> Iterator[bytes]:
        """Yields the line with which the session is over."""
        self.is_over = True
        yield b"Z %d" % self.number

    def do(self, request: Request) -> Iterator[bytes]:
        """Yields the lines of a request that is taken."""
        if isinstance(request, Tick):
            yield from self.take_ticks(request.count)
            if self.left == 0:
                yield from self.finish() if self.number == self.scenario.rounds else self.begin_round()
            return
        self.brought += 1
        cabinet: Cabinet = self.run.cabinets[request.cabinet - 1]
        if isinstance(request, Given):
            self.journals[request.cabinet - 1].took(FIELDS)
            cabinet.tell(request.what)
        else:
            self.journals[request.cabinet - 1].took(request.stream.value)
            yield from cabinet.frame(request.stream.value, request.octets)

    def answer(self, line: bytes) -> Iterator[bytes]:
        """Yields the lines that answer a line without its newline."""
        try:
            request = request_of(line, Bounds(len(self.run.cabinets), self.left))
            if isinstance(request, (Given, Framed)) and self.brought == MOST_BROUGHT:
                raise NotTaken("full")
        except NotTaken as fault:
            yield b"? " + str(fault).encode()
            return
        yield from self.do(request)

    def end(self) -> Iterator[bytes]:
        """Yields the answer to the end of input."""
        yield from self.take_ticks(self.left)
        yield from self.finish()


def bring(round_: Round, journal: Journal) -> Iterator[bytes]:
    """Yields the lines of all that a cabinet receives before the ticks of its round."""
    for number, count in round_.due.serial():
        if number == TICKS:
            return
        journal.took(number, count)
        for _ in range(count):
            yield from round_.item(number)
