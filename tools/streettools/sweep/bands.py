"""Progression bands of a street: those of the plan, as the program reports them, and those that the trace shows."""

import functools
import json
from pathlib import Path
from typing import Any

from ..shared.bands import Band, Spans, common, delays_of, read_bands
from ..shared.cabinet import Cabinet
from ..shared.program import ran
from .counts import Spread, StreetCounts
from .study import Street

ASKED = ("version", "rounds", "ticks", "cabinets")


@functools.lru_cache(maxsize=1024)
def told(program: Path, question: str, seconds: float) -> list[Band | None] | None:
    """Returns the widest bands of a plan, outbound and inbound, each None if there is none; None if the program can't
    say."""
    answer = ran(program, "band", given=question.encode(), seconds=seconds)
    return read_bands(answer.out.decode(errors="replace")) if answer.status == 0 else None


def widest(program: Path, scenario: dict[str, Any], street: Street, seconds: float) -> list[Band | None] | None:
    """Returns the widest bands of a variant's plan, as `told` does."""
    short = {name: scenario[name] for name in ASKED if name in scenario}
    question = {"scenario": short, "section": street.section, "pattern": street.pattern, "travel": street.travel}
    return told(program, json.dumps(question), seconds)


def planned(program: Path, scenario: dict[str, Any], street: Street, seconds: float) -> tuple[int | None, int | None]:
    """Returns the widths of the bands of a variant's plan, in ticks: 0 if there isn't one, None if the program can't
    say."""
    found = widest(program, scenario, street, seconds)
    outbound, inbound = (it.width if it else 0 for it in found) if found else (None, None)
    return outbound, inbound


class Greens:
    """The greens of the two coordinated phases of a cabinet, those with which the pattern opens: outbound and
    inbound."""

    def __init__(self, cabinet: Cabinet, pattern: int) -> None:
        plan = cabinet.plan(pattern)
        self.pair = plan.coordinated if plan else ()
        self.since: list[int | None] = [None, None]
        self.spans: tuple[Spans, Spans] = ([], [])

    def turned(self, begun: tuple[int, ...], ended: tuple[int, ...], tick: int) -> None:
        """Takes the phases that turn green at a tick, and those whose green ends."""
        for way, phase in enumerate(self.pair):
            if phase in begun or phase in ended:
                self.show(way, phase in begun, tick)

    def show(self, way: int, is_green: bool, tick: int) -> None:
        """Begins or ends a green."""
        since = self.since[way]
        if is_green and since is None:
            self.since[way] = tick
        elif not is_green and since is not None:
            self.spans[way].append((since, tick))
            self.since[way] = None


class StreetTally:
    """A street of a run."""

    def __init__(self, street: Street, cabinets: dict[int, Cabinet], scenario: dict[str, Any], start: int) -> None:
        rows = enumerate(scenario["cabinets"], 1)
        numbers = [number for number, it in rows if it.get("section", 1) == street.section]
        self.start, self.street = start, street
        self.greens = {number: Greens(cabinets[number], street.pattern) for number in numbers}

    def close(self, last: int) -> StreetCounts:
        """Returns the bands that the trace shows: the spans of time at which a vehicle may start so as to meet green in
        each cabinet."""
        ways = delays_of(self.street.travel)
        reached = ways[0]
        if len(reached) != len(self.greens) or not all(it.pair for it in self.greens.values()):
            return StreetCounts()
        end = max(self.start, last - reached[-1])
        seen, met = (Spread(), Spread()), [0, 0]
        for way, delays in enumerate(ways):
            spans = [(-last, last)]
            for green, delay in zip(self.greens.values(), delays):
                green.show(way, False, last)
                spans = common(spans, [(low - delay, high - delay) for low, high in green.spans[way]])
            for low, high in spans:
                met[way] += max(min(high, end) - max(low, self.start), 0)
                if low >= self.start and high < end:
                    seen[way].add(high - low)
        return StreetCounts((None, None), seen, end - self.start, (met[0], met[1]))
