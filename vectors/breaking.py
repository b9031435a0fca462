#!/usr/bin/python3
"""Breaks traces of the vectors, each in one way, and writes them with the breaches that are expected.

    vectors/breaking.py > vectors/judged/broken.jsonl

A trace of the vectors has no breach. A case keeps the lines of one cabinet up to a line at which nothing but greens
and reds is shown, and puts lines after it, or other ones in its place. Which breach these lines make is known from how
they are made: no rule is examined, and neither the program nor the model is used. The tables (enabled and concurrent
phases, times) are read here from the scenario's cells and the cells of its downloads.

Each case has `name`, `words`, `of` (a trace), `cabinet`, `keep` (how many lines of this cabinet are kept), `put` (lines
after them) and `output`, all lines that are expected.
"""

import json
import random
import sys
from collections.abc import Callable, Iterator
from pathlib import Path
from typing import Any, NamedTuple

sys.dont_write_bytecode = True
HERE = Path(__file__).resolve().parent
sys.path[:0] = [str(HERE)]

from checking import orders, trace_of  # noqa: E402

CASES = 20
"""How many cases each clause has."""
WALK, PED_CLEAR, MIN_GREEN, YELLOW, RED_CLEAR, OPTIONS, CONCURRENT = 2, 3, 4, 8, 9, 21, 23
TURN = {WALK: 0, PED_CLEAR: 0, MIN_GREEN: 5, YELLOW: 35, RED_CLEAR: 10, OPTIONS: 1}
STRAIGHT = {WALK: 7, PED_CLEAR: 12, MIN_GREEN: 10, YELLOW: 40, RED_CLEAR: 15, OPTIONS: 1}
BESIDE = {1: {5, 6}, 2: {5, 6}, 3: {7, 8}, 4: {7, 8}, 5: {1, 2}, 6: {1, 2}, 7: {3, 4}, 8: {3, 4}}
"""The standard tables, of docs/SCENARIO.md."""


class Shown(NamedTuple):
    """An F line: its tick, its colours, its signals, and the rest of its words."""

    tick: int
    colours: str
    signals: str
    rest: str

    def line(self, cabinet: int) -> str:
        """Returns the line."""
        return f"F {cabinet} {self.tick} {self.colours} {self.signals} {self.rest}"

    def with_colour(self, p: int, colour: str, tick: int) -> "Shown":
        """Returns the line of a tick with another colour of a phase."""
        return self._replace(tick=tick, colours=put(self.colours, p, colour))

    def with_signal(self, p: int, signal: str, tick: int) -> "Shown":
        """Returns the line of a tick with another signal of a phase."""
        return self._replace(tick=tick, signals=put(self.signals, p, signal))


def put(letters: str, p: int, letter: str) -> str:
    """Returns letters with another one for a phase."""
    return letters[: p - 1] + letter + letters[p:]


class Tables:
    """What these cases use of a cabinet's tables."""

    def __init__(self, cells: list[list[Any]]) -> None:
        self.rows = {p: dict(TURN if p % 2 else STRAIGHT) if p <= 8 else {} for p in range(1, 17)}
        self.lists = {p: set(BESIDE.get(p, ())) for p in range(1, 17)}
        for cell in cells:
            if cell[0] == "phase" and cell[2] == CONCURRENT:
                self.lists[cell[1]] = set(bytes.fromhex(cell[3]))
            elif cell[0] == "phase":
                self.rows[cell[1]][cell[2]] = cell[3]

    def at(self, p: int, column: int) -> int:
        """Returns a number of a phase; times are in the units of the cell."""
        return self.rows[p].get(column, 0)

    def enabled(self) -> list[int]:
        """Returns the phases in use."""
        return [p for p in range(1, 17) if self.at(p, OPTIONS) % 2]

    def conflicts(self, p: int, q: int) -> bool:
        """Tells whether two phases in use may not be on together."""
        return p != q and q not in self.lists[p] and p not in self.lists[q]


class Place(NamedTuple):
    """A line of a cabinet in a trace at which a case may begin: how many lines of the cabinet precede it and what the
    last of these shows, what it shows itself, and the tables in force."""

    of: str
    cabinet: int
    keep: int
    before: Shown | None
    shown: Shown
    tables: Tables


def lines_of(text: bytes, cabinet: int) -> list[str]:
    """Returns the F lines of a cabinet, and the L lines of its accepted downloads."""
    found = []
    for line in text.decode().splitlines():
        words = line.split(" ", 4)
        if words[0] == "F" and words[1] == str(cabinet):
            found.append(line)
        elif words[0] == "L" and words[1] == str(cabinet) and words[3] == "accepted":
            found.append(line)
    return found


def places_of(name: str) -> Iterator[Place]:
    """Yields the places of a trace, for each cabinet up to a download that the scenario doesn't have."""
    text = trace_of(name)
    scenario = json.loads(text[2 : text.index(b"\n")])
    for cabinet, setup in enumerate(scenario["cabinets"], 1):
        cells = list(setup.get("cells", []))
        loads = [it["cells"] for it in scenario.get("loads", []) if it["cabinet"] == cabinet]
        before = None
        for keep, line in enumerate(lines_of(text, cabinet)):
            words = line.split(" ", 5)
            if words[0] == "L":
                if not 1 <= int(words[2]) <= len(loads):
                    break
                cells += loads[int(words[2]) - 1]
                continue
            shown = Shown(int(words[2]), words[3], words[4], words[5])
            yield Place(name, cabinet, keep, before, shown, Tables(cells))
            before = shown


def is_calm(shown: Shown, but: int = 0) -> bool:
    """Tells whether no phase shows anything that has an exact time, other than one phase."""
    others = [p for p in range(1, 17) if p != but]
    return all(shown.colours[p - 1] in "GR" and shown.signals[p - 1] == "D" for p in others)


Made = tuple[int, list[Shown], list[str]]
"""How many lines are kept of the place's own (0: the line is replaced; 1: it is kept), what is put, and the breaches
(tick, clause, phase, other)."""


def apart(place: Place, rng: random.Random) -> Made | None:
    """A red phase turns green a tick after a line; it breaches with each conflicting phase that is lit."""
    shown, tables = place.shown, place.tables
    lit = [p for p in range(1, 17) if shown.colours[p - 1] == "G"]
    red = [p for p in tables.enabled() if shown.colours[p - 1] == "R" and any(tables.conflicts(p, q) for q in lit)]
    if not is_calm(shown) or not red:
        return None
    p, tick = rng.choice(red), shown.tick + 1
    pairs = sorted((min(p, q), max(p, q)) for q in lit if tables.conflicts(p, q))
    return 1, [shown.with_colour(p, "G", tick)], [f"{tick} 1 {one} {two}" for one, two in pairs]


def order(place: Place, rng: random.Random) -> Made | None:
    """A line at which a green ends shows another colour than yellow; or a red phase shows yellow or red clearance,
    with nothing else lit that would conflict."""
    shown, before = place.shown, place.before
    if before is None or shown.tick == 0:
        return None
    ended = [p for p in range(1, 17) if before.colours[p - 1] == "G" and shown.colours[p - 1] == "Y"]
    if not ended:
        return None
    p = rng.choice(ended)
    return 0, [shown.with_colour(p, rng.choice("CR"), shown.tick)], [f"{shown.tick} 2 {p} 0"]


def clearance(place: Place, rng: random.Random) -> Made | None:
    """A line at which a yellow or a red clearance ends, and no green or walk, is a tick early or late."""
    shown, before = place.shown, place.before
    if before is None:
        return None
    ends = [p for p in range(1, 17) if before.colours[p - 1] in "YC" and shown.colours[p - 1] != before.colours[p - 1]]
    others = [p for p in range(1, 17) if before.colours[p - 1] == "G" != shown.colours[p - 1]]
    tick = shown.tick + rng.choice((-1, 1))
    if not ends or others or before.signals != shown.signals or "F" in shown.signals or "W" in shown.signals:
        return None
    if tick <= before.tick or any(shown.colours[p - 1] in "YC" and p not in ends for p in range(1, 17)):
        return None
    return 0, [shown._replace(tick=tick)], [f"{tick} 3 {p} 0" for p in ends]


def short_green(place: Place, rng: random.Random) -> Made | None:
    """A phase that turned green at a line turns yellow a tick, or several, before its minimum green is over."""
    shown, before, tables = place.shown, place.before, place.tables
    began = [p for p in tables.enabled() if shown.colours[p - 1] == "G" and before and before.colours[p - 1] == "R"]
    if not began or not is_calm(shown):
        return None
    p = rng.choice(began)
    least = max(1, 10 * tables.at(p, MIN_GREEN))
    if least < 2 or shown.rest[0] == "P":
        return None
    tick = shown.tick + least - rng.choice((1, 1, min(10, least - 1)))
    return 1, [shown.with_colour(p, "Y", tick)], [f"{tick} 4 {p} 0"]


def pedestrian(place: Place, rng: random.Random) -> Made | None:
    """A walk that began at a line, or its pedestrian clearance, ends a tick early or late."""
    shown, before, tables = place.shown, place.before, place.tables
    began = [p for p in range(1, 17) if shown.signals[p - 1] == "W" and before and before.signals[p - 1] == "D"]
    if len(began) != 1 or not is_calm(shown, began[0]) or shown.rest[0] == "P":
        return None
    p = began[0]
    walk, clear = 10 * tables.at(p, WALK), 10 * tables.at(p, PED_CLEAR)
    if not clear or shown.colours[p - 1] != "G":
        return None
    by = rng.choice((-1, 1))
    if rng.random() < 0.5:
        tick = shown.tick + walk + by
        return 1, [shown.with_signal(p, "F", tick)], [f"{tick} 5 {p} 0"]
    flash = shown.with_signal(p, "F", shown.tick + walk)
    tick = flash.tick + clear + by
    return 1, [flash, flash.with_signal(p, "D", tick)], [f"{tick} 5 {p} 0"]


def on_green(place: Place, rng: random.Random) -> Made | None:
    """A red phase begins to show walk a tick after a line at which no signal is lit."""
    shown = place.shown
    red = [p for p in place.tables.enabled() if shown.colours[p - 1] == "R"]
    if not is_calm(shown) or not red:
        return None
    p, tick = rng.choice(red), shown.tick + 1
    return 1, [shown.with_signal(p, "W", tick)], [f"{tick} 6 {p} 0"]


BREAKS: dict[str, Callable[[Place, random.Random], Made | None]] = {
    "apart": apart,
    "order": order,
    "clearance": clearance,
    "short green": short_green,
    "pedestrian": pedestrian,
    "on green": on_green,
}


def case(clause: str, number: int, place: Place, made: Made, cabinets: int) -> dict[str, Any]:
    """Returns a case as it is written."""
    kept, lines, breaches = made
    return {
        "name": f"{clause}, way {number}: cabinet {place.cabinet} of {place.of}",
        "words": ["judge"],
        "of": place.of,
        "cabinet": place.cabinet,
        "keep": place.keep + kept,
        "put": [it.line(place.cabinet) for it in lines],
        "output": [*(f"B {place.cabinet} {it}" for it in breaches), f"Z {cabinets} {len(breaches)}"],
    }


def cases() -> Iterator[dict[str, Any]]:
    """Yields the cases of each clause, each in another trace if there are enough of them."""
    names = [f"{it.parent.name}/{it.name}" for it in sorted(HERE.glob("*/*.trace"))] + list(orders())
    places = {name: list(places_of(name)) for name in names}
    for clause, breaks in BREAKS.items():
        rng, found = random.Random(clause), 0
        while found < CASES:
            for name in rng.sample(names, len(names)):
                made = None
                for place in rng.sample(places[name], len(places[name])):
                    if made := breaks(place, rng):
                        break
                if made and found < CASES:
                    found += 1
                    text = trace_of(name)
                    cabinets = len(json.loads(text[2 : text.index(b"\n")])["cabinets"])
                    yield case(clause, found, place, made, cabinets)


def text_of(case: dict[str, Any]) -> bytes:
    """Returns the log of a case: the scenario's line, the lines that are kept, and those that are put."""
    text = trace_of(case["of"])
    kept = lines_of(text, case["cabinet"])[: case["keep"]]
    return text[: text.index(b"\n") + 1] + "".join(f"{line}\n" for line in (*kept, *case["put"])).encode()


if __name__ == "__main__":
    for it in cases():
        print(json.dumps(it))
