"""What the pictures of a street with traffic share: the colours of a phase over time, and which movements are drawn."""

import json
import pathlib
from typing import Any, NamedTuple

from ...look import pictures
from ...look.called import Called
from ...shared.fault import Fault
from ..movements import is_of_persons
from ..records import Movement, Study

ON_GREEN, ON_RED = "#1c7ed6", "#e8590c"
"""The colours of vehicles that reach the stop line on green, and of those that don't."""


class Turn(NamedTuple):
    """A phase shows another letter from a second on: G, Y, C or R."""

    second: float
    letter: str


class View(NamedTuple):
    """What is looked at: the first and the last second, the time of day at which the run began, None if the time
    since then is shown, and what things are called."""

    start: float
    end: float
    began: float | None = None
    names: Called = Called()

    def cabinet(self, number: int) -> str:
        """Returns a cabinet in the middle of a title."""
        return self.names.cabinet(number) if self.names.street(number) else f"cabinet {number}"


def scenario_of(trace: pathlib.Path) -> dict[str, Any]:
    """Returns the scenario of a trace, by its first line."""
    with open(trace, "rb") as lines:
        scenario: dict[str, Any] = json.loads(lines.readline()[2:])
    return scenario


def turns(trace: pathlib.Path, cabinet: int, phases: tuple[int, ...]) -> list[Turn]:
    """Returns what a movement saw over a run: the best of what its phases showed."""
    begin = b"F %d " % cabinet
    found: list[Turn] = []
    with open(trace, "rb") as lines:
        for line in lines:
            if line.startswith(begin):
                _, _, tick, colours, _ = line.split(b" ", 4)
                shown = {chr(colours[phase - 1]) for phase in phases}
                letter = next(it for it in "GYCR" if it in shown)
                if not found or found[-1].letter != letter:
                    found.append(Turn(int(tick) / 10, letter))
    return found


class Cycle(NamedTuple):
    """A cycle of a movement: it begins with red, and has the seconds at which green and yellow begin, and the end."""

    start: float
    green: float
    yellow: float
    end: float


def cycles(seen: list[Turn]) -> list[Cycle]:
    """Returns the whole cycles of a movement: from the begin of one red to that of the next."""
    found = []
    red: float | None = None
    green: float | None = None
    yellow: float | None = None
    for second, letter in seen:
        if letter == "G":
            green = second
        elif letter == "Y":
            yellow = second
        elif letter == "C" or yellow is not None or red is None:
            if red is not None and green is not None and yellow is not None:
                found.append(Cycle(red, green, yellow, second))
            red, green, yellow = second, None, None
    return found


def chosen(study: Study, cabinet: int, names: list[str] | None) -> list[Movement]:
    """Returns the movements to draw: those that are named, else the vehicles' of the cabinet."""
    there = [it for it in study.movements if it.cabinet == cabinet]
    if not there:
        raise Fault(f"the study has no movements of cabinet {cabinet}")
    known = {it.name: it for it in there}
    for name in names or ():
        if name not in known:
            raise Fault(f"cabinet {cabinet} has no movement {name}: {', '.join(known)}")
    return [known[it] for it in names] if names else [it for it in there if not is_of_persons(it)]


def label(axes: Any, text: str) -> None:
    """Writes a label left of the numbers of an axis."""
    axes.set_ylabel(pictures.escaped(text), rotation=0, ha="right", va="center")
    axes.yaxis.set_label_coords(-0.035, 0.5)


def room(labels: list[str]) -> list[str]:
    """Returns labels widened by the numbers of the axis next to them."""
    return ["\n".join(f"{line}{' ' * 8}" for line in it.split("\n")) for it in labels]


def busiest(study: Study, movements: list[Movement], count: int) -> list[Movement]:
    """Returns those of some movements that the most vehicles took, in their order."""
    taken = {(it.cabinet, it.name): 0 for it in movements}
    for it in study.passages:
        if (it.cabinet, it.movement) in taken:
            taken[it.cabinet, it.movement] += 1
    most = sorted(movements, key=lambda it: -taken[it.cabinet, it.name])[:count]
    return [it for it in movements if it in most]
