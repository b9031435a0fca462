"""What people call the things of a scenario, which has only numbers: a file next to it, `street.names.json`.

It also says which phases were entered only because the rings need a partner. Pictures and reports leave these out.
"""

import dataclasses
import json
import pathlib
from dataclasses import dataclass, field, replace
from typing import Any

from ..shared.fault import Fault
from ..shared.given import Wrong
from .fields import is_number, one_line

KINDS = ("vehicle", "pedestrian")
"""What a phase may serve."""
UNITS = ("us", "metric")
"""The units of speeds and lengths."""


@dataclass
class Phase:
    """A phase: its name, whether it is only a crossing, and what a check needs to know of the street."""

    name: str = ""
    kind: str = "vehicle"
    speed: float | None = None
    grade: float | None = None
    crossing: float | None = None
    width: float | None = None


@dataclass
class Intersection:
    """An intersection: its name and those of its phases, preempts and detectors; the phases that are only partners."""

    name: str = ""
    note: str = ""
    phases: dict[int, Phase] = field(default_factory=dict)
    preempts: dict[int, str] = field(default_factory=dict)
    detectors: dict[int, str] = field(default_factory=dict)
    partners: list[int] = field(default_factory=list)
    travel: float | None = None
    distance: float | None = None
    conflicts: list[list[int]] = field(default_factory=list)

    def phase(self, number: int) -> Phase:
        """Returns what is known of a phase."""
        return self.phases.get(number, Phase())

    def phase_name(self, number: int) -> str:
        """Returns a phase with its name if it has one."""
        name = self.phase(number).name
        return f"phase {number} ({name})" if name else f"phase {number}"


@dataclass
class Names:
    """Names of a street. Speeds are in miles an hour and lengths in feet, or with `metric` in kilometres an hour and
    metres."""

    title: str = ""
    units: str = "us"
    sections: dict[int, str] = field(default_factory=dict)
    intersections: list[Intersection] = field(default_factory=list)

    def intersection(self, number: int) -> Intersection:
        """Returns what is known of a cabinet, by its number from 1."""
        return self.intersections[number - 1] if number <= len(self.intersections) else Intersection()

    def number(self, text: str, count: int, of: str = "the street") -> int:
        """Returns the number of the cabinet that a text names, from 1 to `count`: by its number, by the name of its
        intersection, or by a part of the name that no other has."""
        if text.isdecimal() and text.isascii():
            if len(text) > 9 or not 1 <= int(text) <= count:
                raise Fault(f"{of} has no cabinet {text}: its cabinets are 1 to {count}")
            return int(text)
        known = [self.intersection(number).name for number in range(1, count + 1)]
        if not any(known):
            raise Fault(f"no name is known here, so not {text!r} either: a timing sheet or a names file gives names")
        fits = fitting(known, text)
        if len(fits) != 1:
            listed = ", ".join(repr(name) for name in known if name)
            raise Fault(f"{'several cabinets' if fits else 'no cabinet'} named {text!r}: there are {listed}")
        return fits[0]

    def called(self, number: int) -> str:
        """Returns what a cabinet is called."""
        return self.intersection(number).name or f"cabinet {number}"


def fitting(known: list[str], text: str) -> list[int]:
    """Returns the places, from 1, of the names that a text may mean, whatever its case: those that are equal to it; if
    there are none, those of which it is a part."""
    names = [" ".join(it.split()).casefold() for it in known]
    meant = " ".join(text.split()).casefold()
    equal = [place for place, name in enumerate(names, 1) if name == meant]
    return equal or [place for place, name in enumerate(names, 1) if meant and meant in name]


def bare(it: object) -> dict[str, Any]:
    """Returns the fields of a dataclass that differ from their defaults, as JSON has them."""
    blank = type(it)()
    found = {}
    for each in dataclasses.fields(it):
        value = getattr(it, each.name)
        if value == getattr(blank, each.name):
            continue
        if isinstance(value, list):
            value = [bare(item) if dataclasses.is_dataclass(item) else item for item in value]
        elif isinstance(value, dict):
            value = {str(key): bare(item) if dataclasses.is_dataclass(item) else item for key, item in value.items()}
        found[each.name] = value
    return found


def text(names: Names) -> str:
    """Returns the text of a names file."""
    return json.dumps(bare(names), indent=2, ensure_ascii=False) + "\n"


def of_intersection(given: dict[str, Any]) -> Intersection:
    """Returns an intersection as a names file has it."""
    phases = {int(number): Phase(**it) for number, it in given.get("phases", {}).items()}
    numbered: dict[str, Any] = {
        name: {int(number): it for number, it in given.get(name, {}).items()} for name in ("preempts", "detectors")
    }
    rest = {name: it for name, it in given.items() if name not in ("phases", "preempts", "detectors")}
    return Intersection(**rest, **numbered, phases=phases)


class NoNames(Fault):
    """A file isn't a names file, in words."""


def is_measure(value: object) -> bool:
    """Tells whether a value is a number, or none."""
    return value is None or is_number(value)


def lengths(it: Phase) -> tuple[float | None, ...]:
    """Returns what was measured of a phase's approach."""
    return it.speed, it.grade, it.crossing, it.width


def is_card(value: object) -> bool:
    """Tells whether a value is a conflict card: lists of phases."""
    return isinstance(value, list) and all(
        isinstance(pair, list) and all(type(it) is int and 1 <= it <= 16 for it in pair) for pair in value
    )


def taken(found: Intersection) -> Intersection:
    """Returns an intersection whose names are in one line each. An invalid name, measure or phase is refused."""
    phases = {number: replace(it, name=one_line(it.name)) for number, it in found.phases.items()}
    measures = [found.travel, found.distance, *(value for it in phases.values() for value in lengths(it))]
    if not all(map(is_measure, measures)):
        raise Wrong(f"intersection {found.name!r} has a measure that isn't a number")
    if any(it.kind not in KINDS for it in phases.values()):
        raise Wrong(f"intersection {found.name!r} has a phase whose kind isn't one of {', '.join(KINDS)}")
    if not isinstance(found.note, str):
        raise Wrong(f"intersection {found.name!r} has a note that isn't a text")
    if not isinstance(found.partners, list) or not all(type(it) is int and 1 <= it <= 16 for it in found.partners):
        raise Wrong(f"intersection {found.name!r} has placeholder phases that aren't phases")
    if not is_card(found.conflicts):
        raise Wrong(f"intersection {found.name!r} has conflicts that aren't lists of phases")
    preempts, detectors = (
        {number: one_line(it) for number, it in names.items()} for names in (found.preempts, found.detectors)
    )
    return replace(found, name=one_line(found.name), phases=phases, preempts=preempts, detectors=detectors)


def read(content: str) -> Names:
    """Returns what a names file says."""
    try:
        given = json.loads(content)
        intersections = [taken(of_intersection(it)) for it in given.get("intersections", ())]
        sections = {int(number): one_line(it) for number, it in given.get("sections", {}).items()}
        rest = {name: it for name, it in given.items() if name not in ("intersections", "sections")}
        found = Names(**rest, intersections=intersections, sections=sections)
        if found.units not in UNITS:
            raise Wrong(f"units are none of {', '.join(UNITS)}")
        return replace(found, title=one_line(found.title))
    except (ValueError, TypeError, AttributeError, Wrong) as fault:
        raise NoNames(f"no names file: {fault}") from None
    except RecursionError:
        raise NoNames("no names file: lists and objects are nested too deep") from None


def beside(path: pathlib.Path) -> pathlib.Path:
    """Returns the path of the names of a scenario's file: street.json has street.names.json."""
    return path.with_name(path.name.removesuffix(".json") + ".names.json")
