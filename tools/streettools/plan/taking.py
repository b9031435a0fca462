"""Files that are taken whole, or refused in lines: for the parts of `plan`, and for other tools that are given a sheet
in place of a scenario or of its names."""

from ..shared.clock import DAY_TICKS
from ..shared.fault import Fault
from . import check, sources
from .reading import Street
from .sources import Source


class Refused(Fault):
    """A file or words aren't accepted; the lines say why."""


def taken(path: str, named: str | None = None) -> Source:
    """Reads a file that must be without faults of its names and values."""
    source = sources.load(path, named)
    errors = source.errors or (check.card_errors(source.street) if source.text is None else [])
    if errors:
        raise Refused("\n".join(f"{path}: {it}" for it in errors))
    return source


def sheet(path: str, named: str | None = None) -> Street:
    """Returns the street of a sheet, or of a scenario with its names."""
    street = taken(path, named).street
    assert street is not None, "a file without faults is a street"
    return street


def start_of(street: Street) -> float | None:
    """Returns the time of day at which a street starts, in seconds: that of the master's clock, else of the first
    intersection's; None if neither is said."""
    clocks = (street.scenario.get("master", {}).get("clock"), street.scenario["cabinets"][0].get("clock"))
    found = next((it for it in clocks if it is not None), None)
    return None if found is None else found % DAY_TICKS / 10


def travels_of(street: Street) -> list[int] | None:
    """Returns the ticks from each intersection to the next; None if not all are said."""
    found = [it.travel for it in street.names.intersections[:-1]]
    return [round(10 * it) for it in found if it is not None] if found and None not in found else None
