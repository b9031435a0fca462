"""What a page calls the cabinets of a street and their phases, and how long vehicles drive from each to the next."""

from typing import TYPE_CHECKING, Any

if TYPE_CHECKING:
    from ...plan.names import Names


def told(names: "Names | None", count: int) -> dict[str, Any]:
    """Returns the names of a street of `count` cabinets as a page gets them, empty without names; and the seconds from
    each cabinet to the next, None if they aren't known."""
    rows = [names.intersection(number) for number in range(1, count + 1)] if names else []
    return {
        "title": names.title if names else "",
        "cabinets": [it.name for it in rows],
        "phases": [{number: phase.name for number, phase in it.phases.items() if phase.name} for it in rows],
        "preempts": [it.preempts for it in rows],
        "placeholders": [it.partners for it in rows],
        "travel": [it.travel for it in rows[:-1]],
    }
