"""What a timing sheet has said already, so that a file of volumes needn't: times of travel, and placeholder phases."""

from dataclasses import dataclass, replace
from typing import TYPE_CHECKING, Any

from .volumes import Flow, Volumes

if TYPE_CHECKING:
    from ...plan.names import Names


@dataclass(frozen=True)
class Said:
    """The seconds from each cabinet to the next, None if they aren't given, and the phases that only the rings need,
    each with its cabinet."""

    travel: tuple[float | None, ...] = ()
    placeholders: frozenset[tuple[int, int]] = frozenset()

    def value(self) -> dict[str, Any]:
        """Returns it as JSON has it."""
        return {"travel": self.travel, "placeholders": sorted(self.placeholders)}


def said_in(names: "Names | None") -> Said:
    """Returns what the names of a street say."""
    rows = names.intersections if names else []
    pairs = frozenset((number, phase) for number, it in enumerate(rows, 1) for phase in it.partners)
    return Said(tuple(it.travel for it in rows), pairs)


def read(value: dict[str, Any]) -> Said:
    """Returns what `Said.value` gave."""
    return Said(tuple(value["travel"]), frozenset((cabinet, phase) for cabinet, phase in value["placeholders"]))


def with_travel(flow: Flow, said: Said) -> Flow:
    """Returns a movement with the time of travel to where it goes on: its own, else that of the sheet."""
    onward = flow.onward
    if onward is None or onward.travel:
        return flow
    low, high = sorted((flow.cabinet, onward.cabinet))
    parts = [it or 0.0 for it in said.travel[low - 1 : high - 1]]
    whole = sum(parts) if len(parts) == high - low and all(parts) else 0.0
    return replace(flow, onward=replace(onward, travel=whole))


def with_travels(volumes: Volumes, said: Said) -> Volumes:
    """Returns the volumes with the times of travel of the sheet if the file has none."""
    return replace(volumes, flows=tuple(with_travel(it, said) for it in volumes.flows))


def fitted(volumes: Volumes, said: Said) -> Volumes:
    """Returns the volumes with what the sheet says: placeholder phases without traffic are idle, and times of travel
    that the file lacks are those of the sheet."""
    busy = {(it.cabinet, it.phase) for it in volumes.flows} | {(it.cabinet, it.phase) for it in volumes.crossings}
    found = with_travels(volumes, said)
    return replace(found, idle=found.idle | (said.placeholders - busy))
