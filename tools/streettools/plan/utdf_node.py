"""An intersection of a UTDF file: its records, and what was noted while it was read."""

import math
from dataclasses import dataclass, field

from .utdf_links import WAYS, Links
from .utdf_text import Utdf


@dataclass
class Node:
    """An intersection of a UTDF file."""

    utdf: Utdf
    number: str
    links: Links
    notes: list[str] = field(default_factory=list)
    rounded: dict[str, list[str]] = field(default_factory=dict)

    def __post_init__(self) -> None:
        self.phases, self.plan, self.lanes = (
            self.utdf.table(section, self.number) for section in ("phases", "timeplans", "lanes")
        )
        self.used = [
            it for it in range(1, 17) if self.at("MinGreen", it) is not None or self.at("MaxGreen", it) is not None
        ]

    def note(self, words: str) -> None:
        """Keeps something that wasn't taken as it stands."""
        self.notes.append(f"node {self.number}: {words}")

    def at(self, record: str, phase: int) -> float | None:
        """Returns a number of a phase."""
        return self.utdf.number(self.phases.get(record, {}).get(f"D{phase}"))

    def whole_at(self, record: str, phase: int) -> int | None:
        """Returns a whole number of a phase."""
        return self.utdf.whole(self.phases.get(record, {}).get(f"D{phase}"))

    def lane(self, record: str, lanes: str) -> float | None:
        """Returns a number of a lane group."""
        return self.utdf.number(self.lanes.get(record, {}).get(lanes))

    def whole_lane(self, record: str, lanes: str) -> int | None:
        """Returns a whole number of a lane group."""
        return self.utdf.whole(self.lanes.get(record, {}).get(lanes))

    def setting(self, record: str) -> float | None:
        """Returns a number of the timing plan."""
        return self.utdf.number(self.plan.get(record, {}).get("DATA"))

    def code(self, record: str) -> int | None:
        """Returns a whole number of the timing plan."""
        return self.utdf.whole(self.plan.get(record, {}).get("DATA"))

    def whole(self, value: float, what: str, whose: str) -> int:
        """Returns whole seconds; what isn't whole is rounded up, and named."""
        up = math.ceil(value - 1e-9)
        if abs(up - value) > 1e-9:
            self.rounded.setdefault(what, []).append(f"{whose} ({value:g} to {up})")
        return up

    def all_notes(self) -> list[str]:
        """Returns what wasn't taken as it stands."""
        kept = "a cabinet holds whole seconds here"
        return self.notes + [
            f"node {self.number}: {what} is rounded up for {', '.join(of)}: {kept}" for what, of in self.rounded.items()
        ]

    def name(self) -> str:
        """Returns what the intersection is called: its streets, its description, or its number."""
        speeds = {way: self.links.speed(self.number, way) or 0 for way in WAYS}
        ways = sorted((way for way in WAYS if self.links.name(self.number, way)), key=lambda way: -speeds[way])
        streets = list(dict.fromkeys(self.links.name(self.number, way) for way in ways))
        return self.links.description(self.number) or " & ".join(streets[:2]) or f"node {self.number}"
