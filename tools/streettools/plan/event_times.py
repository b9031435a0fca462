"""Events of a sheet as people say them: at a time of day, at an intersection by its name. A scenario has rounds and
numbers."""

from typing import Any

from ..shared import clock
from ..shared.given import Given, Wrong
from . import readers
from .names import fitting


class Timed:
    """Makes a scenario's items of a sheet's: of a run that starts with this clock, with cabinets of these names."""

    def __init__(self, scenario: dict[str, Any], names: list[str]) -> None:
        first = scenario["cabinets"][0].get("clock", 0) if scenario["cabinets"] else 0
        self.start: int = scenario.get("master", {}).get("clock") or first
        self.ticks, self.rounds = scenario["ticks"], scenario["rounds"]
        self.names = names

    def items(self, events: Given, name: str, found: list[Any]) -> list[Any]:
        """Returns the items of a list; an invalid one is kept as a fault with its place, from 1."""
        made = []
        for place, it in enumerate(found, 1):
            try:
                made.append(self.item(it))
            except Wrong as wrong:
                events.fault(wrong, f"{name} {place}")
        return made

    def item(self, it: Any) -> Any:
        """Returns an item as a scenario has it."""
        if not isinstance(it, dict):
            return it
        made = dict(it)
        if isinstance(made.get("cabinet"), str):
            made["cabinet"] = self.number(made["cabinet"])
        if "at" in made:
            if "round" in made:
                raise Wrong("it has at and round: write one of them")
            made = {"round": self.round(readers.day_ticks(made.pop("at")))} | made
        return made

    def number(self, name: str) -> int:
        """Returns the number of the cabinet at an intersection, by its name or by a part of the name that no other
        has."""
        fits = fitting(self.names, name)
        if len(fits) != 1:
            known = ", ".join(repr(it) for it in self.names if it) or "none has a name"
            found = "several intersections have a name with" if fits else "no intersection is named"
            raise Wrong(f"{found} {name!r}: {known}")
        return fits[0]

    def round(self, of_day: int) -> int:
        """Returns the round that begins at a time of day, in ticks since midnight."""
        since = (of_day - self.start) % clock.DAY_TICKS
        text, first = clock.day_text(of_day / 10), clock.day_text(self.start / 10)
        if since >= self.rounds * self.ticks:
            last = clock.day_text((self.start + self.rounds * self.ticks) / 10)
            raise Wrong(
                f"at {text} is not in the run, which is from {first} to {last}: clock in [master] is its start, "
                "rounds in [run] its length"
            )
        if since % self.ticks:
            near = clock.day_text((of_day - since % self.ticks) / 10)
            length = f"{self.ticks / 10:g} s"
            raise Wrong(f"at {text} is within a round: rounds of {length} begin at {first}, and one at {near}")
        return since // self.ticks + 1
