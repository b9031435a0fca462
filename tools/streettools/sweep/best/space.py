"""The plans among which a search looks: for each parameter of the study the place of its value."""

from dataclasses import replace
from typing import Any

from ...shared.cells import tables_of, value
from ...shared.fault import Fault
from ..prepared import Prepared
from ..study import Parameter
from ..targets import Put, followed, steps
from ..values import Kind, Values
from ..variants import Cells, Placed, Variant

OFFSET = ("pattern", 3)
"""The table and the column of offsets."""
Places = tuple[int, ...]
"""A plan: the place of each parameter's value, from 0 on."""


class Space:
    """The plans of a study."""

    def __init__(self, ready: Prepared) -> None:
        self.ready, self.counts = ready, ready.variants.grid

    def place(self, places: Places, seed: int, cells: Cells = ()) -> Placed:
        """Returns the run of a plan with the seed at a place of the study's seeds."""
        index = 0
        for place, count in zip(places, self.counts, strict=True):
            index = index * count + place
        return index * len(self.ready.variants.seeds) + seed, cells, None

    def variant(self, places: Places, cells: Cells = ()) -> Variant:
        """Returns the variant of a plan with the first seed."""
        return self.ready.variants.of(self.place(places, 0, cells))

    def moves(self) -> list[list[int]]:
        """Returns what a search moves together: each parameter, and each offset with those that follow it. Along a
        street the second changes only one of the times between two neighbours."""
        offsets: dict[Values, list[int]] = {}
        for place, it in enumerate(self.ready.study.parameters):
            if is_offset(it):
                offsets.setdefault(replace(it.values, name=""), []).append(place)
        together = [places[at:] for places in offsets.values() for at in range(len(places) - 1)]
        return [*together, *([place] for place in range(len(self.counts)))]

    def nearest(self, scenario: dict[str, Any]) -> Places:
        """Returns the plan that is nearest to that of a scenario, parameter by parameter; the first value where a
        parameter has no number or nothing equal there."""
        return tuple(self.nearest_of(it, scenario) for it in self.ready.study.parameters)

    def nearest_of(self, parameter: Parameter, scenario: dict[str, Any]) -> int:
        """Returns the place of the value that is nearest to that of a scenario."""
        values = parameter.values
        if values.kind is Kind.OPTION:
            fits = [all(there(put, scenario) == it for put, it in each.puts) for each in values.options]
            return fits.index(True) if True in fits else 0
        listed = [parameter.puts[0].value(values.at(it)) for it in range(values.count())]
        now = there(parameter.puts[0], scenario)
        if now in listed:
            return listed.index(now)
        if not all(isinstance(it, (int, float)) for it in (now, *listed)):
            return 0
        away = [float(abs(it - now)) for it in listed]
        return away.index(min(away))


def is_offset(parameter: Parameter) -> bool:
    """Tells whether a parameter is the offset of a pattern."""
    cells = [it.cell for it in parameter.puts]
    return bool(cells) and all(it is not None and (it[0], it[-1]) == OFFSET for it in cells)


def there(put: Put, scenario: dict[str, Any]) -> Any:
    """Returns what a scenario has at a place; None if it has nothing there."""
    try:
        if put.cell is not None:
            number = (put.cabinets or (1,))[0]
            found = value(tables_of(scenario["cabinets"][number - 1]), put.cell)
            return bytes(found).hex() if isinstance(found, tuple) else found
        it: Any = {"scenario": scenario}
        for step in ["scenario", *steps(put.path or "")]:
            it = followed(it, step, put.told())
        return it
    except (Fault, LookupError, TypeError, ValueError):
        return None
