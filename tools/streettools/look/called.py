"""What the things of a street are called, by the names file that `arterial plan` writes; without one they have numbers.

The file also tells the partners: phases that were entered only because the rings need them. They are left out.
"""

import pathlib
from typing import TYPE_CHECKING

from ..plan.suffixes import is_sheet
from ..shared.fault import Fault

if TYPE_CHECKING:
    from ..plan.names import Names


def plain(name: str) -> str:
    """Returns a name in one line."""
    return " ".join(name.split())


class Called:
    """The names of cabinets, phases and preempts; `is_given` tells whether there is a names file."""

    def __init__(self, names: "Names | None" = None) -> None:
        self.names, self.is_given = names, names is not None

    def title(self) -> str:
        """Returns the name of the whole street, empty where it has none."""
        return plain(self.names.title) if self.names else ""

    def street(self, number: int) -> str:
        """Returns the name of a cabinet's intersection, empty where it has none."""
        return plain(self.names.intersection(number).name) if self.names else ""

    def cabinet(self, number: int) -> str:
        """Returns the title of a cabinet."""
        name = self.street(number)
        return f"{name} (cabinet {number})" if name else f"Cabinet {number}"

    def phase(self, number: int, phase: int) -> str:
        """Returns the name of a cabinet's phase, empty where it has none."""
        return plain(self.names.intersection(number).phase(phase).name) if self.names else ""

    def preempt(self, number: int, preempt: int) -> str:
        """Returns the words for a cabinet's preempt."""
        name = plain(self.names.intersection(number).preempts.get(preempt, "")) if self.names else ""
        return f"{name} (preempt {preempt})" if name else f"preempt {preempt}"

    def partners(self, number: int) -> frozenset[int]:
        """Returns the phases of a cabinet that are left out."""
        return frozenset(range(1, 17)).intersection(self.names.intersection(number).partners if self.names else ())

    def left_out(self, number: int) -> str:
        """Returns the words that tell which phases of a cabinet are left out, empty where none is."""
        phases = sorted(self.partners(number))
        if not phases:
            return ""
        if len(phases) == 1:
            return f"left out: phase {phases[0]}, a placeholder phase that only the rings need"
        listed = ", ".join(map(str, phases[:-1]))
        return f"left out: phases {listed} and {phases[-1]}, placeholder phases that only the rings need"

    def number(self, text: str, cabinets: int) -> int:
        """Returns the number of the cabinet that a text names, by its number or name."""
        from ..plan.names import Names  # takes a while

        return (self.names or Names()).number(text, cabinets, "the trace")

    def travel(self, cabinets: list[int]) -> list[int] | None:
        """Returns the ticks from each of some cabinets to the next, None where they aren't all said, or where the
        cabinets aren't in the order of the street."""
        if not self.names or len(cabinets) < 2 or sorted(cabinets) != cabinets:
            return None
        found = []
        for one, other in zip(cabinets, cabinets[1:]):
            parts = [self.names.intersection(number).travel for number in range(one, other)]
            if None in parts:
                return None
            found.append(round(10 * sum(it for it in parts if it is not None)))
        return found

    def key(self, number: int, phases: set[int]) -> str:
        """Returns the names of those of the phases that have one, and what is left out."""
        named = [f"{phase} {self.phase(number, phase)}" for phase in sorted(phases) if self.phase(number, phase)]
        return "; ".join(it for it in (", ".join(named), self.left_out(number)) if it)


def read(path: str) -> Called:
    """Returns the names that a file has: a names file, or a timing sheet."""
    from ..plan import names  # takes a while

    if is_sheet(path):
        from ..plan import taking  # takes a while

        return Called(taking.sheet(path).names)
    try:
        with open(path, encoding="utf-8") as file:
            return Called(names.read(file.read()))
    except (names.NoNames, UnicodeDecodeError) as fault:
        raise Fault(f"{path}: {fault}") from None


def beside(trace: str | None) -> str | None:
    """Returns the names file that has the name of a trace (street.names.json for street.trace), if there is one."""
    if trace in (None, "-"):
        return None
    file = pathlib.Path(trace or "").with_suffix(".names.json")
    return str(file) if file.is_file() else None


def fitting(found: Called, path: str, cabinets: int) -> Called:
    """Returns the names of a file; one that names more intersections than a trace has cabinets is another's."""
    named = len(found.names.intersections) if found.names else 0
    if named > cabinets:
        raise Fault(f"{path}: it names {named} intersections, and the trace has {cabinets} cabinets")
    return found
