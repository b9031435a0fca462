"""A pattern laid over its cycle, as the rules of tables ask of it: slots, sides, and the last moment at which each
phase may end, in ticks.

docs/DEFINITIONS.md says it in words (`slot_start`, `side_end`, `side_clearance`, `leaves_room`, `zero_point`)."""

from dataclasses import dataclass
from functools import cached_property

from ..shared.tables import ALL, Tables
from ..shared.cells import value

NONE, OMITTED = 2, 7


def least_green(tables: Tables, phase: int) -> int:
    """Returns the minimum green of a phase in ticks."""
    return max(1, 10 * value(tables, ("phase", phase, 4)))


def crossing_time(tables: Tables, phase: int) -> int:
    """Returns walk and pedestrian clearance together, in ticks; 0 without a walk."""
    walk, clear = (value(tables, ("phase", phase, column)) for column in (2, 3))
    return 10 * (walk + clear) if walk else 0


def least_service(tables: Tables, phase: int) -> int:
    """Returns the minimum service of a phase in ticks: its minimum green, or walk and pedestrian clearance if these
    take longer."""
    return max(least_green(tables, phase), crossing_time(tables, phase))


def concurrent(tables: Tables, phase: int) -> set[int]:
    """Returns the enabled phases that a phase lists."""
    return set(value(tables, ("phase", phase, 23))) & set(tables.enabled())


def sides_by_phase(tables: Tables) -> dict[int, frozenset[int]]:
    """Returns the side of the barrier of each enabled phase: it, those concurrent with it, and those that share one of
    these with it."""
    enabled = tables.enabled()
    near = {phase: set(value(tables, ("phase", phase, 23))) & set(enabled) for phase in enabled}
    return {
        one: frozenset(it for it in enabled if it == one or it in near[one] or near[one] & near[it]) for one in enabled
    }


def sides(tables: Tables) -> list[frozenset[int]]:
    """Returns the sides of the barrier, by their lowest phase."""
    return list(dict.fromkeys(sides_by_phase(tables).values()))


@dataclass(frozen=True)
class Layout:
    """A pattern of tables that keep the rules of rings and sequences."""

    tables: Tables
    pattern: int

    @cached_property
    def cycle(self) -> int:
        """The cycle in ticks."""
        return 10 * value(self.tables, ("pattern", self.pattern, 2))

    @cached_property
    def split(self) -> int:
        """The number of its split."""
        return value(self.tables, ("pattern", self.pattern, 4))

    @cached_property
    def orders(self) -> tuple[tuple, tuple]:
        """The phases of both rings in the order of its sequence."""
        sequence = value(self.tables, ("pattern", self.pattern, 5))
        return value(self.tables, ("sequence", sequence, 1)), value(self.tables, ("sequence", sequence, 2))

    def time(self, phase: int) -> int:
        """Returns the split of a phase in ticks."""
        return 10 * value(self.tables, ("split", self.split, phase, 3))

    @cached_property
    def slots(self) -> dict[int, tuple[int, int]]:
        """Where the slot of each phase begins and ends."""
        found = {}
        for order in self.orders:
            at = 0
            for phase in order:
                found[phase] = (at, at + self.time(phase))
                at += self.time(phase)
        return found

    @cached_property
    def sides(self) -> list[frozenset[int]]:
        """The sides of the barrier in the sequence's order."""
        return list(dict.fromkeys(map(self.side, self.orders[0])))

    @cached_property
    def side_by_phase(self) -> dict[int, frozenset[int]]:
        """The side of each enabled phase."""
        return sides_by_phase(self.tables)

    def side(self, phase: int) -> frozenset[int]:
        """Returns the side of a phase."""
        return self.side_by_phase[phase]

    def of_side(self, side: frozenset[int], ring: int) -> list[int]:
        """Returns the phases of a side in a ring, in order."""
        return [phase for phase in self.orders[ring - 1] if phase in side]

    def side_end(self, phase: int) -> int:
        """Returns where the side of a phase ends."""
        return max(self.slots[it][1] for it in self.side(phase) if it in self.slots)

    def side_clearance(self, phase: int) -> int:
        """Returns the longest clearance of the side of a phase."""
        return max(self.tables.clearance(it) for it in self.side(phase))

    def last_end(self, phase: int) -> int:
        """Returns the last moment at which the green of a phase may end, from the start of the sequence."""
        return min(
            self.slots[phase][1] - self.tables.clearance(phase), self.side_end(phase) - self.side_clearance(phase)
        )

    @cached_property
    def coordinated(self) -> list[int]:
        """The enabled phases that its split coordinates."""
        return [phase for phase in self.tables.enabled() if value(self.tables, ("split", self.split, phase, 5)) == 1]

    def mode(self, phase: int) -> int:
        """Returns the split mode of a phase."""
        return value(self.tables, ("split", self.split, phase, 4))

    def is_omitted(self, phase: int) -> bool:
        """Tells whether the split leaves a phase out."""
        return self.mode(phase) == OMITTED

    @cached_property
    def zero(self) -> int:
        """Local zero: the later start of the two coordinated slots."""
        return max(self.slots[phase][0] for phase in self.coordinated)

    @cached_property
    def window(self) -> int:
        """How long after local zero both coordinated phases may stay green; below 0 if they can't be green
        together."""
        return min(self.last_end(phase) for phase in self.coordinated) - self.zero

    def room(self, phase: int) -> int:
        """Returns how many ticks a phase has beyond its minimum service; below 0 if it has too few."""
        return self.last_end(phase) - self.slots[phase][0] - least_service(self.tables, phase)

    def window_needs(self) -> dict[str, int]:
        """Returns what the window must have room for, by what asks it."""
        add, skip = (value(self.tables, ("unit", column)) for column in (3, 4))
        needs = {"add": add, "skip": 2 * skip}
        return needs | {f"service {phase}": skip + least_service(self.tables, phase) for phase in self.coordinated}

    def window_room(self) -> int:
        """Returns how many ticks the window has beyond what it must have."""
        return self.window - max(self.window_needs().values())

    def waited(self) -> list[int]:
        """Returns the phases that are neither coordinated nor omitted."""
        return [
            phase
            for phase in ALL
            if phase in self.slots and phase not in self.coordinated and not self.is_omitted(phase)
        ]
