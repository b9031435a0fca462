"""Rings and barriers as drawn: `rings = ["1 2 | 3 4", "5 6 | 7 8"]`, a line for each ring, a bar for each barrier.

A side with no phase in a ring (`-`) gets a partner there: a phase that the rings need and that is never called.
"""

from collections.abc import Collection
from dataclasses import dataclass

from ..shared.tables import ALL, LISTS, Tables, standard
from ..shared.cells import put, unset, value
from ..shared.given import Wrong
from .fields import ENABLED, with_bits
from .layout import sides_by_phase

TIMES = (2, 3, 4, 5, 6, 8, 9, 10, 20, 21)
Side = tuple[tuple[int, ...], tuple[int, ...]]


@dataclass(frozen=True)
class Drawing:
    """The sides of the barriers in their order, each with the phases of ring 1 and of ring 2."""

    sides: tuple[Side, ...]

    def ring(self, number: int) -> tuple[int, ...]:
        """Returns the phases of a ring in order."""
        return tuple(phase for side in self.sides for phase in side[number - 1])

    def phases(self) -> list[int]:
        """Returns all phases that are drawn, in rising order."""
        return sorted({*self.ring(1), *self.ring(2)})

    def without(self, partners: Collection[int]) -> "Drawing":
        """Returns the drawing without some phases."""
        left = [[tuple(it for it in ring if it not in partners) for ring in side] for side in self.sides]
        return Drawing(tuple((one, other) for one, other in left))

    def lines(self) -> list[str]:
        """Returns what a sheet says."""
        rings = [[" ".join(map(str, side[ring])) or "-" for side in self.sides] for ring in (0, 1)]
        widths = [max(map(len, column)) for column in zip(*rings, strict=True)]
        return [" | ".join(it.ljust(width) for it, width in zip(ring, widths, strict=True)).rstrip() for ring in rings]


STANDARD = Drawing((((1, 2), (5, 6)), ((3, 4), (7, 8))))


def phases_in(text: str) -> tuple[int, ...]:
    """Returns the phases that a part of a line names."""
    words = [] if text.strip() in ("", "-") else text.split()
    for word in words:
        if not word.isdecimal() or len(word) > 2 or int(word) not in ALL:
            raise Wrong(f"{word!r} in {text.strip()!r} is not a phase from 1 to 16")
    return tuple(map(int, words))


def read(given: object) -> Drawing:
    """Returns the drawing that a sheet has."""
    if not isinstance(given, list) or not 1 <= len(given) <= 2 or not all(isinstance(it, str) for it in given):
        raise Wrong('rings are one or two lines, as ["1 2 | 3 4", "5 6 | 7 8"]')
    rings: list[list[tuple[int, ...]]] = [[phases_in(part) for part in line.split("|")] for line in given]
    if len(rings) == 1:
        rings.append([()] * len(rings[0]))
    if len(rings[0]) != len(rings[1]):
        raise Wrong(
            f"the line of ring 1 has {len(rings[0]) - 1} of the bars |, and that of ring 2 {len(rings[1]) - 1}: both "
            "rings cross each barrier together; draw - where a ring has no phase"
        )
    drawing = Drawing(tuple(zip(rings[0], rings[1], strict=True)))
    drawn = [*drawing.ring(1), *drawing.ring(2)]
    for phase in drawn:
        if drawn.count(phase) > 1:
            raise Wrong(f"phase {phase} is drawn twice")
    for number, side in enumerate(drawing.sides, 1):
        if not side[0] and not side[1]:
            raise Wrong(f"side {number} of the barriers has no phase")
    return drawing


def free_number(near: tuple[int, ...], taken: set[int]) -> int:
    """Returns the number for a partner of some phases: the one that faces the last of them in the standard rings, or
    the first that is free."""
    facing = [it + 4 if (it - 1) % 8 < 4 else it - 4 for it in (near[-1], near[0])]
    for number in (*facing, *ALL):
        if number not in taken:
            return number
    raise Wrong("no number is left for the partner that a ring needs: all 16 phases are drawn")


def with_partners(drawing: Drawing) -> tuple[Drawing, dict[int, int]]:
    """Returns the drawing with partners where a ring has no phase on a side, and for each partner the phase that it
    copies."""
    taken = set(drawing.phases())
    partners: dict[int, int] = {}
    sides: list[Side] = []
    for side in drawing.sides:
        rings = list(side)
        for ring in (0, 1):
            if not rings[ring]:
                other = rings[1 - ring]
                number = free_number(other, taken)
                taken.add(number)
                partners[number] = other[-1]
                rings[ring] = (number,)
        sides.append((rings[0], rings[1]))
    return Drawing(tuple(sides)), partners


def apply(tables: Tables, drawing: Drawing) -> None:
    """Puts rings, lists of concurrent phases, sequence 1 and the enabled phases into standard tables. A list of the
    standard table stays if it says the same. If the rings aren't those of the standard table, its pattern 1 is no
    longer defined."""
    drawn = set(drawing.phases())
    for phase in ALL:
        on = ENABLED * (phase in drawn)
        if on and phase > 8:
            put_times(tables, phase, like=phase - 8)
        put(tables, ("phase", phase, 21), with_bits(value(tables, ("phase", phase, 21)), ENABLED, on))
    for side in drawing.sides:
        for ring in (1, 2):
            for phase in side[ring - 1]:
                put(tables, ("phase", phase, 22), ring)
                facing = tuple(sorted(side[2 - ring]))
                if tuple(it for it in LISTS.get(phase, ()) if it in drawn) != facing or not facing:
                    put(tables, ("phase", phase, 23), facing)
    for ring in (1, 2):
        put(tables, ("sequence", 1, ring), drawing.ring(ring))
    if drawing != STANDARD:
        put(tables, ("pattern", 1, 2), 0)


def put_times(tables: Tables, phase: int, like: int) -> None:
    """Gives a phase above 8 the times of the standard table's left turns (odd) or side street (even)."""
    cells, row = standard("std8"), 1 if like % 2 else 4
    for column in TIMES:
        put(tables, ("phase", phase, column), cells.get(("phase", row, column), 0))


def of_tables(tables: Tables) -> Drawing | None:
    """Returns the drawing of tables; None if rings, lists and sequence 1 don't make one."""
    enabled = set(tables.enabled())
    rings = [value(tables, ("sequence", 1, ring)) for ring in (1, 2)]
    if not enabled or sorted((*rings[0], *rings[1])) != sorted(enabled):
        return None
    side_of = sides_by_phase(tables)
    sides: list[Side] = []
    seen: list[frozenset[int]] = []
    for phase in (*rings[0], *rings[1]):
        side = side_of[phase]
        if side not in seen:
            if any(side & other for other in seen):
                return None
            seen.append(side)
            sides.append((tuple(it for it in rings[0] if it in side), tuple(it for it in rings[1] if it in side)))
    drawing = Drawing(tuple(sides))
    if any(drawing.ring(ring) != rings[ring - 1] for ring in (1, 2)):
        return None
    return drawing


def order_lines(drawing: Drawing | None, rings: list[tuple]) -> list[str]:
    """Returns the lines of a sequence, with bars where the drawing has barriers and the phases of each side are
    together."""
    plain = [" ".join(map(str, ring)) for ring in rings]
    if drawing is None:
        return plain
    side_of = {phase: number for number, side in enumerate(drawing.sides) for ring in side for phase in ring}
    lines = []
    for ring in rings:
        words, before = [], None
        for phase in ring:
            side = side_of.get(phase, before)
            if before is not None and side != before:
                words.append("|")
            words.append(str(phase))
            before = side
        lines.append(" ".join(words))
    return lines


def read_order(given: object) -> list[tuple]:
    """Returns the phases of both rings of a sequence. Bars are for the reader's eye; numbers that aren't phases are
    kept."""
    if not isinstance(given, list) or len(given) != 2 or not all(isinstance(it, str) for it in given):
        raise Wrong('a sequence is two lines, as ["2 1 | 3 4", "6 5 | 7 8"]')
    rings = []
    for line in given:
        words = [word for word in line.replace("|", " ").split() if word != "-"]
        if any(not word.isdecimal() or len(word) > 3 or int(word) > 255 for word in words) or len(words) > 16:
            raise Wrong(f"{line!r} is not an order of at most 16 phases")
        rings.append(tuple(map(int, words)))
    return rings


def is_blank(tables: Tables, number: int) -> bool:
    """Tells whether a sequence is empty in both rings."""
    return all(value(tables, ("sequence", number, ring)) == unset(("sequence", number, ring)) for ring in (1, 2))
