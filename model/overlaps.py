"""An overlap over a trace: an arrow that is green with any of several phases.

docs/TRACE.md, "An overlap over a trace". What it shows at a tick is found by looking back over the ticks at which a
parent was Green, and over what it showed.
"""

from collections.abc import Iterator

from model.check import check
from model.past import Moment
from model.tables import Tables, enabled, rows
from model.words import PHASES, Colour
from model.words_given import Overlaps

LEAST_YELLOW = 30


class OverlapFault(Exception):
    """The first rule that an overlap breaks, and the row at which it does."""

    def __init__(self, rule: int, row: int) -> None:
        super().__init__(f"rule {rule} at row {row}")


def first_wrong_parent(parents: bytes, opening: Tables) -> int | None:
    """Returns the first parent that isn't a phase, isn't enabled as the cabinet opens, or is a duplicate."""
    for place, p in enumerate(parents):
        if p not in PHASES or p not in enabled(opening) or p in parents[:place]:
            return p
    return None


def has_time(told: Overlaps, p: int, tables: list[Tables]) -> bool:
    """Tells whether the overlap is over before a parent can have cleared, by the least times over all tables."""
    least = min(rows(it)[p].yellow for it in tables) + min(rows(it)[p].red_clear for it in tables)
    return told.trail + told.yellow + told.red <= least


def has_lasted(shown: list[Colour], ticks: int) -> bool:
    """Tells whether the last colour has been shown for at least this number of ticks in a row."""
    return len(shown) >= ticks and all(colour is shown[-1] for colour in shown[len(shown) - ticks :])


def shown_after(shown: list[Colour], green: list[bool], told: Overlaps) -> Colour:
    """Returns what the overlap shows at the tick after those that are shown; `green` tells of each tick, this one
    included, whether a parent was Green."""
    before = shown[-1]
    if before is Colour.RED:
        return Colour.GREEN if green[-1] else Colour.RED
    if before is Colour.GREEN:
        return Colour.GREEN if any(green[-1 - told.trail :]) else Colour.YELLOW
    if before is Colour.YELLOW and has_lasted(shown, told.yellow):
        return Colour.CLEAR if told.red else Colour.RED
    return Colour.RED if before is Colour.CLEAR and has_lasted(shown, told.red) else before


def checked(data: bytes, told: Overlaps) -> list[Moment]:
    """Returns the moments of the cabinet in a trace, if the overlap breaks no rule."""
    run = check(data)
    if told.cabinet > len(run.cabinets):
        raise OverlapFault(1, 0)
    past = run.cabinets[told.cabinet - 1].controller.past
    tables = past.versions
    wrong = first_wrong_parent(told.parents, tables[0])
    if wrong is not None:
        raise OverlapFault(2, wrong)
    if told.yellow < LEAST_YELLOW:
        raise OverlapFault(3, 0)
    for p in told.parents:
        if not has_time(told, p, tables):
            raise OverlapFault(4, p)
    return past.moments


def overlap_lines(data: bytes, told: Overlaps) -> Iterator[bytes]:
    """Yields the changes of the overlap, and how many ticks the cabinet had."""
    moments = checked(data, told)
    parents = frozenset(told.parents)
    shown, green = [Colour.RED], [bool(parents & moments[0].frame.lights.green)]
    yield b"O 0 R"
    for moment in moments[1:]:
        green.append(bool(parents & moment.frame.lights.green))
        colour = shown_after(shown, green, told)
        if colour is not shown[-1]:
            yield b"O %d %s" % (moment.number, colour.value.encode())
        shown.append(colour)
    yield b"Z %d" % (len(moments) - 1)
