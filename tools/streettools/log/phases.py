"""What a phase shows, by its rows: changes of its colour and of its pedestrian signal.

Most changes of a colour have two rows: one that ends a colour (7, 9, 11) and one that begins the next (8, 10, 12, 1).
So a missing row is known by the other one. If neither row of a change is there, a later row shows that the change is
lost: the judging of the cabinet then begins again at that row. A change that both rows show is taken as it is, also if
no controller should make it.
"""

from collections.abc import Sequence
from dataclasses import dataclass, field

from ..shared import event_codes as codes

APART = 2
"""The rows of a change may be this many ticks apart."""
CYCLE = "GYCR"
BEGINS = {codes.BEGIN_GREEN: "G", codes.PHASE_ON: "G", codes.BEGIN_YELLOW: "Y", codes.BEGIN_RED_CLEARANCE: "C"}
ENDS = {"G": {codes.GREEN_TERMINATION}, "Y": {codes.END_YELLOW}, "C": {codes.END_RED_CLEARANCE, codes.PHASE_INACTIVE}}
PAIRS = (
    (codes.GREEN_TERMINATION, codes.BEGIN_YELLOW),
    (codes.END_YELLOW, codes.BEGIN_RED_CLEARANCE),
    (codes.END_YELLOW, codes.PHASE_INACTIVE),
)
"""Rows that end a colour, and those that begin the next one."""
BEFORE = {
    codes.PHASE_ON: "R", codes.BEGIN_GREEN: "R", codes.GREEN_TERMINATION: "G", codes.BEGIN_YELLOW: "G",
    codes.END_YELLOW: "Y", codes.BEGIN_RED_CLEARANCE: "Y", codes.END_RED_CLEARANCE: "C", codes.PHASE_INACTIVE: "R",
}  # fmt: skip
"""The colour that a phase shows before its first row, by the code of that row."""
COLOUR_CODES = frozenset(BEFORE)
SIGNAL_OF = {codes.BEGIN_WALK: "W", codes.BEGIN_PEDESTRIAN_CLEARANCE: "F", codes.BEGIN_DONT_WALK: "D"}
SIGNAL_BEFORE = {codes.BEGIN_WALK: "D", codes.BEGIN_PEDESTRIAN_CLEARANCE: "W", codes.BEGIN_DONT_WALK: "F"}

Group = tuple[int, set[int]]
"""A tick, and the codes of a phase at it."""
Change = tuple[int, str]
"""A tick, and the letter that is shown from it on."""


@dataclass
class Shown:
    """A phase's letter before its first row, its changes, and the ticks of what was found in its rows."""

    first: str
    changes: list[Change] = field(default_factory=list)
    missing: list[int] = field(default_factory=list)
    apart: list[int] = field(default_factory=list)
    lost: list[int] = field(default_factory=list)


def grouped(rows: Sequence[tuple[int, int]]) -> list[Group]:
    """Returns the rows (tick, code) of a phase, which are in the order of time, by their ticks."""
    found: list[Group] = []
    for tick, code in rows:
        if found and found[-1][0] == tick:
            found[-1][1].add(code)
        else:
            found.append((tick, {code}))
    return found


def joined(groups: list[Group], shown: Shown) -> list[Group]:
    """Returns groups in which the two rows of a change are together: they count at the row that begins a colour."""
    found: list[Group] = []
    for tick, its in groups:
        last = found[-1] if found else None
        if last and tick - last[0] <= APART:
            pair = next((it for it in PAIRS if is_split(it, last[1], its)), None)
            if pair is not None:
                shown.apart.append(tick)
                at = last[0] if pair[1] in last[1] else tick
                found[-1] = (at, last[1] | its)
                continue
        found.append((tick, its))
    return found


def is_split(pair: tuple[int, int], one: set[int], other: set[int]) -> bool:
    """Tells whether one group has the first row of a pair and the other group the second, and neither has both."""
    end, begin = pair
    return (end in one and begin in other and not {begin, end} & (one - {end}) and end not in other) or (
        begin in one and end in other and not {begin, end} & (other - {end}) and end not in one
    )


def begun(its: set[int], old: str) -> str:
    """Returns the colour after some rows at a tick: of the colours that begin, the last one of the cycle from the old
    one on."""
    colours = {BEGINS[code] for code in its if code in BEGINS}
    if old != "R" and its & {codes.PHASE_INACTIVE, codes.END_RED_CLEARANCE}:
        colours.add("R")
    if codes.END_YELLOW in its and codes.BEGIN_RED_CLEARANCE not in its and old != "R":
        colours.add("R")
    if not colours and codes.GREEN_TERMINATION in its:
        colours.add("Y")
    at = CYCLE.index(old)
    order = CYCLE[at + 1 :] + CYCLE[: at + 1]
    return max(colours, key=order.index, default=old)


def is_known(its: set[int], old: str, new: str) -> bool:
    """Tells whether rows show a change as it is: the new colour follows the old one, or a row ends the old one."""
    follows = {"G": "Y", "Y": "CR", "C": "R", "R": "G"}[old]
    return new in follows or bool(its & ENDS.get(old, set()))


def lacks_a_row(its: set[int], old: str, new: str) -> bool:
    """Tells whether one of the two rows of a change is missing."""
    if old == "G" and new == "Y":
        return not {codes.GREEN_TERMINATION, codes.BEGIN_YELLOW} <= its
    if old == "Y" and new == "C":
        return not {codes.END_YELLOW, codes.BEGIN_RED_CLEARANCE} <= its
    return old == "Y" and new == "R" and codes.END_YELLOW not in its


def colours(rows: Sequence[tuple[int, int]]) -> Shown:
    """Returns the colours of a phase by its rows (tick, code), which are in the order of time."""
    shown = Shown("R")
    groups = joined(grouped(rows), shown)
    if not groups:
        return shown
    first = groups[0][1]
    old = shown.first = "C" if first == {codes.END_RED_CLEARANCE, codes.PHASE_INACTIVE} else opening(first)
    for at, (tick, its) in enumerate(groups):
        new = begun(its, old)
        later = groups[at + 1][1] if at + 1 < len(groups) else set()
        if old == "Y" and new == "R" and codes.END_RED_CLEARANCE in later - its:
            new = "C"  # the end of the red clearance is there, so its beginning is missing
        if new == old:
            continue
        if not is_known(its, old, new):
            shown.lost.append(tick)
        elif lacks_a_row(its, old, new):
            shown.missing.append(tick)
        shown.changes.append((tick, new))
        old = new
    return shown


def opening(its: set[int]) -> str:
    """Returns the colour before the first rows of a phase."""
    order = (
        codes.GREEN_TERMINATION, codes.BEGIN_YELLOW, codes.END_YELLOW, codes.BEGIN_RED_CLEARANCE,
        codes.END_RED_CLEARANCE, codes.BEGIN_GREEN, codes.PHASE_ON, codes.PHASE_INACTIVE,
    )  # fmt: skip
    return BEFORE[next(code for code in order if code in its)]


def signals(rows: Sequence[tuple[int, int]], ends: Sequence[int], clears: bool) -> Shown:
    """Returns the pedestrian signals of a phase by its rows. A signal whose end is missing is taken to end with the
    green, at the next of `ends`. `clears` tells whether the plan has a pedestrian clearance."""
    shown = Shown("D")
    if not rows:
        return shown
    old = shown.first = SIGNAL_BEFORE[rows[0][1]] if clears or rows[0][1] != codes.BEGIN_DONT_WALK else "W"
    since = rows[0][0] - 1
    for tick, code in rows:
        new = SIGNAL_OF[code]
        if new == old:
            continue
        if new == "W" and old != "D":
            end = next((it for it in ends if since < it < tick), None)
            if end is not None:
                shown.changes.append((end, "D"))
                shown.lost.append(end)
                old = "D"
        follows = {"D": "W", "W": "F" if clears else "FD", "F": "D"}[old]
        if new not in follows:
            shown.lost.append(tick)
        shown.changes.append((tick, new))
        old, since = new, tick
    return shown
