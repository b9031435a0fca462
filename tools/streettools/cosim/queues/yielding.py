"""The movements to which a turn gives way, and its gaps: by the names of movements if the file of volumes doesn't say
them."""

import re

from .gaps import Gaps
from .volumes import Flow

NAME = re.compile(r"([NESW])B([LTRU])")
ROUND = "NESW"
LEFT_CRITICAL, LEFT_FOLLOW = 4.5, 2.5
"""Seconds of a permitted left turn (Highway Capacity Manual, signalized intersections)."""
RIGHT_CRITICAL, RIGHT_CRITICAL_WIDE, RIGHT_FOLLOW = 6.2, 6.9, 3.3
"""Seconds of a right turn after a stop, into one lane each way or more (the same, two-way stop-controlled ones)."""


def yields_to(flow: Flow) -> tuple[str, ...]:
    """Returns the names of the movements to which one yields: those that are given; by default, a left turn yields to
    the through movement and the right turn from opposite, a right turn on red to the through movement from the left and
    to the left turn from opposite. Empty if the name has no direction."""
    if flow.yielding.to:
        return flow.yielding.to
    name = NAME.fullmatch(flow.name)
    if name is None:
        return ()
    way = ROUND.index(name[1])
    opposite, from_left = ROUND[(way + 2) % 4], ROUND[(way + 1) % 4]
    if flow.yielding.on_red:
        return f"{from_left}BT", f"{opposite}BL"
    return f"{opposite}BT", f"{opposite}BR"


def gives_way(flow: Flow) -> bool:
    """Tells whether a movement turns that gives way: on red, or in permitted phases. A right turn or a straight
    movement has the right of way there, unless the file says to whom it yields."""
    straight_or_right = flow.name.endswith(("R", "T")) and not flow.yielding.to
    return flow.yielding.on_red or bool(flow.permitted) and not straight_or_right


def gaps_of(flow: Flow, lanes: int) -> Gaps:
    """Returns the gaps that a turn takes from streams with a number of lanes."""
    given = flow.yielding
    if given.on_red:
        critical, follow = RIGHT_CRITICAL_WIDE if lanes > 1 else RIGHT_CRITICAL, RIGHT_FOLLOW
    else:
        critical, follow = LEFT_CRITICAL, LEFT_FOLLOW
    sneakers = 0 if given.on_red else given.sneakers
    return Gaps(given.critical or critical, given.follow or follow, sneakers)
