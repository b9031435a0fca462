"""Which routes the volumes of a street have: ways through it, by their names (`EBT 1-2, EBL 3`)."""

import re
from typing import NamedTuple

from .demand import Network
from .volumes import Flow, Volumes


class Place(NamedTuple):
    """Where a way is: at a movement, in a part of the name that ends at a cabinet; the text of the parts behind it."""

    flow: int
    until: int
    rest: str


def begun(flows: tuple[Flow, ...], flow: int, text: str) -> Place | None:
    """Returns the place of a movement with which the part at the beginning of a text begins; None if it doesn't."""
    it = flows[flow]
    found = re.match(rf"{re.escape(it.name)} {it.cabinet}(?:-([0-9]{{1,9}}))?(?:, (?=.)|$)", text)
    return Place(flow, int(found[1] or it.cabinet), text[found.end() :]) if found else None


def nexts(network: Network, at: Place) -> list[Place | None]:
    """Returns where a way may go on: in the same part, or with the next one."""
    it = network.flows[at.flow]
    if it.onward is None:
        return []
    found: list[Place | None] = []
    for flow in network.approaches[it.onward.cabinet, it.onward.approach]:
        if network.flows[flow].name == it.name:
            found.append(Place(flow, at.until, at.rest))
        elif it.cabinet == at.until:
            found.append(begun(network.flows, flow, at.rest))
    return found


def is_route(volumes: Volumes, name: str) -> bool:
    """Tells whether vehicles may have a way of this name: it begins where they come in, and ends where they may leave
    the street."""
    network = Network(volumes.flows)
    waiting = [begun(volumes.flows, flow, name) for flow in network.entries()]
    known = set(waiting)
    while waiting:
        at = waiting.pop()
        if at is None:
            continue
        it = volumes.flows[at.flow]
        if not at.rest and it.cabinet == at.until and (it.onward is None or it.onward.share < 1):
            return True
        new = set(nexts(network, at)) - known
        known |= new
        waiting += new
    return False
