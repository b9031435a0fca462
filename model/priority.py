"""Priority requests: which is live, which is active, and the state of each.

docs/DEFINITIONS.md, "A tick: preemption and priority": `place_of`, `is_live`, `leader`, `active_in`, `request_state`.
"""

from dataclasses import dataclass, replace
from enum import Enum


class State(Enum):
    """The state of a request, by its code in the agent."""

    NONE = 0
    QUEUED = 1
    ACTIVE = 2
    DEPARTED = 3
    CANCELLED = 4


LIVE = (State.QUEUED, State.ACTIVE)


@dataclass(frozen=True)
class Request:
    """A priority request: its number, class and level, the phase that serves it, and in how many ticks it comes and
    is gone."""

    number: int
    klass: int
    level: int
    phase: int
    arrival: int
    departure: int


@dataclass(frozen=True)
class Place:
    """The last request of a number: the ticks of its arrival and its departure, and its state."""

    request: Request
    at: int
    until: int
    state: State = State.QUEUED


Places = dict[int, Place]


def with_request(places: Places, request: Request, ticks: int) -> Places:
    """Returns the requests after one was given after `ticks` ticks; it replaces the one with its number."""
    place = Place(request, ticks + request.arrival, ticks + request.departure)
    return {**places, request.number: place}


def with_cancel(places: Places, number: int) -> Places:
    """Returns the requests after that of a number was taken back; one that isn't live stays as it is."""
    place = places.get(number)
    if place is None or place.state not in LIVE:
        return places
    return {**places, number: replace(place, state=State.CANCELLED)}


def leader(places: Places, phases: frozenset[int]) -> int:
    """Returns the number of the live request that comes first, by class, level, arrival and number, of those for
    some phases; or 0."""
    live = [it for it in places.values() if it.state in LIVE and it.request.phase in phases]
    if not live:
        return 0
    return min(live, key=lambda it: (it.request.klass, it.request.level, it.at, it.request.number)).request.number


def after_tick(places: Places, number: int, phases: frozenset[int]) -> tuple[Places, int]:
    """Returns the requests at a tick of this number, and the active one or 0: those that are gone depart, then one
    of the live ones for these phases (none if no pattern binds) is active."""
    if not places:
        return places, 0

    def left(place: Place) -> Place:
        if place.state not in LIVE:
            return place
        return replace(place, state=State.DEPARTED if number > place.until else State.QUEUED)

    kept = {n: left(place) for n, place in places.items()}
    first = leader(kept, phases)
    if first:
        kept[first] = replace(kept[first], state=State.ACTIVE)
    return kept, first
