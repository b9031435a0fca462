"""What is counted of each movement of a study: delay, stops, arrivals on green, queue, greens that didn't serve all.

The same for SUMO's vehicles and for those of the model of queues. docs/QUEUES.md, "The report", defines each number.
"""

from bisect import bisect_left, bisect_right
from collections import defaultdict
from collections.abc import Iterable, Iterator
from dataclasses import dataclass, field
from itertools import pairwise

from .queues.signals import Spans
from .records import Kind, Movement, Passage, QueueSample, Study, Trip

Key = tuple[int, str]
"""A movement by its cabinet and its name."""
Greens = dict[tuple[int, int], Spans]
"""When each phase of each cabinet was green."""


@dataclass
class Count:
    """What is counted of one movement, or of several together: times are seconds, `queued` vehicles times seconds."""

    vehicles: int = 0
    delay: float = 0.0
    stops: int = 0
    on_green: int = 0
    delays: list[float] = field(default_factory=list)
    queued: float = 0.0
    queue_time: float = 0.0
    queue_greatest: int = 0
    left: int = 0
    """How many were in the queue at the end."""
    greens: int = 0
    failures: int = 0
    green_time: float = 0.0
    time: float = 0.0
    arrivals: int = 0
    """How many would have passed the line in the time that counts, had nothing held them."""
    capacity: float | None = None
    """How many the greens could have discharged; None if that isn't known."""
    full_time: float | None = None
    """How long its storage was full; None if there isn't a limit."""

    def passed(self, it: Passage) -> None:
        """Counts a passage."""
        self.vehicles += 1
        self.delay += it.delay
        self.stops += it.stopped
        self.on_green += it.on_green
        self.delays.append(it.delay)

    def add(self, other: "Count") -> None:
        """Adds another movement to this one. Queues of several movements have no common maximum, so the longest queue
        of one is kept."""
        for name in SUMS:
            setattr(self, name, getattr(self, name) + getattr(other, name))
        self.delays += other.delays
        self.queue_time = max(self.queue_time, other.queue_time)
        self.queue_greatest = max(self.queue_greatest, other.queue_greatest)


SUMS = ("vehicles", "delay", "stops", "on_green", "queued", "left", "greens", "failures", "green_time", "time")
"""What is added where several movements are counted together."""


def merged(spans: list[Spans]) -> Spans:
    """Returns when any of several is shown."""
    if len(spans) == 1:
        return spans[0]
    found = Spans()
    for start, end in sorted(pair for it in spans for pair in zip(it.starts, it.ends)):
        if found.ends and start <= found.ends[-1]:
            found.ends[-1] = max(found.ends[-1], end)
        else:
            found.starts.append(start)
            found.ends.append(end)
    return found


def greens_of(movement: Movement, greens: Greens) -> Spans:
    """Returns when a movement has green."""
    return merged([greens.get((movement.cabinet, phase), Spans()) for phase in movement.phases()] or [Spans()])


def failed(starts: list[float], passages: Iterable[Passage]) -> set[float]:
    """Returns the greens, by their starts, in which a vehicle of the queue didn't pass, and passed in a later green."""
    found: set[float] = set()
    for it in passages:
        first, served = bisect_right(starts, it.arrived), bisect_right(starts, it.released) - 1
        if served > first:
            found.update(starts[first:served])
    return found


def queues(count: Count, rows: list[QueueSample], start: float, end: float) -> None:
    """Counts a movement's queue from a second on: each sample holds until the next."""
    now, since = 0, start
    for it in rows:
        if it.second > since:
            count.queued += now * (min(it.second, end) - since)
            since = min(it.second, end)
        now = it.vehicles
        if it.second >= start and now > count.queue_greatest:
            count.queue_greatest = now
    count.queued += now * (end - since)
    count.queue_time, count.left = end - start, now


def green_times(count: Count, spans: Spans, start: float, end: float) -> None:
    """Counts a movement's greens from a second on."""
    count.time = end - start
    count.greens = len(spans.starts) - bisect_left(spans.starts, start)
    count.green_time = sum(max(0.0, min(off, end) - max(on, start)) for on, off in zip(spans.starts, spans.ends))


def capacity(movement: Movement, spans: Spans, start: float, end: float) -> float | None:
    """Returns how many vehicles the greens of a movement that began from a second on could discharge: each its
    effective green by the saturation flow."""
    if movement.service is None:
        return None
    flow, lost, used = movement.service
    greens = ((on, off) for on, off in zip(spans.starts, spans.ends) if start <= on < end)
    return sum(max(off - on - lost + used, 0.0) for on, off in greens) * flow / 3600


def full_time(movement: Movement, stays: list[tuple[float, float]], start: float, end: float) -> float | None:
    """Returns how long a movement had as many vehicles as fit; `stays` are from when to when each was there."""
    if movement.storage is None:
        return None
    changes = sorted([(on, 1) for on, _ in stays] + [(off, -1) for _, off in stays])
    found, count, since = 0.0, 0, start
    for at, change in (*changes, (end, 0)):
        now = min(max(at, start), end)
        if count >= movement.storage:
            found += now - since
        count, since = count + change, now
    return found


def stays_of(trips: Iterable[Trip], end: float) -> dict[Key, list[tuple[float, float]]]:
    """Returns from when to when each vehicle was between the stop line before and each of its own."""
    found: dict[Key, list[tuple[float, float]]] = defaultdict(list)
    for trip in trips:
        for one, other in pairwise(trip.passages):
            found[other.cabinet, other.movement].append((one.released, other.released))
        if trip.waits is not None and trip.passages:
            found[trip.waits[0], trip.waits[1]].append((trip.passages[-1].released, end))
    return found


def counted_trips(study: Study) -> list[Trip]:
    """Returns the trips that began after the time that is left out."""
    return [it for it in study.trips if it.depart >= study.warm]


def reached(trips: Iterable[Trip]) -> Iterator[tuple[Key, float]]:
    """Yields each movement that a vehicle reached, with the time; also the last one, if it waited there at the end."""
    for trip in trips:
        for it in trip.passages:
            yield (it.cabinet, it.movement), it.arrived
        if trip.waits is not None:
            yield trip.waits[:2], trip.waits[2]


def counts(study: Study, greens: Greens) -> dict[Key, Count]:
    """Returns what is counted of each movement, persons' too, in the order of the study."""
    found = {(it.cabinet, it.name): Count() for it in study.movements}
    passages: dict[Key, list[Passage]] = defaultdict(list)
    for trip in counted_trips(study):
        for it in trip.passages:
            found.setdefault((it.cabinet, it.movement), Count()).passed(it)
            passages[it.cabinet, it.movement].append(it)
    rows: dict[Key, list[QueueSample]] = defaultdict(list)
    for sample in study.queues:
        rows[sample.cabinet, sample.movement].append(sample)
    start = min(study.warm, study.seconds)
    stays = stays_of(study.trips, study.seconds)
    for key, at in reached(study.trips):
        if start <= at < study.seconds and key in found:
            found[key].arrivals += 1
    for movement in study.movements:
        key = (movement.cabinet, movement.name)
        spans = greens_of(movement, greens)
        green_times(found[key], spans, start, study.seconds)
        queues(found[key], rows[key], start, study.seconds)
        found[key].capacity = capacity(movement, spans, start, study.seconds)
        found[key].full_time = full_time(movement, stays[key], start, study.seconds)
        late = failed(spans.starts, passages[key])
        found[key].failures = sum(1 for it in late if it >= study.warm)
    return found


def is_of_persons(movement: Movement) -> bool:
    """Tells whether persons take a movement."""
    return movement.name.startswith("ped ")


@dataclass
class RouteCount:
    """What is counted of the trips of a route: those that were completed, their times of travel, delay, stops."""

    trips: int = 0
    arrived: int = 0
    travel: float = 0.0
    delay: float = 0.0
    stops: int = 0

    def trip(self, it: Trip) -> None:
        """Counts a trip."""
        self.trips += 1
        if it.arrive is not None:
            self.arrived += 1
            self.travel += it.arrive - it.depart
            self.delay += it.delay
            self.stops += it.stops


def routes(study: Study) -> dict[tuple[Kind, str], RouteCount]:
    """Returns what is counted of each route, by kind of vehicle or person."""
    found: dict[tuple[Kind, str], RouteCount] = {}
    for it in counted_trips(study):
        found.setdefault((it.kind, it.route), RouteCount()).trip(it)
    return found


def kinds(study: Study) -> dict[Kind, RouteCount]:
    """Returns what is counted of all trips, by kind of vehicle or person."""
    found: dict[Kind, RouteCount] = {}
    for it in counted_trips(study):
        found.setdefault(it.kind, RouteCount()).trip(it)
    return found
