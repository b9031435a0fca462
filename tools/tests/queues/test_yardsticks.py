"""What the model of queues is measured by: Webster and the Highway Capacity Manual, saturation flow and lost time,
platoons, storage, turns that give way. docs/QUEUES.md has the numbers."""

import math
from itertools import pairwise

import pytest

from .conftest import Flow, Onward, Saturation, Volumes, flow
from .test_lines import uniform_delay, webster
from streettools.cosim import records
from streettools.cosim.movements import counts
from streettools.cosim.queues.demand import demand_of
from streettools.cosim.queues.lines import StopLine
from streettools.cosim.queues.signals import Signals
from streettools.cosim.queues.street import Steps, Street
from streettools.cosim.queues.study import Asked, Ran, study_of
from streettools.cosim.queues.volumes import Yielding

HOUR = 3600
Greens = dict[int, tuple[float, float]]
"""From which to which second of the cycle a phase is green."""


class Cycle:
    """Cabinets with fixed times; each cabinet has the same cycle, and greens of its own."""

    def __init__(self, cycle: float, *greens: Greens) -> None:
        self.cycle, self.greens, self.tick = round(10 * cycle), greens, 0
        self.shown = [self.frame(number, 0) for number in range(1, len(greens) + 1)]
        self.changes: dict[int, list[int]] = {}
        for cabinet, own in enumerate(greens, 1):
            for at in {tick for on, off in own.values() for tick in (10 * on, 10 * off, 10 * off + 40)}:
                self.changes.setdefault(round(at) % self.cycle, []).append(cabinet)

    def letter(self, cabinet: int, phase: int, tick: int) -> str:
        """Returns what a phase of a cabinet shows at a tick; yellow lasts 4 s."""
        for one, (on, off) in self.greens[cabinet - 1].items():
            since = (tick - round(10 * on)) % self.cycle
            if phase == one:
                green = round(10 * (off - on))
                return "G" if since < green else "Y" if since < green + 40 else "R"
        return "R"

    def frame(self, cabinet: int, tick: int) -> bytes:
        """Returns the frame line of a cabinet at a tick."""
        colours = "".join(self.letter(cabinet, phase, tick) for phase in range(1, 17))
        return f"F {cabinet} {tick} {colours} {'D' * 16} F 0 0 0".encode()

    def step(self, inputs: list[bytes], count: int) -> list[bytes]:
        """Takes ticks; returns the frames that differ from those before."""
        ticks = range(self.tick + 1, self.tick + count + 1)
        self.tick += count
        return [self.frame(cabinet, tick) for tick in ticks for cabinet in self.changes.get(tick % self.cycle, ())]


def ran(flows: list[Flow], cycle: Cycle, seconds: int, seed: int = 1) -> Ran:
    """Returns a street that has run."""
    volumes = Volumes("", tuple(flows))
    steps = Steps(seconds, 10)
    demand = demand_of(volumes, seed, 0.0, seconds)
    street, signals = Street(volumes, demand, steps), Signals(len(cycle.greens))
    street.run(cycle, signals, lambda step: None)
    signals.close(seconds)
    return Ran(volumes, Asked(seconds, seed=seed), street, signals, demand, len(cycle.greens), None)


def delays(found: Ran) -> list[float]:
    """Returns the delay of each passage."""
    return [released - arrived for told in found.street.passages for arrived, released in told]


C, GREEN, FLOW = 60.0, 24.5, 1800.0
"""The effective green is 24.5 s, as lost time and the yellow that is used are 2 s each: 735 vehicles an hour."""


def hcm(per_hour: float, hours: float) -> float:
    """Returns control delay of the Highway Capacity Manual: uniform delay, and d2 = 900 T [(X - 1) + sqrt((X - 1)^2 +
    8 k I X / (c T))] with k = 0.5 of fixed times and I = 1 of arrivals at random."""
    capacity = FLOW * GREEN / C
    degree = per_hour / capacity
    root = math.sqrt((degree - 1) ** 2 + 8 * 0.5 * degree / (capacity * hours))
    return uniform_delay(C, GREEN, degree) + 900 * hours * (degree - 1 + root)


@pytest.mark.parametrize(("degree", "runs"), [(0.2, 40), (0.4, 30), (0.6, 20), (0.8, 30), (0.9, 40), (0.95, 60)])
def test_mean_delay_is_that_of_webster_and_of_the_manual(degree, runs):
    """Each run is an hour from an empty street. Up to 0.9 the mean is within 10 % of the range of both formulas; above,
    where Webster's is that of an endless hour, within 10 % of the manual's for one hour and its interval of 95 %."""
    per_hour = degree * FLOW * GREEN / C
    means = []
    for seed in range(1, runs + 1):
        rows = delays(ran([flow(per_hour)], Cycle(C, {2: (10.0, 10.0 + GREEN)}), HOUR, seed))
        means.append(sum(rows) / len(rows))
    mean = sum(means) / runs
    half = 2 * math.sqrt(sum((it - mean) ** 2 for it in means) / (runs - 1) / runs)
    formulas = (webster(C, GREEN, per_hour, FLOW), hcm(per_hour, 1.0))
    if degree <= 0.9:
        assert 0.9 * min(formulas) <= mean <= 1.1 * max(formulas), (mean, half, formulas)
    else:
        assert abs(mean - formulas[1]) <= 0.1 * formulas[1] + half, (mean, half, formulas)


@pytest.mark.parametrize(("green", "lanes"), [(25.5, 1), (23.5, 1), (24.1, 2), (30.0, 1)])
def test_greens_discharge_on_average_what_the_formula_says(green, lanes):
    """(green - lost + yellow) x saturation / 3600 a lane: 12.75, 11.75, 12.05 and 15 vehicles, over 99 greens."""
    found = ran([flow(4000, lanes=lanes)], Cycle(C, {2: (10.0, 10.0 + green)}), 6040)
    passed = [it for told in found.street.passages for _, it in told if it > 60]
    cycles = 99
    due = cycles * lanes * green * FLOW / 3600
    assert len([it for it in passed if it <= 60 * (cycles + 1)]) == pytest.approx(due, abs=lanes + 1e-6)


def test_saturation_flow_and_lost_time_by_the_manuals_field_method_are_those_of_the_file():
    """The headway is that of the vehicles after the fourth, the lost time what the first four need in addition."""
    rates = Saturation(1900.0, 2.5, 1.5)
    found = ran([flow(4000, saturation=rates)], Cycle(90.0, {2: (10.0, 50.0)}), 1800)
    passed = sorted(it for told in found.street.passages for _, it in told)
    headways, lost = [], []
    for begin in range(100, 1700, 90):
        own = [it - begin for it in passed if begin <= it < begin + 45]
        headways.append((own[-1] - own[3]) / (len(own) - 4))
        lost.append(own[3] - 4 * 3600 / 1900)
    assert all(it == pytest.approx(3600 / 1900) for it in headways)
    assert all(-3600 / 1900 <= it - 2.5 <= 1e-9 for it in lost)
    """A green that begins with a part of a headway that was carried over is that part earlier."""


def platoon(offset: float) -> list[float]:
    """Returns the delays at a second stop line, 20 s behind the first, of the platoon of one green of the first: ten
    vehicles that pass 4, 6 .. 22 s after its green begins. The second green begins `offset` later."""
    line = StopLine(1, Saturation())
    reached = [(4 + 2 * number + 20.0, number) for number in range(10)]
    line.queue.extend(it for it in reached if it[0] <= offset)
    line.opens(offset)
    line.queue.extend(it for it in reached if it[0] > offset)
    return [it.released - it.arrived for it in line.discharged(1000.0)]


@pytest.mark.parametrize(
    ("offset", "due"),
    [
        # the platoon arrives 24, 26 .. 42 s after the first green begins
        (20.0, [0.0] * 10),  # on the travel time: nobody waits
        (44.0, [24.0] * 10),  # all in red, the first 20 s before green: each waits 20 + 2 + 2 s
        (33.0, [13.0] * 10),  # half in red: five wait, and the others come while the queue still moves
    ],
)
def test_a_platoon_is_delayed_as_worked_by_hand(offset, due):
    assert platoon(offset) == pytest.approx(due)


def street_of_two(storage: int | None, share: float = 1.0) -> list[Flow]:
    """Returns two movements in a row; the second has little green."""
    onward = Onward(2, "EB", 20.0, share, 0.0)
    return [flow(700, onward=onward), flow(1, cabinet=2, storage=storage)]


def test_a_queue_reaches_back_to_the_intersection_before_and_holds_its_vehicles():
    cycle = ({2: (0.0, 50.0)}, {2: (0.0, 10.0)})
    for storage in (5, 12):
        found = ran(street_of_two(storage), Cycle(C, *cycle), HOUR)
        changes = []
        for told in found.street.passages:
            for (_, on), (_, off) in pairwise(told):
                changes += [(on, 1), (off, -1)]
            if len(told) == 1:
                changes.append((told[0][1], 1))
        count = most = 0
        for _, change in sorted(changes):
            count += change
            most = max(most, count)
        assert most == storage
        assert len(found.street.lines[0].queue) > 100
    free = ran(street_of_two(None), Cycle(C, *cycle), HOUR)
    assert len(free.street.lines[0].queue) < 10 and len(free.street.lines[1].queue) > 100


def test_the_report_has_demand_over_capacity_and_how_long_a_storage_was_full(tmp_path):
    """Capacity of the second line: 10 s of effective green each minute, 300 vehicles an hour."""
    found = ran(street_of_two(12), Cycle(C, {2: (1.0, 51.0)}, {2: (1.0, 11.0)}), HOUR)
    study = study_of(found, tmp_path / "session.trace")
    first, second = (counts(study, found.signals.greens)[number, "EBT"] for number in (1, 2))
    assert first.capacity == pytest.approx(1500, rel=0.02) and second.capacity == pytest.approx(300, rel=0.02)
    assert first.arrivals == len([it for it in found.demand.vehicles if it.entry < HOUR])
    assert first.full_time is None and 0.5 * HOUR < second.full_time < HOUR
    (kept,) = [it for it in records.read(records.written(study), tmp_path).movements if it.cabinet == 2]
    assert kept.storage == 12 and kept.service == (1800.0, 2.0, 2.0)


ALWAYS: Greens = {2: (1.0, 3590.0), 6: (1.0, 3590.0)}


def through(per_hour: float) -> Flow:
    """Returns opposing traffic at random, that nothing bunches."""
    return flow(per_hour, name="WBT", approach="WB", phase=6, saturation=Saturation(3600, 0, 0), lanes=10)


@pytest.mark.parametrize("opposing", [200, 500, 900])
def test_a_permissive_left_turn_has_the_manuals_capacity(opposing):
    """s = v exp(-v tc / 3600) / (1 - exp(-v tf / 3600)) with 4.5 s and 2.5 s, against v at random without a queue."""
    left = flow(3000, name="EBL", phase=2, permitted=(2,))
    found = [ran([through(opposing), left], Cycle(3600.0, ALWAYS), HOUR, seed) for seed in range(1, 5)]
    turned = sum(
        len(told)
        for it in found
        for told, vehicle in zip(it.street.passages, it.demand.vehicles)
        if vehicle.way.flows[0] == 1
    )
    rate = opposing / 3600
    due = opposing * math.exp(-rate * 4.5) / (1 - math.exp(-rate * 2.5))
    assert turned / 4 == pytest.approx(due, rel=0.05)


def test_a_right_turn_on_red_has_the_capacity_of_its_gaps():
    """The same formula with 6.9 s and 3.3 s against 600 vehicles an hour from the left, on several lanes."""
    right = flow(2000, name="NBR", approach="NB", phase=8, yielding=Yielding(on_red=True))
    cross = flow(600, saturation=Saturation(3600, 0, 0), lanes=10)
    found = ran([cross, right], Cycle(3600.0, {2: (1.0, 3590.0)}), HOUR)
    turned = sum(
        len(told)
        for told, vehicle in zip(found.street.passages, found.demand.vehicles)
        if vehicle.way.flows[0] == 1
    )
    rate = 600 / 3600
    assert turned == pytest.approx(600 * math.exp(-rate * 6.9) / (1 - math.exp(-rate * 3.3)), rel=0.08)


def turned_left(**more) -> int:
    """Returns how many of many turn left in an hour: own green 10 s, the straight ways 30 s, of each minute."""
    greens = {5: (0.0, 10.0), 2: (14.0, 44.0), 6: (14.0, 44.0)}
    left = flow(2000, name="EBL", phase=5, **more)
    found = ran([through(600), left], Cycle(C, greens), HOUR)
    return sum(
        len(told)
        for told, vehicle in zip(found.street.passages, found.demand.vehicles)
        if vehicle.way.flows[0] == 1
    )


def test_permission_adds_gaps_and_two_who_complete_their_turn_to_a_protected_left_turn():
    """Protected: 10 s of effective green, 5 a minute. Permissive in addition: at least the two of each green."""
    protected = turned_left()
    assert protected == pytest.approx(300, abs=6)
    none, two = (turned_left(permitted=(2,), yielding=Yielding(sneakers=it)) for it in (0, 2))
    assert none > protected + 60 and two == pytest.approx(none + 2 * 60, abs=10)


def test_nobody_turns_within_the_critical_gap_of_who_comes_from_opposite():
    left = flow(600, name="EBL", phase=2, permitted=(2,), yielding=Yielding(sneakers=0))
    found = ran([through(700), left], Cycle(C, {2: (5.0, 45.0), 6: (5.0, 45.0)}), HOUR)
    rows = zip(found.street.passages, found.demand.vehicles)
    both: tuple[list[float], list[float]] = ([], [])
    for told, vehicle in rows:
        both[vehicle.way.flows[0]].extend(released for _, released in told)
    opposing = sorted(both[0])
    for at in both[1]:
        later = [it - at for it in opposing if it > at + 1e-6]
        assert not later or later[0] >= 4.5 - 1e-6
