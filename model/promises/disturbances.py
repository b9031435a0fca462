"""When a cabinet is disturbed: the ticks at which another pattern comes into command, tables come into force, the clock
is set to another time or passes midnight (if the cycle doesn't divide the day), or the mode is start-up, flash, the way
to it, or a preempt's.

docs/DEFINITIONS.md, "What coordination promises, left undisturbed".
"""

from collections import defaultdict
from collections.abc import Iterator
from dataclasses import dataclass, replace

from model.names import Scalar
from model.plan import is_defined, pattern
from model.promises.told import Seen, Street
from model.words import DAY, STAGES, Kind

DISTURBING = STAGES | {Kind.START, Kind.ENDING, Kind.FLASH, Kind.EXIT}
BACKUP_TIME = 5


@dataclass
class Watch:
    """What is known of a cabinet after a tick: the clock, and the pattern in command since a tick."""

    clock: int
    command: int
    commanded: int = 0


@dataclass(frozen=True)
class Tick:
    """A tick: whether it is a disturbance, the pattern in command, and what is shown."""

    number: int
    is_disturbed: bool
    command: int
    shown: Seen


def rise(street: Street, number: int) -> int:
    """Returns by how much the clock advances at a tick."""
    drift = street.setup.drift
    if drift.gain and number % drift.gain == 0:
        return 2
    return 0 if drift.lose and number % drift.lose == 0 else 1


def go_on(street: Street, watch: Watch, number: int, told: list, shown: Seen, before: Seen) -> Tick:
    """Returns a tick by the orders before it, and advances the watch."""
    command, clock = watch.command, watch.clock
    for order in told:
        if order.scalar is Scalar.CLOCK:
            watch.clock = order.value
        else:
            watch.command, watch.commanded = order.value, number - 1
    tables = street.tables(shown)
    backup = 10 * tables.unit(BACKUP_TIME)
    if backup and number - watch.commanded >= backup:
        watch.command = 0
    is_other_time = watch.clock != clock
    passed = watch.clock + rise(street, number) >= DAY
    watch.clock = (watch.clock + rise(street, number)) % DAY
    cycle = pattern(tables, watch.command).cycle if is_defined(tables, watch.command) else 1
    is_disturbed = (
        watch.command != command
        or shown.version != before.version
        or is_other_time
        or (passed and DAY % cycle != 0)
        or shown.mode.kind in DISTURBING
    )
    return Tick(number, is_disturbed, watch.command, shown)


def stretches(street: Street) -> Iterator[tuple[Tick, int]]:
    """Yields the ticks of a cabinet at which something may be other than before, each with the last tick up to which
    all stays as it is there: behind it, only the mode can be a disturbance."""
    told = defaultdict(list)
    for order in street.orders:
        told[order.tick + 1].append(order)
    at_tick = {seen.tick: seen for seen in street.seen}
    stops = iter(sorted({*told, *at_tick, street.ticks + 1}))
    watch, shown, number, stop = Watch(street.setup.clock, street.setup.pattern), street.seen[0], 0, 0
    while number < street.ticks:
        number += 1
        before, shown = shown, at_tick.get(number, shown)
        tick = go_on(street, watch, number, told[number], shown, before)
        while stop <= number:
            stop = next(stops)
        end = min(stop - 1, street.ticks, number + steady(street, watch, shown, number))
        watch.clock += rise_over(street, number, end)
        yield tick, end
        number = end


def steady(street: Street, watch: Watch, shown: Seen, number: int) -> int:
    """Returns for how many ticks behind one the clock can't pass midnight and the backup time doesn't end."""
    of_day = (DAY - 1 - watch.clock) // 2
    backup = 10 * street.tables(shown).unit(BACKUP_TIME)
    return min(of_day, watch.commanded + backup - 1 - number) if backup and watch.command else of_day


def rise_over(street: Street, start: int, end: int) -> int:
    """Returns by how much the clock goes on behind one tick up to another."""
    drift, rise = street.setup.drift, end - start
    if drift.gain:
        rise += end // drift.gain - start // drift.gain
    if drift.lose:
        rise -= end // drift.lose - start // drift.lose
    return rise


def quiet_spans(street: Street) -> list[tuple[Tick, int]]:
    """Returns each disturbance that quiet ticks follow, with the last of these ticks."""
    found: list[tuple[Tick, int]] = []
    last: Tick | None = None
    for tick, end in stretches(street):
        if tick.is_disturbed:
            last = tick
        if tick.shown.mode.kind in DISTURBING:
            last = replace(tick, number=end)
        elif last is not None and last.number < end:
            if found and found[-1][0] is last:
                found[-1] = (last, end)
            else:
                found.append((last, end))
    return found
