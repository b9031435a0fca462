"""The event log of a cabinet as NTCIP 1201 has it: what is watched, the events that were found, and their classes.

Nothing is read here: `watch` gives the values of the watched objects, once in each second of the street's time. All
sizes are limited: a full class loses its oldest event.
"""

import asyncio
from collections import deque
from collections.abc import Mapping
from dataclasses import dataclass, field
from typing import NamedTuple

from ...shared.ber import COUNTER, GAUGE, INTEGER, TIME_TICKS, Arcs, Field, number_of, unsigned_of

CONFIGS, CLASSES, MOST_ROWS = 32, 8, 255
"""How many configurations and classes there are, and the most rows of a class."""
LOG_SIZE = CLASSES * MOST_ROWS
LONGEST_VALUE = 64
"""The octets of the longest value that is logged. In place of a longer one, and of a missing one, nothing is logged."""
NO_OBJECT: Arcs = (0, 0)
OTHER, ON_CHANGE, GREATER, SMALLER, HYSTERESIS, PERIODIC, ANDED = range(1, 8)
"""The modes of a configuration."""
DISABLED, LOG, ERROR = 2, 3, 4
"""The actions and the states of a configuration."""
EVENTS_END = 65_536
SECOND = 10


@dataclass
class Config:
    """A configuration: which object is compared, how, and which one is logged. The numbers are those of NTCIP 1201."""

    class_: int = 1
    mode: int = ON_CHANGE
    first: int = 0
    second: int = 0
    compared: Arcs = NO_OBJECT
    logged: Arcs = NO_OBJECT
    action: int = DISABLED
    is_wrong: bool = False
    """Whether an object couldn't be read when it was needed last."""
    before: Field | None = None
    """The value at the last comparison."""
    since: int | None = None
    """Since when the condition is true without a break, None if it isn't; of a periodic one the last event."""
    is_over: bool = False
    """Whether the event of this condition was found already."""
    side: int = 0
    """The bound of the hysteresis that was crossed last: 1 the upper, -1 the lower, 0 none."""

    def restart(self) -> None:
        """Forgets what was found, as the configuration has changed."""
        self.is_wrong, self.before, self.since, self.is_over, self.side = False, None, None, False, 0

    @property
    def status(self) -> int:
        """Returns disabled (2), log (3) or error (4)."""
        return DISABLED if self.action == DISABLED else ERROR if self.is_wrong else LOG

    def names(self) -> list[Arcs]:
        """Returns the objects whose values a comparison needs."""
        return [] if self.mode == PERIODIC else [self.compared]

    def finds(self, now: int, values: Mapping[Arcs, Field | None]) -> bool:
        """Tells whether there is an event at a time, in tenths of a second, by the values of objects."""
        if self.mode == PERIODIC:
            return self.is_period_over(now)
        value = values.get(self.compared)
        self.is_wrong = value is None or self.mode != ON_CHANGE and number_in(value) is None
        if value is None or self.is_wrong:
            self.before, self.since, self.is_over = None, None, False
            return False
        if self.mode == ON_CHANGE:
            before, self.before = self.before, value
            return before is not None and before != value
        number = number_in(value) or 0
        return self.crosses(number) if self.mode == HYSTERESIS else self.lasts(self.is_true_of(number), now)

    def is_period_over(self, now: int) -> bool:
        """Tells whether the period, `first` seconds, is over. A period of 0 never is."""
        self.is_wrong = False
        if self.since is None:
            self.since = now
        if self.first <= 0 or now - self.since < SECOND * self.first:
            return False
        self.since = now
        return True

    def is_true_of(self, number: int) -> bool:
        """Tells whether the condition is true of a number."""
        if self.mode == GREATER:
            return number > self.first
        return number < self.first if self.mode == SMALLER else number & self.first != 0

    def lasts(self, is_true: bool, now: int) -> bool:
        """Tells whether the condition has become true and has lasted `second` tenths of a second: that is one event."""
        if not is_true:
            self.since, self.is_over = None, False
            return False
        self.since = now if self.since is None else self.since
        if self.is_over or now - self.since < self.second:
            return False
        self.is_over = True
        return True

    def crosses(self, number: int) -> bool:
        """Tells whether a number is above the upper bound or below the lower, and wasn't outside on that side last."""
        low, high = sorted((self.first, self.second))
        side = 1 if number > high else -1 if number < low else self.side
        crossed, self.side = side != self.side, side
        return crossed


class Event(NamedTuple):
    """A row of the log: the configuration, the second since 1970, the value that was logged."""

    config: int
    seconds: int
    value: Field | None


@dataclass
class Class:
    """A class of events: its rows, the oldest first."""

    limit: int = MOST_ROWS
    cleared: int = 0
    description: bytes = b""
    count: int = 0
    """How many events were found, from 0 again after 65535."""
    rows: deque[Event] = field(default_factory=deque)

    def add(self, event: Event) -> None:
        """Adds an event; the oldest one goes if the class is full."""
        self.count = (self.count + 1) % EVENTS_END
        self.rows.append(event)
        self.limit_to(self.limit)

    def limit_to(self, limit: int) -> None:
        """Limits the rows; the oldest go."""
        self.limit = limit
        while len(self.rows) > limit:
            self.rows.popleft()

    def clear(self, seconds: int) -> None:
        """Clears the events up to a second since 1970, this one included."""
        self.cleared = seconds
        self.rows = deque(it for it in self.rows if it.seconds > seconds)


class EventLog:
    """The event log of a cabinet."""

    def __init__(self) -> None:
        self.configs = {number: Config() for number in range(1, CONFIGS + 1)}
        self.classes = {number: Class() for number in range(1, CLASSES + 1)}
        self.order = asyncio.Lock()
        """One comparison comes after the other."""
        self.now, self.ticks = 0, 0
        """The tenths of a second that the log has lived, and those of the session when objects were compared last."""

    def is_active(self) -> bool:
        """Tells whether an event may be found."""
        return any(it.action == LOG for it in self.configs.values())

    def is_pending(self, ticks: int) -> bool:
        """Tells whether objects are to be compared at a tick of a session: a second later than last, or in a new
        session."""
        return not self.ticks <= ticks < self.ticks + SECOND

    def names(self) -> list[Arcs]:
        """Returns the objects whose values are needed for a comparison."""
        active = [it for it in self.configs.values() if it.action == LOG]
        return list(dict.fromkeys(name for it in active for name in it.names()))

    def found(self, ticks: int, values: Mapping[Arcs, Field | None]) -> list[int]:
        """Returns the numbers of the configurations that find an event at a tick of the session."""
        self.now += ticks - self.ticks if ticks >= self.ticks else ticks
        self.ticks = ticks
        return [at for at, it in self.configs.items() if it.action == LOG and it.finds(self.now, values)]

    def add(self, number: int, seconds: int, value: Field | None) -> None:
        """Adds an event of a configuration, with the value of the object that it logs."""
        config = self.configs[number]
        if value is None:
            config.is_wrong = True
        is_short = value is not None and len(value.content) <= LONGEST_VALUE
        self.classes[config.class_].add(Event(number, seconds, value if is_short else None))


def number_in(value: Field) -> int | None:
    """Returns the number that a value is, None if it is none."""
    if value.tag == INTEGER:
        return number_of(value.content)
    return unsigned_of(value.content) if value.tag in (COUNTER, GAUGE, TIME_TICKS) else None
