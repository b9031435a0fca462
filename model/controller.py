"""A cabinet's controller: what it receives, and its ticks.

docs/DEFINITIONS.md, "A history, and looking back over it": `Event`.
"""

from collections.abc import Callable

from model import calls, priority
from model.orders import Drift
from model.past import Moment, Past, ToldSinceFrame
from model.tables import Tables
from model.tick import Decided, decided, moment_of
from model.words import FLASH


class Controller:
    """A controller: its past, to which each call adds what happened."""

    def __init__(self, tables: Tables, command: int, clock: int, drift: Drift = Drift()) -> None:
        self.past = Past(tables, command, clock)
        self.drift = drift
        self.watch: Callable[[Decided], None] | None = None
        """Is given what each tick decides, before it becomes past."""

    def tick(self) -> tuple[Moment, bool]:
        """Returns the moment that the next tick gives, and whether its frame has a line in a trace."""
        past = self.past
        at, before = decided(past, self.drift), past.last.frame
        if self.watch is not None:
            self.watch(at)
        now = moment_of(at)
        past.moments.append(now)
        past.told = ToldSinceFrame(calls=now.calls, inputs=past.told.inputs, places=now.places)
        return now, now.frame.shows_other(before) or now.frame.is_local_zero(before)

    def detector(self, p: int, on: bool) -> None:
        """A vehicle detector turns on or off."""
        past = self.past
        past.told.calls = calls.with_detector(past.told.calls, p, on, past.tables, past.last.frame)

    def button(self, p: int) -> None:
        """A push button is pressed."""
        past = self.past
        past.told.calls = calls.with_button(past.told.calls, p, past.tables, past.last.frame)

    def preempt(self, number: int, on: bool) -> None:
        """The input of a preempt turns on or off."""
        inputs = self.past.told.inputs
        self.past.told.inputs = inputs | {number} if on else inputs - {number}

    def command(self, number: int) -> None:
        """A pattern, free operation or flash is commanded."""
        self.past.told.command = number

    def set_clock(self, clock: int) -> None:
        """The clock is set."""
        self.past.told.clock = clock

    def request(self, request: priority.Request) -> None:
        """A priority request is given."""
        told = self.past.told
        told.places = priority.with_request(told.places, request, self.past.last.number)

    def cancel(self, number: int) -> None:
        """A priority request is taken back."""
        self.past.told.places = priority.with_cancel(self.past.told.places, number)

    def install(self, tables: Tables) -> None:
        """New tables come into force."""
        self.past.versions.append(tables)

    @property
    def is_flashing(self) -> bool:
        """Tells whether the last frame is in flash."""
        return self.past.last.frame.mode == FLASH

    @property
    def command_shown(self) -> int:
        """Returns the pattern in command as management software reads it."""
        told = self.past.told.command
        return self.past.last.command if told is None else told

    @property
    def clock_shown(self) -> int:
        """Returns the clock as management software reads it."""
        told = self.past.told.clock
        return self.past.last.clock if told is None else told
