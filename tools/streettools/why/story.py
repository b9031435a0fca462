"""What there is to say of a phase at a tick, as data: what it shows, why, since when it is called, when it comes or
goes, and the reasons for all of a wait."""

from collections.abc import Callable
from typing import NamedTuple

from model.calls import Caller
from model.past import Moment
from model.tick import Decided, moment_of
from model.words import Colour, Frame

from .reasons import Reason, Reasons, called_by, is_called, reasons
from .replay import Replay, Shown, Text

HORIZON = 9_000
"""A phase is watched for this number of ticks (15 minutes) after the tick that is asked for, if it neither begins nor
ends before."""

WORDS = {Colour.GREEN: "green", Colour.YELLOW: "yellow change", Colour.CLEAR: "red clearance", Colour.RED: "red"}


class Spell(NamedTuple):
    """Ticks in a row for which one reason is the answer: the first, and the first after them."""

    first: int
    until: int
    reason: Reason


class Call(NamedTuple):
    """A call: the tick since which it has lasted, and what called at that tick."""

    since: int
    by: tuple[Caller, ...]


class Seen(NamedTuple):
    """The tick that is asked for: the frame that it gives, and why the phase shows what it shows; the clock of the
    cabinet, the commanded pattern, the places in the cycle at which the window ends and the phase is forced off."""

    frame: Frame
    reasons: Reasons
    clock: int
    window: int | None
    force: int | None


class Story(NamedTuple):
    """The facts of an answer. `since` is the tick at which the phase began to show its colour; `call` is the call that
    lasts (of a green, the one that it served), `came` the tick at which it turned green (after the tick, if it wasn't
    green at it), `gone` the tick at which its green ended; `how` says why it turned green, `ended` why its green ended;
    `last` is the last tick that was looked at."""

    cabinet: int
    phase: int
    tick: int
    shows: Colour
    since: int
    seen: Seen
    call: Call | None
    came: int | None
    how: str
    gone: int | None
    ended: str
    spells: tuple[Spell, ...]
    last: int

    @property
    def is_green(self) -> bool:
        """Tells whether the phase is green."""
        return self.shows is Colour.GREEN

    @property
    def waited(self) -> int | None:
        """The ticks from the call to the green; None without a call or a green."""
        return None if self.came is None or self.call is None else self.came - self.call.since

    @property
    def spell(self) -> Spell:
        """The ticks in a row for which the answer is the same."""
        return next(it for it in self.spells if it.first <= self.tick < it.until)

    @property
    def is_over(self) -> bool:
        """Tells whether the answer was seen to change."""
        return self.spell.until <= self.last


class Watch:
    """Watches a phase of a cabinet around the tick that is asked for: its reasons and its calls, from the end of its
    last green before the wait on, until it comes or goes."""

    def __init__(self, text: Text, shown: Shown, phase: int, tick: int, horizon: int = HORIZON) -> None:
        self.shown, self.phase, self.tick = shown, phase, tick
        self.is_green = shown.is_green(tick)
        first = shown.ended(shown.began(tick) - 1) if self.is_green else shown.ended(tick)
        change = shown.goes(tick) if self.is_green else shown.comes(tick)
        aim = tick + horizon if change is None else min(change, tick + horizon)
        self.first, self.last = max(1, first), min(text.ticks, aim)
        self.change = change if change is not None and change <= self.last else None
        self.turns: list[tuple[int, Reason]] = []
        self.calls: list[tuple[int, Call | None]] = []
        self.seen: Seen | None = None
        self.began = 0

    def __call__(self, at: Decided) -> None:
        """Processes what a tick decides."""
        number = at.now.number
        if not self.first <= number <= self.last:
            return
        found = reasons(at, self.phase)
        if not self.turns or self.turns[-1][1].subject != found[0].subject:
            self.turns.append((number, found[0]))
        stands = is_called(at, self.phase)
        if not self.calls or stands is not (self.calls[-1][1] is not None):
            self.calls.append((number, Call(number, called_by(at, self.phase)) if stands else None))
        if number == self.tick:
            moment = moment_of(at)
            self.seen, self.began = seen(at, found, self.phase, moment), moment.colour_began[self.phase]

    @property
    def spells(self) -> tuple[Spell, ...]:
        """The reasons one after the other."""
        untils = [first for first, _ in self.turns[1:]] + [self.last + 1]
        return tuple(Spell(first, until, reason) for (first, reason), until in zip(self.turns, untils))

    def called(self, number: int) -> Call | None:
        """Returns the call that lasts at a tick."""
        return next((call for first, call in reversed(self.calls) if first <= number), None)

    def word(self, number: int | None) -> str:
        """Returns how a green came or ended at a tick; nothing if that tick wasn't looked at."""
        return next((it.reason.word for it in self.spells if number is not None and it.first <= number < it.until), "")

    def story(self, cabinet: int) -> Story:
        """Returns what was seen."""
        if self.seen is None:
            raise AssertionError("the tick was not reached")
        came = self.shown.began(self.tick) if self.is_green else self.change
        gone = self.change if self.is_green else self.shown.ended(self.tick) or None
        call = None if self.is_green else self.called(self.tick)
        if call is None and came is not None:
            call = self.called(came)
        return Story(
            cabinet=cabinet, phase=self.phase, tick=self.tick, shows=self.seen.frame.lights.of[self.phase],
            since=self.began, seen=self.seen, call=call, came=came, how=self.word(came), gone=gone,
            ended=self.word(gone), spells=self.spells, last=self.last,
        )  # fmt: skip


def seen(at: Decided, found: Reasons, phase: int, moment: Moment) -> Seen:
    """Returns what is shown of the tick that is asked for."""
    plan = at.rings.plan
    force = plan.force.get(phase) if plan else None
    return Seen(moment.frame, found, moment.clock, plan.window if plan else None, force)


def story(text: Text, cabinet: int, phase: int, tick: int, progress: Callable[[int], object] | None = None) -> Story:
    """Returns what there is to say of a phase of a cabinet at a tick. `progress` is given the ticks that are done."""
    watch = Watch(text, Shown(text, cabinet, phase), phase, tick)
    for done in Replay(text, cabinet, watch).rounds(watch.last):
        if progress:
            progress(done)
    return watch.story(cabinet)
