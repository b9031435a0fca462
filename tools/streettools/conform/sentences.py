"""The first difference in words: what the device shows, what the proved cabinet shows, and since when."""

from .comparing import Compared
from .driving import LEAD, Driven
from .expected import START
from .watching import Span

COLOURS = {"G": "green", "Y": "yellow change", "C": "red clearance", "R": "red", "?": "contradictory bits"}
SIGNALS = {"W": "walk", "F": "flashing don't walk", "D": "don't walk", "?": "contradictory bits"}
MODES = {254: "free operation", 255: "flash"}
AHEAD = 400
"""How many ticks after the difference the proved cabinet is looked at."""
MOST_LINES = 6


def seconds(ticks: int) -> str:
    """Returns a number of ticks as seconds."""
    return f"{ticks / 10:.1f} s"


def at(tick: int) -> str:
    """Returns a tick, counted from the first poll, as the time since the start of the test."""
    return seconds(tick - LEAD)


def between(start: Span, end: Span) -> str:
    """Returns the time from a change to a later one, both of which are known to some ticks."""
    least, most = end.first - start.last, end.last - start.first
    return seconds(most) if least == most else f"{least / 10:.1f} to {seconds(most)}"


class Sides:
    """What a phase shows on both sides, as letters by tick."""

    def __init__(self, driven: Driven, compared: Compared, phase: int, is_signal: bool) -> None:
        self.driven, self.expected = driven, compared.expected
        self.phase, self.is_signal = phase, is_signal
        self.names = SIGNALS if is_signal else COLOURS

    def device(self, place: int) -> str:
        """Returns the device's letter in a sample."""
        shown = self.driven.samples[place].display
        return (shown.pedestrians if self.is_signal else shown.vehicles)[self.phase - 1]

    def due(self, tick: int) -> str:
        """Returns the proved cabinet's letter at a tick that is counted from the first poll."""
        frame = self.expected.at(START + tick)
        return (frame.pedestrians if self.is_signal else frame.vehicles)[self.phase - 1]

    def changed(self, place: int) -> Span:
        """Returns when the device changed to what it shows in a sample, which isn't the first one: after the sample
        before it."""
        samples = self.driven.samples
        return Span(min(samples[place - 1].span.first + 1, samples[place].span.first), samples[place].span.last)

    def device_since(self, place: int) -> Span | None:
        """Returns since when the device shows what it shows in a sample; None if it began before the test."""
        letter = self.device(place)
        while place and self.device(place - 1) == letter:
            place -= 1
        return self.changed(place) if place else None

    def device_next(self, place: int, letter: str) -> int | None:
        """Returns the first tick after a sample at which the device shows a letter."""
        later = range(place + 1, len(self.driven.samples))
        return next((self.driven.samples[it].span.first for it in later if self.device(it) == letter), None)

    def due_since(self, tick: int) -> int | None:
        """Returns the tick since which the proved cabinet shows what it shows at a tick."""
        letter = self.due(tick)
        while tick > 0 and self.due(tick - 1) == letter:
            tick -= 1
        return tick if tick else None

    def due_next(self, tick: int, letter: str) -> int | None:
        """Returns the first tick after a tick at which the proved cabinet shows a letter."""
        return next((it for it in range(tick + 1, tick + AHEAD) if self.due(it) == letter), None)

    def due_before(self, tick: int, letter: str) -> int | None:
        """Returns the tick at which the proved cabinet last began to show a letter, before a tick."""
        for it in range(tick, 0, -1):
            if self.due(it) == letter and self.due(it - 1) != letter:
                return it
        return None

    # words

    def sentence(self, place: int, tick: int) -> str:
        """Returns the difference in words."""
        shown, due = self.device(place), self.due(tick)
        before = self.device(place - 1) if place else shown
        what = f"phase {self.phase}"
        if before != shown:
            return f"{what} turns to {self.names[shown]} at {at(tick)}; {self.changed_early(place, tick, before)}"
        later = self.device_next(place, due)
        then = f"it turns to that at {at(later)}" if later is not None else "it doesn't turn to that in this test"
        since = self.due_since(tick)
        whole = f"{what} still shows {self.names[shown]} at {at(tick)}; expected {self.names[due]}"
        whole += f" since {at(since)}" if since is not None else ""
        return f"{whole}; {then}{self.lasts(place, tick, shown)}"

    def changed_early(self, place: int, tick: int, before: str) -> str:
        """Returns what is expected at a tick at which the device changes."""
        shown, due = self.device(place), self.due(tick)
        if due != before:
            return f"expected {self.names[due]}"
        later = self.due_next(tick, shown)
        when = f"expected at {at(later)}" if later is not None else f"expected {self.names[due]} for the next 40 s"
        began = self.device_since(place - 1)
        if began is None or before in "RD":
            return when
        lasted = f"its {self.names[before]} lasts {between(began, self.changed(place))}"
        starts = self.due_since(tick)
        ends = next((it for it in range(tick, tick + AHEAD) if self.due(it) != before), None)
        if starts is None or ends is None:
            return f"{when} ({lasted})"
        return f"{when} ({lasted}; expected {seconds(ends - starts)})"

    def lasts(self, place: int, tick: int, shown: str) -> str:
        """Returns how long a colour lasts on both sides, if it lasts too long."""
        began, starts = self.device_since(place), self.due_before(tick, shown)
        later = range(place, len(self.driven.samples))
        ends = next((self.changed(it) for it in later if self.device(it) != shown), None)
        over = self.due_since(tick)
        if began is None or ends is None or starts is None or over is None or shown in "RD" or over < starts:
            return ""
        return f" (its {self.names[shown]} lasts {between(began, ends)}; expected {seconds(over - starts)})"


def sync_sentence(driven: Driven, compared: Compared) -> str:
    """Returns a difference in the place in the cycle."""
    assert compared.parting is not None
    sample = driven.samples[compared.parting.place]
    counter = compared.expected.counters[START + sample.span.first]
    when = at(sample.span.first)
    return f"coordSyncStatus is {sample.display.sync} s at {when}; expected {counter // 10} s after local zero"


def pattern_word(pattern: int | None) -> str:
    """Returns a value of coordPatternStatus in words."""
    return MODES.get(pattern or 0, f"pattern {pattern}")


def sentences(driven: Driven, compared: Compared) -> list[str]:
    """Returns the first difference, a sentence for each phase in which the two differ."""
    parting = compared.parting
    if parting is None:
        return []
    if parting.is_sync:
        return [sync_sentence(driven, compared)]
    sample, tick = driven.samples[parting.place], parting.last
    due = compared.expected.at(START + tick).display()
    found = []
    for is_signal, mine, its in (
        (False, sample.display.vehicles, due.vehicles), (True, sample.display.pedestrians, due.pedestrians),
    ):  # fmt: skip
        for phase, (shown, wanted) in enumerate(zip(mine, its), 1):
            if shown != wanted:
                found.append(Sides(driven, compared, phase, is_signal).sentence(parting.place, tick))
    if sample.display.stage and due.stage and sample.display.stage != due.stage:
        found.append(f"preemptState is that of {sample.display.stage} at {at(tick)}; expected {due.stage}")
    if sample.display.pattern is not None and sample.display.pattern != due.pattern:
        shown, wanted = pattern_word(sample.display.pattern), pattern_word(due.pattern)
        found.append(f"coordPatternStatus says {shown} at {at(tick)}; expected {wanted}")
    return found[:MOST_LINES] or [f"the display differs at {at(tick)}"]
