"""The answer as text for a terminal, and as a value for JSON."""

import json
from typing import Any

from ..look.called import Called
from ..shared.cabinet import mode_of
from .asked import Times
from .reasons import Reason
from .sentences import COMINGS, ENDINGS, Sentences, called_by, rule
from .story import WORDS, Spell, Story

MOST_LINES = 24
"""How many lines of a wait are shown in words; JSON has all."""


def length(ticks: int) -> str:
    """Returns a number of ticks in seconds."""
    return f"{ticks / 10:g} s"


class Answer:
    """A story in words."""

    def __init__(self, story: Story, names: Called, times: Times) -> None:
        self.story, self.names, self.times = story, names, times
        self.words = Sentences(names, story.cabinet, story.phase, story.is_green)

    def when(self, tick: int) -> str:
        """Returns a tick with its time."""
        return f"{self.times.text(tick)} (tick {tick})"

    def text(self) -> str:
        """Returns the answer as text."""
        lines = [self.head(), *self.before(), *self.why(), *self.call(), self.change(), self.mode(), *self.wait()]
        return "".join(f"{line}\n" for line in lines)

    def head(self) -> str:
        """Returns what is shown, and since when."""
        it = self.story
        phase = self.words.phases((it.phase,))
        shown = f"{WORDS[it.shows]} since {self.times.text(it.since)}"
        return f"{self.names.cabinet(it.cabinet)}, {phase}, {self.when(it.tick)}: {shown}"

    def before(self) -> list[str]:
        """Returns when and how the last green ended, of a phase that isn't green."""
        it = self.story
        if it.is_green or it.gone is None or not it.ended:
            return []
        return [f"green before: ended at {self.when(it.gone)}: {ENDINGS.get(it.ended, it.ended)}"]

    def why(self) -> list[str]:
        """Returns the reasons at the tick: the first with the tick until which it holds."""
        first, *others = self.story.seen.reasons
        spell = self.story.spell
        until = f", until {self.when(spell.until)}" if self.story.is_over and spell.until > self.story.tick + 1 else ""
        lines = [f"why: {self.words.reason(first)}{until} [{rule(first)}]"]
        return lines + [f"also: {self.words.reason(it)} [{rule(it)}]" for it in others]

    def call(self) -> list[str]:
        """Returns since when and by what the phase is called."""
        it = self.story
        if it.call is None:
            return []
        stood = it.call.since <= it.tick
        word = "called" if stood else "called later"
        return [f"{word}: since {self.when(it.call.since)} by {called_by(it.call.by)}"]

    def change(self) -> str:
        """Returns when the phase came, and how long it waited; of a green also when it ends."""
        it = self.story
        if it.came is None:
            return f"came: not until {self.when(it.last)}, the last tick that was looked at"
        waited = f", {COMINGS[it.how]}" if it.how in COMINGS and it.how != "call" else ""
        waited += "" if it.waited is None else f", after a wait of {length(it.waited)}"
        came = f"came: green from {self.when(it.came)}{waited}"
        if it.is_green and it.gone is not None:
            return f"{came}; ended at {self.when(it.gone)}: {ENDINGS.get(it.ended, it.ended)}"
        return f"{came}; not ended until {self.when(it.last)}" if it.is_green else came

    def mode(self) -> str:
        """Returns the mode and the place in the cycle."""
        seen = self.story.seen
        places = ""
        if seen.window is not None:
            force = "" if seen.force is None else f", force point of phase {self.story.phase} {seen.force}"
            places = f", counter {seen.frame.counter} (window ends at {seen.window}{force})"
        text = str(seen.frame.mode)
        mode = mode_of(text)
        return f"mode: {text} ({mode.words}{f', {mode.stage}' if mode.stage else ''}){places}"

    def wait(self) -> list[str]:
        """Returns the reasons of all of the wait, in their order."""
        spells = self.spells()
        if len(spells) < 2:
            return []
        near = max(0, next(n for n, it in enumerate(spells) if it.until > self.story.tick or n == len(spells) - 1))
        first = max(0, min(near - MOST_LINES // 2, len(spells) - MOST_LINES))
        shown = spells[first : first + MOST_LINES]
        left = len(spells) - len(shown)
        rows = [self.row(it) for it in shown]
        return ["the wait:", *rows, *([f"  ({left} more; --json has all)"] if left else [])]

    def row(self, it: Spell) -> str:
        """Returns the line of a reason and its time."""
        mark = ">" if it.first <= self.story.tick < it.until else " "
        begins, lasts = self.times.text(it.first), length(it.until - it.first)
        return f"{mark} {begins:>10} {lasts:>8}  {self.words.reason(it.reason)}"

    def spells(self) -> list[Spell]:
        """Returns the reasons from the call (or from the tick, if nothing called before) to the green."""
        it = self.story
        first = min(it.call.since, it.tick) if it.call is not None else it.tick
        last = it.last if it.came is None else it.came - 1
        return [
            spell._replace(first=max(first, spell.first), until=min(last + 1, spell.until))
            for spell in it.spells
            if spell.until > first and spell.first <= last
        ]

    def value(self) -> dict[str, Any]:
        """Returns the answer as a value; times are ticks."""
        it = self.story
        call = None if it.call is None else {"since": it.call.since, "by": [by.value for by in it.call.by]}
        return {
            "cabinet": it.cabinet, "name": self.names.street(it.cabinet), "phase": it.phase, "tick": it.tick,
            "time": self.times.text(it.tick), "shows": WORDS[it.shows], "since": it.since, "is_green": it.is_green,
            "reasons": [self.reason(reason) for reason in it.seen.reasons],
            "until": it.spell.until if it.is_over else None, "call": call, "came": it.came, "how": it.how or None,
            "waited": it.waited, "ended": it.gone, "ending": it.ended or None, "mode": str(it.seen.frame.mode),
            "counter": it.seen.frame.counter, "window": it.seen.window, "force_point": it.seen.force,
            "wait": [
                {"first": spell.first, "until": spell.until, **self.reason(spell.reason)} for spell in self.spells()
            ],
            "looked_at_until": it.last,
        }  # fmt: skip

    def reason(self, it: Reason) -> dict[str, Any]:
        """Returns a reason as a value."""
        return {
            "kind": it.kind.value, "phases": list(it.phases), "other_ring": it.across, "number": it.number,
            "ticks": it.ticks, "word": it.word, "words": self.words.reason(it), "rule": rule(it),
        }  # fmt: skip

    def json(self) -> str:
        """Returns the answer as JSON."""
        return json.dumps(self.value(), indent=2, ensure_ascii=False) + "\n"
