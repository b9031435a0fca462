"""What is found in a log: each kind is counted for each cabinet, with the first place at which it was found."""

from collections.abc import Iterator
from dataclasses import dataclass, field
from typing import NamedTuple

KINDS = {
    "malformed": "rows that can't be read",
    "device": "rows of devices that the plan doesn't have",
    "code": "rows with codes that are unknown",
    "parameter": "rows with a parameter that the code can't have",
    "finer": "times that are finer than a tenth of a second, rounded",
    "duplicate": "duplicate rows, dropped",
    "order": "rows out of order, put in order",
    "jump": "times at which the clock was set back; the judging of the cabinet begins again there",
    "hole": "holes, without any row; the judging of the cabinet begins again after each",
    "flash": "times in flash, which aren't judged",
    "missing": "changes with a missing row, known by the other row of the change",
    "lost": "changes whose rows are missing; the judging of the cabinet begins again there",
    "apart": "changes whose two rows are a tick or two apart",
    "unseen": "enabled phases without any row of their colour, taken as red",
    "disabled": "rows of phases that the plan doesn't enable",
    "plan": "patterns whose cycle, offset or splits differ from the plan's",
    "unjudged": "stretches beyond the first thousand, which aren't judged",
    "channel": "rows of detector channels that the plan doesn't have",
    "skipped": "rows that have no place in a scenario",
}
"""The kinds, in the order in which they are reported, in words that a number follows."""


class Found(NamedTuple):
    """A kind that was found: the cabinet, 0 for the whole log; how often; and where first, in words."""

    cabinet: int
    kind: str
    times: int
    first: str


@dataclass
class Findings:
    """Counts by kind and cabinet."""

    counts: dict[tuple[int, str], int] = field(default_factory=dict)
    firsts: dict[tuple[int, str], str] = field(default_factory=dict)

    def add(self, kind: str, first: str, cabinet: int = 0, count: int = 1) -> None:
        """Counts something; `first` says where it was."""
        if count:
            key = (cabinet, kind)
            self.counts[key] = self.counts.get(key, 0) + count
            self.firsts.setdefault(key, first)

    def listed(self) -> Iterator[Found]:
        """Yields what was found, cabinet by cabinet."""
        order = list(KINDS)
        for cabinet, kind in sorted(self.counts, key=lambda it: (it[0], order.index(it[1]))):
            yield Found(cabinet, kind, self.counts[cabinet, kind], self.firsts[cabinet, kind])

    def count(self, kind: str) -> int:
        """Returns how often a kind was found, over all cabinets."""
        return sum(count for (_, it), count in self.counts.items() if it == kind)


def sentence(found: Found, place: str) -> str:
    """Returns a line that reports a kind; `place` is the name of the cabinet, or empty."""
    first = f" (the first: {found.first})" if found.first else ""
    words = f"{KINDS[found.kind]}: {found.times}{first}"
    return f"{place}: {words}" if place else words
