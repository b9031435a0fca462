"""What a street shows, kept for pages: each cabinet's last frame, its greens, the master's notes, the messages."""

import asyncio
import collections
import json
from collections.abc import Callable
from dataclasses import dataclass, field
from typing import Any

from ...shared.program import Died
from ...shared.session import Answer, refusal
from ..session import reply_in
from ..street import Hearer
from .layout import street_facts
from .names import answered_text, asked_text

DARK = "R" * 16
DONT = "D" * 16
KEPT_TICKS = 12_000
"""For how many ticks greens are kept for the coordination diagram."""
KEPT_LINES = 200
"""How many notes and messages are kept."""
NOTES = {"fail": "fails", "good": "is good again"}

Green = tuple[int, int, int]
"""A green that is over: its phase, its first tick, the tick after its last."""


@dataclass
class Shown:
    """What a cabinet shows since the tick of its last frame line."""

    tick: int = 0
    vehicles: str = DARK
    pedestrians: str = DONT
    mode: str = "S"
    counter: int = 0
    target: int = 0
    version: int = 0
    since: list[int] = field(default_factory=lambda: [0] * 16)
    ped_since: list[int] = field(default_factory=lambda: [0] * 16)
    greens: collections.deque[Green] = field(default_factory=lambda: collections.deque(maxlen=4000))
    is_failing: bool = False
    """Whether the master's last note of it was that it doesn't answer."""
    changed: int = 0

    def take(self, words: list[str]) -> None:
        """Processes a frame line, by its words after the cabinet."""
        tick, vehicles, pedestrians = int(words[0]), words[1], words[2]
        for at in range(16):
            if vehicles[at] != self.vehicles[at]:
                if self.vehicles[at] == "G":
                    self.over(at + 1, tick)
                self.since[at] = tick
            if pedestrians[at] != self.pedestrians[at]:
                self.ped_since[at] = tick
        self.tick, self.vehicles, self.pedestrians, self.mode = tick, vehicles, pedestrians, words[3]
        self.counter, self.target, self.version = map(int, words[4:7])

    def over(self, phase: int, tick: int) -> None:
        """Keeps a green that is over, and forgets those that were over long before."""
        self.greens.append((phase, self.since[phase - 1], tick))
        while self.greens[0][2] <= tick - KEPT_TICKS:
            self.greens.popleft()

    def row(self) -> list[Any]:
        """Returns what a page receives of it."""
        return [self.tick, self.vehicles, self.pedestrians, self.mode, self.counter, self.target, self.version,
                self.since, self.ped_since, self.is_failing]  # fmt: skip


def note_text(line: str) -> str:
    """Returns an M or an L line in words."""
    _, cabinet, *words = line.split(" ")
    if line[0] == "L":
        end = (
            f"in force as version {words[2]}" if words[1] == "accepted" else f"breaks rule {words[2]} at row {words[3]}"
        )
        return f"cabinet {cabinet}: download {words[0]} {end}"
    if words[0] == "pattern":
        return f"cabinet {cabinet} has acknowledged pattern {words[1]}"
    if words[0] == "load":
        end = "is in force" if words[2] == "done" else f"was refused, status {words[3]} index {words[4]}"
        return f"cabinet {cabinet}: the master's download {words[1]} {end}"
    return f"cabinet {cabinet} {NOTES[words[0]]}"


class PanelState(Hearer):
    """All that pages show. Each change gets the next number, so that a page receives what it doesn't know yet."""

    called = "the panel"

    def __init__(self) -> None:
        self.scenario: dict[str, Any] = {}
        self.facts: list[dict[str, Any]] = []
        self.cabinets: list[Shown] = []
        self.ticks = self.round = self.change = self.sessions = 0
        self.notes: collections.deque[tuple[int, int, str]] = collections.deque(maxlen=KEPT_LINES)
        self.messages: collections.deque[tuple[int, list[Any]]] = collections.deque(maxlen=KEPT_LINES)
        self.asked: collections.deque[tuple[int, int, bytes, bytes | None]] = collections.deque(maxlen=KEPT_LINES)
        """Messages that aren't in words yet: the tick, the cabinet, the octets of the message and of the reply."""
        self.ending: str | None = None
        self.is_replaying: Callable[[], bool] = lambda: False
        """Tells whether a record is replayed, whose messages are shown."""

    def began(self, scenario: dict[str, Any]) -> None:
        self.sessions += 1
        self.scenario, self.facts = scenario, street_facts(scenario)
        self.cabinets = [Shown() for _ in scenario["cabinets"]]
        self.ticks = self.round = 0

    def heard(self, request: bytes | None, answer: Answer) -> None:
        if request is not None and request.startswith(b"tick "):
            self.ticks += int(request[5:])
        elif request is not None and request.startswith(b"frame ") and self.is_replaying() and not refusal(answer):
            _, cabinet, _, digits = request.split(b" ")
            self.exchanged(int(cabinet), bytes.fromhex(digits.decode("ascii")), reply_in(answer))
        for line in answer:
            self.take(line.decode("ascii"))

    def exchanged(self, cabinet: int, octets: bytes, reply: bytes | None) -> None:
        """Takes a request of management software and its reply."""
        self.asked.append((self.ticks, cabinet, octets, reply))

    async def put_in_words(self) -> None:
        """Puts the messages that came into words, one after another; other pending work goes before the next."""
        while self.asked:
            row = message_row(*self.asked.popleft())
            self.change += 1
            self.messages.append((self.change, row))
            await asyncio.sleep(0)

    def take(self, line: str) -> None:
        """Takes a line of an answer."""
        if line[0] == "F":
            cabinet, *words = line[2:].split(" ")
            self.change += 1
            shown = self.cabinets[int(cabinet) - 1]
            shown.take(words)
            shown.changed = self.change
        elif line[0] == "R":
            self.round = int(line[2:])
        elif line[0] in "ML":
            self.change += 1
            self.notes.append((self.change, self.ticks, note_text(line)))
            self.note(line.split(" "))

    def note(self, words: list[str]) -> None:
        """Takes an M or an L line, by its words: whether the master says that a cabinet fails, or is good again."""
        if words[0] == "M" and words[2] in NOTES:
            shown = self.cabinets[int(words[1]) - 1]
            shown.is_failing, shown.changed = words[2] == "fail", self.change

    def ended(self, died: Died | None) -> None:
        self.ending = f"the program ended: {died}" if died else None

    def news(self, known: int) -> dict[str, Any]:
        """Returns what has changed since the change `known`."""
        return {
            "now": self.ticks,
            "round": self.round,
            "session": self.sessions,
            "cabinets": {n: it.row() for n, it in enumerate(self.cabinets, 1) if it.changed > known or not known},
            "notes": [it[1:] for it in self.notes if it[0] > known],
            "messages": [row for change, row in self.messages if change > known],
        }

    def outdated(self) -> list[int]:
        """Returns the cabinets whose tables in force differ from those of their layout."""
        pairs = zip(self.cabinets, self.facts)
        return [number for number, (shown, facts) in enumerate(pairs, 1) if shown.version != facts["version"]]

    async def greens(self) -> str:
        """Returns the greens of each cabinet's coordinated phases that are over and not long ago, as JSON. They are put
        together cabinet by cabinet; other pending work goes before the next."""
        parts = []
        for number, (shown, facts) in enumerate(zip(self.cabinets, self.facts), 1):
            wanted = {p for laid in facts["patterns"].values() for p in laid["coordinated"]}
            found = [it for it in shown.greens if it[0] in wanted and it[2] > self.ticks - KEPT_TICKS]
            parts.append(f'"{number}":{json.dumps(found, separators=(",", ":"))}')
            await asyncio.sleep(0)
        return "{" + ",".join(parts) + "}"


def message_row(tick: int, cabinet: int, octets: bytes, reply: bytes | None) -> list[Any]:
    """Returns a message in words: tick, cabinet, request, reply."""
    return [tick, cabinet, asked_text(octets), answered_text(reply)]
