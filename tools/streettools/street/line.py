"""A bad line between managers and cabinets: what a file of TOML says that happens to datagrams, from a seed."""

import dataclasses
import pathlib
import random
import time
import tomllib
from collections.abc import Callable
from typing import Any, NamedTuple

from ..shared.fault import Fault

IN, OUT = "in", "out"
WAYS = {"in": (IN,), "out": (OUT,), "both": (IN, OUT)}
SHARES = ("loss", "repeat", "reorder", "damage", "cut")
"""Shares of the messages, in percent."""
TIMES = ("delay", "jitter", "reorder_by")
"""Times in milliseconds."""
MOST_TIME, MOST_SECONDS, LONGEST_FILE = 60_000, 604_800, 1 << 20


class Copy(NamedTuple):
    """A copy of a datagram that arrives: after how many seconds, its octets, and what the line has done to it."""

    seconds: float
    octets: bytes
    words: tuple[str, ...]


class Passed(NamedTuple):
    """A datagram at a port: `way` is in or out; what the line has done to it; whether it has arrived."""

    way: str
    cabinet: int
    manager: tuple[str, int]
    octets: bytes
    words: tuple[str, ...]
    arrives: bool


@dataclasses.dataclass(frozen=True)
class Rule:
    """What happens to the messages of some cabinets in some directions."""

    cabinets: frozenset[int] | None = None
    ways: tuple[str, ...] = (IN, OUT)
    loss: float = 0
    repeat: float = 0
    reorder: float = 0
    damage: float = 0
    cut: float = 0
    delay: float = 0
    jitter: float = 0
    reorder_by: float = 200
    silence: tuple[tuple[float, float], ...] = ()

    def is_for(self, cabinet: int, way: str) -> bool:
        """Tells whether the rule is for a cabinet and a direction."""
        return way in self.ways and (self.cabinets is None or cabinet in self.cabinets)


class Line:
    """The line of a street. Each cabinet has random numbers of its own for each direction, the same number of them for
    each message: what happens to a message doesn't depend on the others."""

    def __init__(self, rules: list[Rule], seed: int, now: Callable[[], float] = time.monotonic) -> None:
        self.rules, self.seed, self.now = rules, seed, now
        self.begun = now()
        self.dice: dict[tuple[int, str], random.Random] = {}
        self.is_on = True
        """Whether the rules count; the panel turns them off and on."""
        self.hanging: set[int] = set()
        """The cabinets that get no message and answer none."""
        self.silent: dict[int, tuple[float, str]] = {}
        """Further cabinets like these: until when, and by which word a record of messages has it."""

    def is_perfect(self) -> bool:
        """Tells whether nothing happens to any message."""
        return not self.hanging and not self.silent and not (self.is_on and self.rules)

    def silence(self, cabinet: int, seconds: float, word: str) -> None:
        """Lets a cabinet get no message and answer none for some seconds."""
        self.silent[cabinet] = (self.now() + seconds, word)

    def silent_word(self, cabinet: int) -> str | None:
        """Returns why a cabinet gets no message now, None if it does."""
        until, word = self.silent.get(cabinet, (0.0, ""))
        if word and self.now() >= until:
            del self.silent[cabinet]
            word = ""
        return word or ("hangs" if cabinet in self.hanging else None)

    def rule(self, cabinet: int, way: str) -> Rule | None:
        """Returns the last rule that is for a cabinet and a direction."""
        return next((it for it in reversed(self.rules) if it.is_for(cabinet, way)), None)

    def passed(self, cabinet: int, way: str, octets: bytes) -> list[Copy]:
        """Returns the copies of a message that arrive: none, one or two. One that doesn't has infinite seconds."""
        if word := self.silent_word(cabinet):
            return [Copy(float("inf"), octets, (word,))]
        rule = self.rule(cabinet, way) if self.is_on else None
        if rule is None:
            return [Copy(0.0, octets, ())]
        if (cabinet, way) not in self.dice:
            self.dice[cabinet, way] = random.Random(f"{self.seed} {cabinet} {way}")
        rolls = [self.dice[cabinet, way].random() for _ in range(9)]
        elapsed = self.now() - self.begun
        if any(first <= elapsed < last for first, last in rule.silence):
            return [Copy(float("inf"), octets, ("silence",))]
        if 100 * rolls[0] < rule.loss:
            return [Copy(float("inf"), octets, ("lost",))]
        changed, words = damaged(rule, octets, rolls)
        late = max(0.0, rule.delay + rule.jitter * (2 * rolls[5] - 1))
        if 100 * rolls[6] < rule.reorder:
            late, words = late + rule.reorder_by, (*words, "held back")
        words = (*words, f"late by {late:.0f} ms") if late else words
        copies = [Copy(late / 1000, changed, words)]
        if 100 * rolls[7] < rule.repeat:
            again = late + max(1.0, rule.jitter * rolls[8])
            copies.append(Copy(again / 1000, changed, (*words, "repeated")))
        return copies


def damaged(rule: Rule, octets: bytes, rolls: list[float]) -> tuple[bytes, tuple[str, ...]]:
    """Returns a message as it arrives, and what was done to it: a bit turned over, or its end cut off."""
    words: tuple[str, ...] = ()
    if octets and 100 * rolls[1] < rule.damage:
        at = int(rolls[2] * 8 * len(octets))
        changed = bytearray(octets)
        changed[at // 8] ^= 1 << at % 8
        octets, words = bytes(changed), ("damaged",)
    if octets and 100 * rolls[3] < rule.cut:
        octets, words = octets[: int(rolls[4] * len(octets))], (*words, "cut")
    return octets, words


# the file


def number(where: str, value: Any, most: float) -> float:
    """Returns a number from 0 to the most it may be."""
    if isinstance(value, bool) or not isinstance(value, (int, float)) or not 0 <= value <= most:
        raise Fault(f"{where} is not a number from 0 to {most:g}")
    return float(value)


def spans(where: str, value: Any) -> tuple[tuple[float, float], ...]:
    """Returns the spans of time of a list of pairs."""
    if not isinstance(value, list) or not all(isinstance(it, list) and len(it) == 2 for it in value):
        raise Fault(f"{where} is not a list of pairs, as [[10, 20]]")
    return tuple((number(where, first, MOST_SECONDS), number(where, last, MOST_SECONDS)) for first, last in value)


def rule_of(where: str, told: Any, count: int) -> Rule:
    """Returns the rule of a table of the file, in a street of `count` cabinets."""
    if not isinstance(told, dict):
        raise Fault(f"{where} is not a table")
    found: dict[str, Any] = {}
    for name, value in told.items():
        place = f"{where}.{name}"
        if name in SHARES:
            found[name] = number(place, value, 100)
        elif name in TIMES:
            found[name] = number(place, value, MOST_TIME)
        elif name == "silence":
            found[name] = spans(place, value)
        elif name == "direction":
            if value not in WAYS:
                raise Fault(f"{place} is not {', '.join(WAYS)}")
            found["ways"] = WAYS[value]
        elif name == "cabinets":
            if not isinstance(value, list) or not all(type(it) is int and 1 <= it <= count for it in value):
                raise Fault(f"{place} is not a list of cabinets, 1 to {count}")
            found[name] = frozenset(value)
        else:
            raise Fault(f"{place} is not known: {', '.join(('cabinets', 'direction', *SHARES, *TIMES, 'silence'))}")
    return Rule(**found)


def line_of(path: pathlib.Path, count: int) -> Line:
    """Returns the line that a file describes, in a street of `count` cabinets."""
    with path.open("rb") as file:
        text = file.read(LONGEST_FILE + 1)
    try:
        if len(text) > LONGEST_FILE:
            raise Fault(f"more than {LONGEST_FILE} octets")
        told = tomllib.loads(text.decode("utf-8"))
        unknown = [name for name in told if name not in ("seed", "line")]
        if unknown:
            raise Fault(f"{unknown[0]} is not known: seed, line")
        seed, tables = told.get("seed", 1), told.get("line", [])
        if type(seed) is not int or not 0 <= seed < 1 << 63:
            raise Fault("seed is not a whole number from 0 on")
        if not isinstance(tables, list):
            raise Fault("line is not a list of tables: [[line]]")
        return Line([rule_of(f"line[{at}]", it, count) for at, it in enumerate(tables)], seed)
    except Fault as fault:
        raise Fault(f"{path}: {fault}") from None
    except (ValueError, RecursionError) as fault:
        raise Fault(f"{path}: not valid TOML: {fault}") from None
