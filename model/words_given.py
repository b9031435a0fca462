"""The words that are commands.

docs/COMMANDS.md. They are in exactly this order; numbers are decimal digits without a sign and without a leading zero.
"""

import re
from dataclasses import dataclass
from typing import Union

MOST_ROUNDS_OF_ALL = 100_000


@dataclass(frozen=True)
class Run:
    """Run a scenario."""


@dataclass(frozen=True)
class Check:
    """Check a trace."""


@dataclass(frozen=True)
class Live:
    """Hold a session, request by request."""


@dataclass(frozen=True)
class Respond:
    """Make a scenario of a field file."""


@dataclass(frozen=True)
class Band:
    """Tell the through bands of a street."""


@dataclass(frozen=True)
class Seed:
    """What a generated scenario is generated from."""

    seed: int
    cabinets: int
    rounds: int


class Generate(Seed):
    """Generate a scenario."""


class Survey(Seed):
    """Print the results of a run of a generated scenario."""


@dataclass(frozen=True)
class Overlaps:
    """Time an overlap over a trace."""

    cabinet: int
    parents: bytes
    trail: int
    yellow: int
    red: int


@dataclass(frozen=True)
class Judge:
    """Report the breaches of a log."""

    joined: bool
    tolerance: int


Command = Union[Run, Check, Live, Respond, Band, Generate, Survey, Overlaps, Judge]
MOST_TOLERANCE = 20
ALONE: dict[str, Command] = {"run": Run(), "check": Check(), "live": Live(), "respond": Respond(), "band": Band()}


def number(word: str, low: int, high: int) -> int | None:
    """Returns the number of a word in a range, None if it is none."""
    if not re.fullmatch(r"0|[1-9][0-9]{0,9}", word) or not low <= int(word) <= high:
        return None
    return int(word)


def pairs(words: list[str], names: list[str]) -> list[str] | None:
    """Returns the words after some names, None if the words aren't these names each with a word."""
    return words[1::2] if len(words) == 2 * len(names) and words[::2] == names else None


def generate(words: list[str], kind: type[Generate] | type[Survey]) -> Command | None:
    """Returns the command with the seed and the size of the scenario to generate; None if the words aren't valid."""
    told = pairs(words, ["--seed", "--cabinets", "--rounds"])
    if told is None:
        return None
    seed, cabinets, rounds = number(told[0], 0, 2**32 - 1), number(told[1], 1, 64), number(told[2], 1, 86_400)
    if seed is None or cabinets is None or rounds is None or cabinets * rounds > MOST_ROUNDS_OF_ALL:
        return None
    return kind(seed, cabinets, rounds)


def overlaps(words: list[str]) -> Command | None:
    """Returns the question about an overlap."""
    told = pairs(words, ["--cabinet", "--parents", "--trail", "--yellow", "--red"])
    if told is None or not re.fullmatch(r"(?:[0-9A-Fa-f]{2}){1,16}", told[1]):
        return None
    numbers = [number(told[0], 1, 64), *(number(word, 0, 255) for word in told[2:])]
    if None in numbers:
        return None
    return Overlaps(numbers[0], bytes.fromhex(told[1]), *numbers[1:])


def judge(words: list[str]) -> Command | None:
    """Returns the question about a log; its options are in this order."""
    joined = words[:1] == ["--joined"]
    rest = words[joined:]
    told = pairs(rest, ["--tolerance"]) if rest else ["0"]
    tolerance = None if told is None else number(told[0], 0, MOST_TOLERANCE)
    return None if tolerance is None else Judge(joined, tolerance)


def command_of(words: list[str]) -> Command | None:
    """Returns the command that the words are; None if they are none."""
    if not words:
        return None
    first, rest = words[0], words[1:]
    if first in ("generate", "survey"):
        return generate(rest, Generate if first == "generate" else Survey)
    if first == "overlaps":
        return overlaps(rest)
    if first == "judge":
        return judge(rest)
    if first == "run" and rest:
        told = pairs(rest, ["--workers"])
        return None if told is None or number(told[0], 0, 8) is None else Run()
    return ALONE.get(first) if not rest else None
