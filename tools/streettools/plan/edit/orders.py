"""What a page may ask of the editor, read strictly."""

import json
import math
from dataclasses import dataclass
from typing import Any

from ...shared.clock import DAY_SECONDS
from ...shared.given import Wrong
from .changes import KINDS, Change
from .running import CALLS, Asked

LONGEST = 1024
"""The bytes of the longest order."""
MOST_NUMBER = 2**31


@dataclass(frozen=True)
class Edit:
    """A change of the version `at`. With `is_try` it is only shown to the page that asks, as while something is
    dragged; `mark` is given back with the answer."""

    at: int
    change: Change
    is_try: bool
    mark: int


@dataclass(frozen=True)
class View:
    """What a page looks at, and the number of another version beside it, 0 for none."""

    asked: Asked
    other: int


@dataclass(frozen=True)
class Step:
    """A step of the history: undo or redo of the version `at`."""

    at: int
    is_back: bool


@dataclass(frozen=True)
class Save:
    """Saves the version `at`; `over` a file that another program has changed."""

    at: int
    is_over: bool


@dataclass(frozen=True)
class Load:
    """Takes the file again, as another program has changed it."""


@dataclass(frozen=True)
class Drafted:
    """Takes the offered draft, or drops it."""

    is_taken: bool


Order = Edit | View | Step | Save | Load | Drafted


def whole(said: dict[str, Any], name: str, low: int, high: int) -> int:
    """Returns a whole number in a range."""
    value = said.get(name)
    if not isinstance(value, int) or isinstance(value, bool) or not low <= value <= high:
        raise Wrong(f"{name} has to be a whole number from {low} to {high}")
    return value


def number(said: dict[str, Any], name: str) -> float:
    """Returns a number that isn't out of all range."""
    value = said.get(name)
    if not isinstance(value, (int, float)) or isinstance(value, bool) or not math.isfinite(value) or abs(value) > 1e6:
        raise Wrong(f"{name} has to be a number")
    return float(value)


def truth(said: dict[str, Any], name: str) -> bool:
    """Returns true or false."""
    value = said.get(name)
    if not isinstance(value, bool):
        raise Wrong(f"{name} has to be true or false")
    return value


def word(said: dict[str, Any], name: str, words: tuple[str, ...]) -> str:
    """Returns one of some words."""
    value = said.get(name)
    if not isinstance(value, str) or value not in words:
        raise Wrong(f"{name} has to be one of {', '.join(words)}")
    return value


def change_of(value: Any, count: int) -> Change:
    """Returns a change, of a street of `count` intersections."""
    said = of_names(value, {"kind", "intersection", "pattern", "phase", "name", "value", "snap"})
    kind = word(said, "kind", KINDS)
    name = said.get("name", "")
    if not isinstance(name, str) or len(name) > 40 or not name.isprintable():
        raise Wrong("name has to be a short text")
    return Change(
        kind=kind,
        intersection=whole(said, "intersection", 0, count),
        pattern=whole(said | {"pattern": said.get("pattern", 1)}, "pattern", 1, 48),
        phase=whole(said | {"phase": said.get("phase", 0)}, "phase", 0, 16),
        name=name,
        value=number(said | {"value": said.get("value", 0)}, "value"),
        snap=truth(said, "snap"),
    )


def of_names(value: Any, names: set[str]) -> dict[str, Any]:
    """Returns an object that has only names of a set."""
    if not isinstance(value, dict):
        raise Wrong("an order is an object")
    unknown = sorted(set(value) - names)
    if unknown:
        raise Wrong(f"{unknown[0][:40]!r} is unknown here")
    return value


def asked_of(said: dict[str, Any], count: int) -> Asked:
    """Returns what a page looks at."""
    return Asked(
        intersection=whole(said, "intersection", 1, count),
        pattern=whole(said, "pattern", 0, 48),
        time=10 * whole(said, "time", 0, DAY_SECONDS - 1),
        minutes=whole(said, "minutes", 1, 60),
        settled=truth(said, "settled"),
        calls=word(said, "calls", CALLS),
    )


def order_of(text: str, count: int) -> Order:
    """Returns the order that a text is, for a street of `count` intersections; raises Wrong, with the reason."""
    if len(text) > LONGEST:
        raise Wrong(f"an order has at most {LONGEST} characters")
    try:
        said = json.loads(text)
    except (ValueError, RecursionError):
        raise Wrong("an order is JSON") from None
    said = of_names(said, {"do", "at", "change", "mark", "view", "other", "over", "take"})
    does = word(said, "do", ("try", "set", "view", "undo", "redo", "save", "load", "draft"))
    if does in ("try", "set"):
        mark = whole(said | {"mark": said.get("mark", 0)}, "mark", 0, MOST_NUMBER)
        return Edit(whole(said, "at", 1, MOST_NUMBER), change_of(said.get("change"), count), does == "try", mark)
    if does == "view":
        names = {"intersection", "pattern", "time", "minutes", "settled", "calls"}
        return View(asked_of(of_names(said.get("view"), names), count), whole(said, "other", 0, MOST_NUMBER))
    if does in ("undo", "redo"):
        return Step(whole(said, "at", 1, MOST_NUMBER), does == "undo")
    if does == "save":
        return Save(whole(said, "at", 1, MOST_NUMBER), truth(said, "over"))
    return Load() if does == "load" else Drafted(truth(said, "take"))
