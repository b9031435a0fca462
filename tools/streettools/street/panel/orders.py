"""What a page may ask of the street, read strictly."""

import json
from dataclasses import dataclass
from typing import Any

from ..acts import ALARMS, Alarm, Reboot
from ..words import FASTEST, SLOWEST
from .streams import MOST

LONGEST = 512
"""The bytes of the longest order."""
MOST_STEP = 36_000
PLACES = {"veh": 16, "ped": 16, "preempt": 8}


class Wrong(Exception):
    """An order that isn't accepted."""


@dataclass(frozen=True)
class Input:
    """An input from the street, as a request of the session."""

    request: bytes


@dataclass(frozen=True)
class Pulse:
    """A vehicle that comes onto a detector and leaves it."""

    cabinet: int
    phase: int


@dataclass(frozen=True)
class Rate:
    """A rate of vehicles on a detector, in vehicles an hour."""

    cabinet: int
    phase: int
    rate: int


@dataclass(frozen=True)
class Speed:
    """The speed at which time advances; with 0 it is stopped."""

    speed: float


@dataclass(frozen=True)
class Step:
    """Takes this number of ticks at once."""

    ticks: int


@dataclass(frozen=True)
class View:
    """The cabinet that a page looks at; 0 for the street."""

    cabinet: int


@dataclass(frozen=True)
class BadLine:
    """The bad line, on or off."""

    is_on: bool


@dataclass(frozen=True)
class Hang:
    """A cabinet that hangs, or doesn't any more."""

    cabinet: int
    is_on: bool


Order = Input | Pulse | Rate | Speed | Step | View | BadLine | Hang | Reboot | Alarm


def whole(value: Any, low: int, high: int) -> int:
    """Returns a whole number in a range."""
    if not isinstance(value, int) or isinstance(value, bool) or not low <= value <= high:
        raise Wrong
    return value


def speed(value: Any) -> float:
    """Returns a speed, or 0."""
    if isinstance(value, bool) or not isinstance(value, (int, float)) or value and not SLOWEST <= value <= FASTEST:
        raise Wrong
    return float(value)


def input_of(told: dict[str, Any], cabinets: int) -> Input:
    """Returns an input from the street."""
    kind = told.get("kind")
    if not isinstance(kind, str) or kind not in PLACES:
        raise Wrong
    cabinet, place = whole(told.get("cabinet"), 1, cabinets), whole(told.get("place"), 1, PLACES[kind])
    request = f"{kind} {cabinet} {place}"
    if kind != "ped":
        if not isinstance(told.get("on"), bool):
            raise Wrong
        request += " on" if told["on"] else " off"
    return Input(request.encode())


def switch(value: Any) -> bool:
    """Returns whether something is to be on."""
    if not isinstance(value, bool):
        raise Wrong
    return value


def order_of(text: str, cabinets: int) -> Order:
    """Returns the order that a text is; raises Wrong if it isn't accepted."""
    try:
        told = json.loads(text) if len(text) <= LONGEST else None
    except (ValueError, RecursionError):
        raise Wrong from None
    if not isinstance(told, dict):
        raise Wrong
    do = told.get("do")
    if do == "input":
        return input_of(told, cabinets)
    if do == "pulse":
        return Pulse(whole(told.get("cabinet"), 1, cabinets), whole(told.get("phase"), 1, 16))
    if do == "rate":
        place = whole(told.get("cabinet"), 1, cabinets), whole(told.get("phase"), 1, 16)
        return Rate(*place, whole(told.get("rate"), 0, MOST))
    if do == "speed":
        return Speed(speed(told.get("speed")))
    if do == "step":
        return Step(whole(told.get("ticks"), 1, MOST_STEP))
    if do == "view":
        return View(whole(told.get("cabinet"), 0, cabinets))
    if do == "line":
        return BadLine(switch(told.get("on")))
    if do == "reboot":
        return Reboot(whole(told.get("cabinet"), 1, cabinets))
    if do == "alarm":
        if told.get("name") not in ALARMS:
            raise Wrong
        return Alarm(whole(told.get("cabinet"), 1, cabinets), told["name"], switch(told.get("on")))
    if do == "hang":
        return Hang(whole(told.get("cabinet"), 1, cabinets), switch(told.get("on")))
    raise Wrong
