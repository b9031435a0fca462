"""Readers of single values of a sheet: a text, a number, a time of day, a pattern. A value that isn't allowed is
refused in words (`Wrong`)."""

import datetime
import re
from collections.abc import Callable

from ..shared import clock
from ..shared.clock import DAY_TICKS
from ..shared.given import Wrong
from .fields import is_number, number_hint


def text(given: object) -> str:
    """Returns a text."""
    if not isinstance(given, str):
        raise Wrong(f"expected a text, found {given!r}")
    return given


def number(least: int, most: int) -> Callable[[object], int]:
    """Returns what reads a whole number in a range."""

    def read(given: object) -> int:
        if isinstance(given, float) and given.is_integer():
            given = int(given)
        if isinstance(given, bool) or not isinstance(given, int):
            raise Wrong(f"expected a whole number, found {given!r}")
        if not least <= given <= most:
            raise Wrong(f"expected {least} to {most}, found {given}")
        return given

    return read


def measure(given: object) -> float:
    """Returns a number that isn't below 0."""
    if not is_number(given) or given < 0:
        raise Wrong(f"expected a number from 0 up, found {given!r}{number_hint(given)}")
    return given


def travel(given: object) -> float:
    """Returns the seconds from an intersection to the next."""
    if isinstance(given, list):
        raise Wrong(f"{given!r} is a list: write one number at each intersection, the seconds from it to the next")
    return measure(given)


def percent(given: object) -> float:
    """Returns a grade in per cent."""
    if not is_number(given) or abs(given) > 30:
        raise Wrong(f"expected a grade of -30 to 30 per cent, found {given!r}")
    return given


def day_ticks(given: object) -> int:
    """Returns a time of day in tenths of a second: a time, a text as "7:00" or "07:00:00.5", or a number of seconds."""
    if isinstance(given, datetime.datetime):
        given = given.time()
    if isinstance(given, datetime.time):
        seconds: float | None = clock.seconds_of(given)
    elif isinstance(given, str):
        seconds = clock.of_day(given)
    else:
        seconds = given if is_number(given) else None
    if seconds is None:
        late = isinstance(given, str) and re.match(r"(2[4-9]|[3-9]\d):", given)
        hint = "; a day has 24 hours: half past midnight is 00:30:00" if late else ""
        raise Wrong(f"expected a time of day, as 07:30:00, found {given!r}{hint}")
    ticks = 10 * seconds
    if abs(ticks - round(ticks)) > 1e-6 or not 0 <= ticks < DAY_TICKS:
        raise Wrong(f"expected a time of day in tenths of a second, found {given!r}")
    return round(ticks)


def day_seconds(given: object) -> int:
    """Returns a time of day in whole seconds."""
    ticks = day_ticks(given)
    if ticks % 10:
        raise Wrong(f"expected a whole second, found {given!r}")
    return ticks // 10


COMMANDS = {"free": 254, "flash": 255}


def command(given: object) -> int:
    """Returns a pattern in command: a number, "free" or "flash"."""
    if isinstance(given, str):
        if given not in COMMANDS:
            raise Wrong(f'expected a pattern (a number, "free" or "flash"), found {given!r}')
        return COMMANDS[given]
    return number(0, 255)(given)


def command_word(pattern: int) -> int | str:
    """Returns what a sheet says of a pattern in command."""
    return {value: word for word, value in COMMANDS.items()}.get(pattern, pattern)
