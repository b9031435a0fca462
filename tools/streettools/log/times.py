"""The times of an event log, as agencies export them, in tenths of a second since 1970.

Clock times are taken as they are written: a zone after a time is dropped.
"""

import datetime
import functools
import re
from collections.abc import Iterable
from typing import NamedTuple

TICK = 10
DAY = 864_000
ISO = re.compile(
    r"(\d{4})-(\d{1,2})-(\d{1,2})[ T](\d{1,2}):(\d{2}):(\d{2})(?:[.,](\d{1,9}))? ?(?:Z|UTC|[+-]\d{2}:?\d{2})?"
)
"""2026-11-27 06:00:00.1, 2026-11-27T06:00:00.100Z"""
SLASHED = re.compile(
    r"(\d{1,2})[/.-](\d{1,2})[/.-](\d{4}),? (\d{1,2}):(\d{2})(?::(\d{2})(?:[.,](\d{1,9}))?)?(?: ?([AaPp])\.?[Mm]\.?)?"
)
"""11/27/2026 6:00:00.1 AM, 27.11.2026 06:00:00"""
EPOCH = re.compile(r"(\d{9,10})(?:\.(\d{1,9}))?|(\d{12,13})")
"""Seconds since 1970, with a fraction; or milliseconds."""


class Style(NamedTuple):
    """How the times of a log are written: `iso`, `slashed` or `epoch`; `day_first` tells 27/11 from 11/27."""

    name: str
    day_first: bool = False


class Moment(NamedTuple):
    """A time in ticks, and whether it was finer than a tick."""

    ticks: int
    is_finer: bool


@functools.lru_cache(4096)
def day_of(year: int, month: int, day: int) -> int:
    """Returns the ticks since 1970 of a day's midnight; ValueError if there is no such day."""
    if not 1970 <= year <= 2200:
        raise ValueError
    return (datetime.date(year, month, day).toordinal() - 719_163) * DAY


def tenths(fraction: str | None) -> tuple[int, bool]:
    """Returns the tenths of a fraction of a second, rounded, and whether it is finer than that."""
    if not fraction:
        return 0, False
    value = int(fraction[:4].ljust(4, "0"))
    return (value + 500) // 1000, bool(fraction[1:].strip("0"))


def clock(day: int, hours: int, minutes: int, seconds: int, fraction: str | None) -> Moment:
    """Returns the moment of a time of day."""
    if hours > 23 or minutes > 59 or seconds > 59:
        raise ValueError
    rest, is_finer = tenths(fraction)
    return Moment(day + TICK * (3600 * hours + 60 * minutes + seconds) + rest, is_finer)


def iso(text: str) -> Moment:
    """Returns the moment of a time that begins with the year."""
    found = ISO.fullmatch(text)
    if found is None:
        raise ValueError
    year, month, day, hours, minutes, seconds, fraction = found.groups()
    return clock(day_of(int(year), int(month), int(day)), int(hours), int(minutes), int(seconds), fraction)


def slashed(text: str, day_first: bool) -> Moment:
    """Returns the moment of a time that ends its date with the year, with AM and PM or without."""
    found = SLASHED.fullmatch(text)
    if found is None:
        raise ValueError
    one, two, year, hours, minutes, seconds, fraction, half = found.groups()
    month, day = (two, one) if day_first else (one, two)
    hour = int(hours)
    if half is not None:
        if not 1 <= hour <= 12:
            raise ValueError
        hour = hour % 12 + (12 if half in "Pp" else 0)
    return clock(day_of(int(year), int(month), int(day)), hour, int(minutes), int(seconds or 0), fraction)


def epoch(text: str) -> Moment:
    """Returns the moment of seconds or milliseconds since 1970."""
    found = EPOCH.fullmatch(text)
    if found is None:
        raise ValueError
    if found[3]:
        return Moment((int(found[3]) + 50) // 100, int(found[3]) % 100 != 0)
    rest, is_finer = tenths(found[2])
    return Moment(TICK * int(found[1]) + rest, is_finer)


def moment(text: str, style: Style) -> Moment:
    """Returns the moment of a time in a style; ValueError if it isn't one."""
    if style.name == "iso":
        return iso(text)
    return slashed(text, style.day_first) if style.name == "slashed" else epoch(text)


def is_time(text: str) -> bool:
    """Tells whether a text is a time in some style."""
    return any(it.fullmatch(text) for it in (ISO, SLASHED, EPOCH))


def style_of(texts: Iterable[str], day_first: bool | None) -> tuple[Style | None, bool]:
    """Returns the style of some times, None if none is a time; and whether days and months can't be distinguished.
    `day_first` is what the caller says about them."""
    votes = {"iso": 0, "slashed": 0, "epoch": 0}
    above_one = above_two = False
    for text in texts:
        if found := SLASHED.fullmatch(text):
            votes["slashed"] += 1
            above_one, above_two = above_one or int(found[1]) > 12, above_two or int(found[2]) > 12
        elif ISO.fullmatch(text):
            votes["iso"] += 1
        elif EPOCH.fullmatch(text):
            votes["epoch"] += 1
    name = max(votes, key=lambda it: votes[it])
    if votes[name] == 0:
        return None, False
    if name != "slashed" or day_first is not None:
        return Style(name, bool(day_first)), False
    return Style(name, above_one and not above_two), above_one == above_two


def day_text(ticks: int) -> str:
    """Returns the date of a moment."""
    return str(datetime.date.fromordinal(ticks // DAY + 719_163))


def time_text(ticks: int) -> str:
    """Returns the time of day of a moment, with its tenth."""
    seconds, rest = divmod(ticks % DAY, TICK)
    return f"{seconds // 3600:02d}:{seconds // 60 % 60:02d}:{seconds % 60:02d}.{rest}"
