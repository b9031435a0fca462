"""Times of day and times of a run, as people write them. Times of day are seconds since midnight; a tick is 0.1 s."""

import argparse
import datetime
import re
from typing import NamedTuple

from .fault import Fault

DAY_SECONDS, DAY_TICKS = 86_400, 864_000
OF_DAY = re.compile(r"([0-9]{1,2}):([0-9]{2})(?::([0-9]{2}(?:\.[0-9]{1,6})?))?")
OF_RUN = re.compile(r"(?:([0-9]{1,3}):)?([0-9]{1,4}):([0-9]{2}(?:\.[0-9])?)")


def of_day(text: str) -> float | None:
    """Returns the time of day that is written as 7:30, 07:30:00 or 07:30:00.5; None if it isn't one."""
    found = OF_DAY.fullmatch(text.strip())
    if found is None:
        return None
    hours, minutes, seconds = int(found[1]), int(found[2]), float(found[3] or 0)
    return 3600 * hours + 60 * minutes + seconds if hours < 24 and minutes < 60 and seconds < 60 else None


def day_time(ticks: int) -> datetime.time:
    """Returns a time of day from ticks since midnight."""
    seconds, tenths = divmod(ticks, 10)
    return datetime.time(seconds // 3600, seconds // 60 % 60, seconds % 60, tenths * 100_000)


def seconds_of(time: datetime.time) -> float:
    """Returns a time of day in seconds."""
    return time.hour * 3600 + time.minute * 60 + time.second + time.microsecond / 1_000_000


def moment(text: str) -> datetime.datetime:
    """Reads a time of day with its date, in no zone, for argparse."""
    value = datetime.datetime.fromisoformat(text)
    if value.tzinfo or value.year > 9990:
        raise ValueError
    return value


def dated(text: str) -> datetime.datetime | datetime.date:
    """Reads a time of day with its date, or only the date, without a zone, for argparse."""
    try:
        value = datetime.date.fromisoformat(text)
    except ValueError:
        return moment(text)
    if value.year > 9990:
        raise ValueError
    return value


def daytime(text: str) -> float:
    """Reads a time of day, with a date or without one, in no zone, for argparse."""
    try:
        value = datetime.time.fromisoformat(text)
    except ValueError:
        value = moment(text).time()
    if value.tzinfo:
        raise ValueError
    return seconds_of(value)


def run_ticks(text: str) -> int:
    """Reads a time of a run for argparse, and returns ticks: seconds (90 or 90.5), minutes and seconds (1:30), hours
    too (1:01:30), or ticks (900t)."""
    found = OF_RUN.fullmatch(text)
    if found:
        return round(36_000 * int(found[1] or 0) + 600 * int(found[2]) + 10 * float(found[3]))
    value = float(text.removesuffix("t"))
    ticks = value if text.endswith("t") else 10 * value
    if not 0 <= ticks <= 100 * DAY_TICKS or abs(ticks - round(ticks)) > 1e-6:
        raise ValueError
    return round(ticks)


class At(NamedTuple):
    """A moment of a run as it is written: ticks since the start, None if it isn't such a time, and ticks since
    midnight, None if it isn't a time of day."""

    text: str
    since: int | None
    of_day: int | None


def at(text: str) -> At:
    """Reads a moment for argparse: seconds (90), ticks (900t), or with a colon a time of day (07:05 or 07:05:00) or a
    time since the start (1:30). `placed` tells the latter two apart."""
    day = of_day(text)
    try:
        return At(text, run_ticks(text), None if day is None else round(10 * day))
    except ValueError:
        if day is None:
            known = "seconds (90), ticks (900t), a time of day (07:05:00) or minutes and seconds (1:30)"
            raise argparse.ArgumentTypeError(f"{text!r} is not {known}") from None
        return At(text, None, round(10 * day))


def placed(moment: At, start: float | None, clock: int, ticks: int) -> int:
    """Returns the tick of a moment in a run of `ticks` ticks. If times of day are shown (`start` is the second of the
    day at which the run starts), a time with a colon is one. Otherwise it is the time since the start; if that is
    beyond the end, it is the time of day by `clock`, the clock with which the run starts (ticks since midnight)."""
    begun = clock if start is None else round(10 * start)
    of_day = None if moment.of_day is None else (moment.of_day - begun) % DAY_TICKS
    if moment.since is not None and (of_day is None or (start is None and moment.since <= ticks)):
        return moment.since
    if of_day is not None and of_day <= ticks:
        return of_day
    if start is None and not clock and moment.since is not None:
        return moment.since
    first, last = day_text(begun / 10), day_text((begun + ticks) / 10)
    raise Fault(f"{moment.text} is not in the run, which is from {first} to {last}")


def clock_text(seconds: float, _: object = None) -> str:
    """Returns a time since the start of the run as minutes and seconds, from an hour on with hours before them."""
    tenths = round(10 * seconds)
    rest = f"{tenths // 10 % 60:02d}" + (f".{tenths % 10}" if tenths % 10 else "")
    minutes = tenths // 600
    return f"{minutes // 60}:{minutes % 60:02d}:{rest}" if minutes >= 60 else f"{minutes}:{rest}"


def day_text(seconds: float) -> str:
    """Returns a time of day by its seconds from midnight, of whatever day, as hours, minutes and seconds."""
    tenths = round(10 * seconds) % 864_000
    whole, rest = divmod(tenths, 10)
    return f"{whole // 3600:02d}:{whole // 60 % 60:02d}:{whole % 60:02d}" + (f".{rest}" if rest else "")


def hours_text(seconds: float) -> str:
    """Returns a time by its seconds from midnight, 24:00 and later too, as hours and minutes, with whole seconds if
    there are any."""
    whole = int(seconds)
    return f"{whole // 3600}:{whole // 60 % 60:02d}" + (f":{whole % 60:02d}" if whole % 60 else "")


def looks_like_a_clock(second: int) -> bool:
    """Tells whether a number of seconds reads as hours and minutes, as 630."""
    return 100 <= second < 2400 and second % 100 < 60
