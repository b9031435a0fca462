"""Day plans of a sheet: schedules by name, and the days on which each holds: days of the week, in some months, and
dates, as NTCIP 1201's schedule of day plans has them."""

import datetime
import re
from collections.abc import Callable, Iterator
from dataclasses import dataclass
from typing import Any

from ..shared.fault import Fault
from ..shared.given import Given, Wrong
from .fields import one_line
from .readers import command_word, number
from ..shared.clock import day_time

WEEKDAYS = ("monday", "tuesday", "wednesday", "thursday", "friday", "saturday", "sunday")
NAMES = ("name", "days", "months", "dates", "schedule")
MONTHS = range(1, 13)
RANGE = re.compile(r"([a-z]+) to ([a-z]+)")
YEARLY = re.compile(r"([0-9]{2})-([0-9]{2})")
LEAP_YEAR = 2024

Schedule = list[dict[str, Any]]


@dataclass(frozen=True)
class DayPlan:
    """A day plan: its name, the days of the week (0 is Monday) and the months in which they count, its dates (as
    2026-12-24, or 12-24 for every year), and its schedule, as a scenario has it."""

    name: str
    days: tuple[int, ...]
    months: tuple[int, ...]
    dates: tuple[str, ...]
    schedule: Schedule

    def rank(self, day: datetime.date) -> int:
        """Returns how well a day fits: 3 by its date, 2 by its date of every year, 1 by its day of the week, 0 not at
        all."""
        if day.isoformat() in self.dates:
            return 3
        if f"{day:%m-%d}" in self.dates:
            return 2
        return int(day.weekday() in self.days and day.month in self.months)

    def row(self) -> dict[str, Any]:
        """Returns the plan as a sheet has it."""
        found: dict[str, Any] = {"name": self.name}
        if self.days:
            found["days"] = [WEEKDAYS[it] for it in self.days]
        if self.months != tuple(MONTHS):
            found["months"] = list(self.months)
        if self.dates:
            found["dates"] = [datetime.date.fromisoformat(it) if len(it) > 5 else it for it in self.dates]
        found["schedule"] = [
            {"at": day_time(10 * it["second"]), "section": it["section"], "pattern": command_word(it["pattern"])}
            for it in self.schedule
        ]
        return found


def weekday(word: object) -> int:
    """Returns the number of a day of the week."""
    if word not in WEEKDAYS:
        raise Wrong(f"{word!r} is none of " + ", ".join(WEEKDAYS))
    return WEEKDAYS.index(str(word))


def weekdays(said: object) -> tuple[int, ...]:
    """Returns days of the week: a list of them, one, or `monday to friday`."""
    if isinstance(said, str) and (found := RANGE.fullmatch(said)):
        first, last = weekday(found[1]), weekday(found[2])
        return tuple(sorted((first + at) % 7 for at in range((last - first) % 7 + 1)))
    words = [said] if isinstance(said, str) else said
    if not isinstance(words, list):
        raise Wrong(f'{said!r} is not a list of days, as ["saturday", "sunday"], or "monday to friday"')
    found_days = [weekday(it) for it in words]
    if len(set(found_days)) < len(found_days):
        raise Wrong("a day is said twice")
    return tuple(sorted(found_days))


def months(said: object) -> tuple[int, ...]:
    """Returns a list of months."""
    if not isinstance(said, list) or not said:
        raise Wrong(f"{said!r} is not a list of months, as [9, 10, 11]")
    return tuple(sorted({number(1, 12)(it) for it in said}))


def date(said: object) -> str:
    """Returns a date: 2026-12-24, or a text as "12-24" for that day of every year."""
    if isinstance(said, datetime.datetime) and said.time() == datetime.time():
        said = said.date()
    if isinstance(said, datetime.date) and not isinstance(said, datetime.datetime):
        return said.isoformat()
    try:
        if isinstance(said, str) and (found := YEARLY.fullmatch(said)):
            datetime.date(LEAP_YEAR, int(found[1]), int(found[2]))
            return said
        if isinstance(said, str):
            return datetime.date.fromisoformat(said).isoformat()
    except ValueError:
        pass
    raise Wrong(f'{said!r} is not a date, as 2026-12-24, or "12-24" for every year')


def dates(said: object) -> tuple[str, ...]:
    """Returns a list of dates."""
    if not isinstance(said, list):
        raise Wrong(f"{said!r} is not a list of dates, as [2026-12-24]")
    found = [date(it) for it in said]
    if len(set(found)) < len(found):
        raise Wrong("a date is said twice")
    return tuple(found)


def read(top: Given, schedule_of: Callable[[Given], Schedule | None]) -> list[DayPlan]:
    """Returns the day plans of a sheet. Days with two plans, and days without one, are faults."""
    found = []
    for place, it in top.tables("day_plan"):
        it.allow(NAMES)
        name = it.read("name", one_line, "") or f"day plan {place}"
        it.place = f"day_plan {place} ({name})"
        days, of_dates = it.read("days", weekdays, ()), it.read("dates", dates, ())
        if "days" not in it.table and "dates" not in it.table:
            it.fault("say on which days it holds: days, dates")
        if "schedule" not in it.table:
            it.fault("is missing", "schedule")
        found.append(DayPlan(name, days, it.read("months", months, tuple(MONTHS)), of_dates, schedule_of(it) or []))
    if found and not top.faults:
        for words in (*same_names(found), *clashes(found), *gaps(found)):
            top.fault(words, "day_plan")
    return found


def same_names(plans: list[DayPlan]) -> Iterator[str]:
    """Yields the words for names that several plans have."""
    names = [it.name for it in plans]
    for name in dict.fromkeys(it for it in names if names.count(it) > 1):
        yield f"two day plans are called {name!r}"


def clashes(plans: list[DayPlan]) -> Iterator[str]:
    """Yields the words for days and dates that two plans have."""
    for at, one in enumerate(plans):
        for other in plans[at + 1 :]:
            both = sorted(set(one.months) & set(other.months)) if set(one.days) & set(other.days) else []
            if both:
                names = ", ".join(WEEKDAYS[it] for it in sorted(set(one.days) & set(other.days)))
                yield f"{names}{in_months(both)}: both {one.name!r} and {other.name!r}"
            for it in one.dates:
                if it in other.dates:
                    yield f"{it}: both {one.name!r} and {other.name!r}"


def gaps(plans: list[DayPlan]) -> Iterator[str]:
    """Yields the words for days of the week without a plan."""
    missing: dict[tuple[int, ...], list[str]] = {}
    for day, name in enumerate(WEEKDAYS):
        left = tuple(month for month in MONTHS if not any(day in it.days and month in it.months for it in plans))
        if left:
            missing.setdefault(left, []).append(name)
    names = ", ".join(repr(it.name) for it in plans)
    for left, days in missing.items():
        yield f"{', '.join(days)}{in_months(list(left))}: in none of {names}"


def in_months(found: list[int]) -> str:
    """Returns the words for some months, none for all of them."""
    return "" if len(found) == len(MONTHS) else f" in month{'s'[: len(found) - 1]} {', '.join(map(str, found))}"


def plan_of(plans: list[DayPlan], day: datetime.date) -> DayPlan:
    """Returns the plan of a day: that with its date, else that with its date of every year, else that of its day of the
    week."""
    if not plans:
        raise Fault("the sheet has no [[day_plan]]: its schedule is that of every day")
    return max(plans, key=lambda it: it.rank(day))


def day_of(text: str) -> datetime.date:
    """Returns the day that a word of the command says."""
    try:
        return datetime.date.fromisoformat(text)
    except ValueError:
        raise Fault(f"{text!r} is not a date, as 2026-12-24") from None
