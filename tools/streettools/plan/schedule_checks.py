"""Schedules and clocks that do something else than what their author means: patterns that aren't defined, sections
without entries, times of day in the wrong form, clocks that aren't set."""

from collections.abc import Iterator
from typing import NamedTuple

from ..shared.cells import PATTERNS, value
from ..shared.clock import day_text, looks_like_a_clock
from ..shared.tables import Tables
from .findings import Finding, Rank, warn
from .reading import Street
from .rules import broken
from .sentences import many

WORDS = {254: "free operation", 255: "flash"}


class Entry(NamedTuple):
    """An entry of the schedule: the second of the day, the section, the pattern, and its place in the list."""

    second: int
    section: int
    pattern: int
    place: int


def listed(street: Street) -> list[Entry]:
    """Returns the entries in the order of the list."""
    schedule = street.scenario.get("master", {}).get("schedule", ())
    return [Entry(it["second"], it["section"], it["pattern"], at) for at, it in enumerate(schedule)]


def entries_of(street: Street) -> list[Entry]:
    """Returns the entries in the order of the day; of those of one section and second only the last, which counts."""
    latest = {(it.section, it.second): it for it in listed(street)}
    return sorted(latest.values())


def is_plan(pattern: int) -> bool:
    """Tells whether a number commands a plan: neither free operation by its own number (0, 254) nor flash (255)."""
    return pattern not in (0, 254, 255)


def undefined(tables: Tables, pattern: int) -> bool:
    """Tells whether a command names a pattern that isn't defined, so that the cabinet runs free."""
    return is_plan(pattern) and (pattern not in PATTERNS or pattern not in tables.patterns())


def loaded(street: Street, tables: list[Tables]) -> dict[int, list[Tables]]:
    """Returns the tables that the downloads of each cabinet bring, of those that keep the rules, in order."""
    found: dict[int, list[Tables]] = {}
    for load in street.scenario.get("loads", ()):
        line = found.setdefault(load["cabinet"], [])
        before = line[-1] if line else tables[load["cabinet"] - 1]
        new = before.copy()
        new.put(load["cells"])
        if not broken(new, before):
            line.append(new)
    return found


def called(pattern: int) -> str:
    """Returns a pattern in command in words."""
    return WORDS.get(pattern, f"pattern {pattern}" if pattern else "free operation")


def kept(line: list[Entry], at: int, versions: list[Tables], opening: int) -> str:
    """Returns the pattern that a cabinet runs instead of one that it refuses: the last one before, over midnight if
    need be, that it accepts; else the one with which it opens. `line` has the entries of its section in the order of
    the day."""
    for back in range(1, len(line)):
        entry = line[at - back]
        if not all(undefined(it, entry.pattern) for it in versions):
            backup = value(versions[0], ("unit", 5))
            until = f", until backup_time ({backup} s) is over, then in free operation" if backup else ""
            return f"{called(entry.pattern)}, commanded at {day_text(entry.second)}{until}"
    return called(0 if undefined(versions[0], opening) else opening)


def refused(street: Street, tables: list[Tables]) -> Iterator[Finding]:
    """Yields the entries whose pattern isn't defined, with what the cabinets run instead; cabinets that do the same are
    in one line."""
    later, names = loaded(street, tables), street.names
    told: dict[tuple[int, str, str], list[int]] = {}
    for number, cabinet in enumerate(street.scenario["cabinets"], 1):
        line = [it for it in entries_of(street) if it.section == cabinet.get("section", 1)]
        versions = [tables[number - 1], *later.get(number, ())]
        for at, entry in enumerate(line):
            if all(undefined(it, entry.pattern) for it in versions):
                instead = kept(line, at, versions, cabinet.get("pattern", 0))
                told.setdefault((entry.pattern, day_text(entry.second), instead), []).append(number)
    for (pattern, time, instead), numbers in told.items():
        who = "each cabinet" if len(numbers) > 1 else "the cabinet"
        words = f"the schedule commands pattern {pattern} at {time}, which isn't defined"
        yield warn(many(map(names.called, numbers)), f"{words}: {who} refuses the command and stays in {instead}")


def of_openings(street: Street, tables: list[Tables]) -> Iterator[Finding]:
    """Yields the cabinets that open with a pattern that isn't defined."""
    for number, cabinet in enumerate(street.scenario["cabinets"], 1):
        if undefined(tables[number - 1], cabinet.get("pattern", 0)):
            words = f"it opens with pattern {cabinet['pattern']}, which isn't defined: it runs free"
            yield warn(street.names.called(number), words)


def of_sections(street: Street) -> Iterator[Finding]:
    """Yields sections that have entries but no intersection, and intersections whose section has no entry."""
    names, cabinets = street.names, street.scenario["cabinets"]
    commanded = {it.section for it in listed(street)}
    sections = [it.get("section", 1) for it in cabinets]
    for section in sorted(commanded - set(sections)):
        yield warn("schedule", f"section {section} has entries, but no intersection is of that section")
    for section in sorted(set(sections) - commanded) if commanded else ():
        numbers = [number for number, it in enumerate(sections, 1) if it == section]
        yield warn(many(map(names.called, numbers)), (
            f"the schedule has no entry for section {section}, so the master commands no pattern here: write "
            f"section = {section} in an entry, or another section at the intersection"
        ))  # fmt: skip


def meant(second: int) -> int:
    """Returns the second of the day that a number means which is hours and minutes."""
    return 3600 * (second // 100) + 60 * (second % 100)


def is_doubtful(street: Street, entry: Entry, line: list[Entry]) -> bool:
    """Tells whether the second of an entry was probably meant as hours and minutes: in a sheet if it was written as a
    number; else if all are so, or if all others are later in the day and it isn't a whole minute, or in order only as
    hours and minutes."""
    if not looks_like_a_clock(entry.second):
        return False
    if street.numbers is not None:
        return entry.place in street.numbers
    if all(it.second < 2400 and it.second % 100 < 60 for it in line):
        return True
    if any(0 < it.second < 2400 and not looks_like_a_clock(it.second) for it in line):
        return False
    if entry.second % 60:
        return True
    before = [it.second for it in line if it.place < entry.place and it.section == entry.section]
    return bool(before) and entry.second < before[-1] < meant(entry.second)


def of_times(street: Street) -> Iterator[Finding]:
    """Yields seconds of the day that look like hours and minutes."""
    line = listed(street)
    for second in dict.fromkeys(it.second for it in line if is_doubtful(street, it, line)):
        words = f"second {second} of the day is {second // 3600}:{second // 60 % 60:02}:{second % 60:02}"
        asked = f'is {second // 100}:{second % 100:02} meant? That is second {meant(second)}, or "{meant_text(second)}"'
        yield warn("schedule", f"{words}; {asked}")


def meant_text(second: int) -> str:
    """Returns the time of day that a number means which is hours and minutes, as a sheet has it."""
    return f"{second // 100:02}:{second % 100:02}"


def of_order(street: Street) -> Iterator[Finding]:
    """Yields entries out of the order of the day, and two at the same time for one section."""
    last: dict[int, Entry] = {}
    seen: dict[tuple[int, int], Entry] = {}
    for entry in listed(street):
        before = last.get(entry.section)
        twice = seen.get((entry.section, entry.second))
        at = day_text(entry.second)
        if twice is not None and twice.pattern != entry.pattern:
            words = f"section {entry.section} has {called(twice.pattern)} and {called(entry.pattern)} at {at}"
            yield warn("schedule", f"{words}: the later in the list counts; take the other out")
        elif before is not None and entry.second < before.second:
            words = f"{at} is listed after {day_text(before.second)}: the time of day counts, not the order of the list"
            yield warn("schedule", f"{words}; is the time right?", Rank.LOOK)
        last[entry.section] = seen[entry.section, entry.second] = entry


def of_clocks(street: Street) -> Iterator[Finding]:
    """Yields clocks that are missing: those of cabinets next to a master's clock, and the master's next to theirs."""
    cabinets, master = street.scenario["cabinets"], street.scenario.get("master", {})
    without = [number for number, it in enumerate(cabinets, 1) if "clock" not in it]
    if master.get("clock") and without:
        every = master.get("clock_every", 0)
        minutes = every * street.scenario["ticks"] / 600
        until = f"until the master sets them, after {minutes:g} min" if every else "and are never set (clock_every)"
        words = f"the master's clock starts at {day_text(master['clock'] / 10)}, but there is no `clock` here"
        yield warn(many(map(street.names.called, without)), f"{words}: cabinets start at 00:00:00 {until}")
    if listed(street) and "clock" not in master and len(without) < len(cabinets):
        first = next(it["clock"] for it in cabinets if "clock" in it)
        yield warn("master", (
            f"it has a schedule and no `clock`, so its day starts at 00:00:00 while cabinets start at "
            f"{day_text(first / 10)}: write the same time"
        ))  # fmt: skip


def all_of(street: Street, tables: list[Tables]) -> Iterator[Finding]:
    """Yields the doubts about schedule and clocks."""
    yield from of_openings(street, tables)
    yield from refused(street, tables)
    yield from of_sections(street)
    yield from of_entries(street)
    yield from of_clocks(street)


def of_entries(street: Street) -> Iterator[Finding]:
    """Yields the doubts about the times of the schedule, which need no tables."""
    yield from of_times(street)
    yield from of_order(street)
