"""How long a change of plan takes: in how many cycles, and within what time, coordination that is left undisturbed
comes onto its offset by the promise of docs/GUARANTEES.md; and what other limits would make of it.

The cycles are those of `look report`; the time is that of docs/DEFINITIONS.md, "What coordination promises, left
undisturbed"."""

from collections.abc import Iterator
from dataclasses import dataclass
from functools import lru_cache
from typing import Any

from ..shared.cells import UNIT, Numbers, value
from ..shared.clock import DAY_SECONDS, day_text
from ..shared.plans import Correction, correction, cycles_needed
from ..shared.tables import Tables
from .findings import Finding, Rank, note, warn
from .layout import Layout, crossing_time, least_green, least_service
from .reading import Street
from .schedule_checks import Entry, entries_of, is_plan
from .sentences import many, seconds

DWELL, SHORTWAY, ADD = 2, 3, 4
WORDS = {DWELL: "dwell", SHORTWAY: "shortway", ADD: "add only"}
LIMITS = {DWELL: ("dwell_limit",), SHORTWAY: ("add_limit", "skip_limit"), ADD: ("add_limit",)}
"""The limits that count in each mode of correction."""

FIELDS = {"dwell_limit": "dwell", "add_limit": "add", "skip_limit": "skip"}
COLUMNS = {"dwell_limit": 2, "add_limit": 3, "skip_limit": 4}


@lru_cache(4096)
def most_cycles(by: Correction, cycle: int, drifts: bool) -> int:
    """Returns in how many cycles the offset is met at most, from any target; the cycle in ticks."""
    return max(cycles_needed(by, cycle, target, drifts) for target in range(cycle))


def pickup_bound(tables: Tables) -> int:
    """Returns within how many ticks a pattern that is sought is picked up (`pickup_bound`)."""
    used = tables.enabled()
    service = max(max(least_green(tables, it), crossing_time(tables, it)) for it in used)
    revert = max(value(tables, ("phase", it, 10)) for it in used)
    return int(2 * max(map(tables.clearance, used)) + service + revert + 4)


def longest_cycle(by: Correction, cycle: int) -> int:
    """Returns the longest that a cycle lasts with all the correction that one may have (`longest_cycle`)."""
    return cycle + {DWELL: by.dwell, ADD: by.add}.get(by.mode, max(by.add, by.skip))


@dataclass(frozen=True)
class Change:
    """A change to a pattern at a cabinet: how offsets are corrected, cycle and time of the pickup in ticks, and whether
    the clock drifts."""

    by: Correction
    cycle: int
    pickup: int
    drifts: bool

    @property
    def cycles(self) -> int:
        """How many cycles it takes at most."""
        return most_cycles(self.by, self.cycle, self.drifts)

    @property
    def ticks(self) -> int:
        """Within how many ticks the offset is met (`offset_bound`)."""
        longest = longest_cycle(self.by, self.cycle)
        return max(self.pickup, longest) + self.cycles * longest

    @property
    def words(self) -> str:
        """Cycles and minutes."""
        return f"{self.cycles} cycle{'s' * (self.cycles != 1)} ({-(-self.ticks // 600)} min)"

    def limited(self, name: str, limit: int) -> "Change":
        """Returns the change with another limit, in ticks."""
        return Change(self.by._replace(**{FIELDS[name]: limit}), self.cycle, self.pickup, self.drifts)


def change_to(tables: Tables, pattern: int, cabinet: dict[str, Any]) -> Change | None:
    """Returns the change to a pattern of tables that keep the rules; None where nothing is promised, since the clock
    gains and the correction isn't shortway."""
    by = correction(tables)
    if cabinet.get("gain") and by.mode != SHORTWAY:
        return None
    drifts = bool(cabinet.get("gain") or cabinet.get("lose"))
    return Change(by, 10 * tables.pattern(pattern, 2), pickup_bound(tables), drifts)


def greatest_limits(tables: Tables) -> dict[str, int]:
    """Returns the greatest limit of each kind, in ticks, with which all patterns of tables keep rule 19, the other
    limits as they are."""
    kind = UNIT[COLUMNS["add_limit"]]
    most = kind.most if isinstance(kind, Numbers) else 0
    found = {"dwell_limit": most, "add_limit": most, "skip_limit": most}
    for pattern in tables.patterns():
        laid = Layout(tables, pattern)
        service = max(least_service(tables, phase) for phase in laid.coordinated)
        found["add_limit"] = min(found["add_limit"], laid.window)
        found["skip_limit"] = min(found["skip_limit"], laid.window // 2, laid.window - service)
    return found


def other_limits(tables: Tables, change: Change) -> list[str]:
    """Returns what the greatest limits that the rules allow would make of a change, where that takes fewer cycles."""
    greatest, told = greatest_limits(tables), []
    for name in LIMITS[change.by.mode]:
        limit = min(greatest[name], change.cycle)
        other = change.limited(name, limit)
        if limit > getattr(change.by, FIELDS[name]) and other.cycles < change.cycles:
            told.append(f"{name} = {limit / 10:g}, {other.words}")
    if change.by.mode != SHORTWAY:
        other = Change(change.by._replace(mode=SHORTWAY), change.cycle, change.pickup, change.drifts)
        if other.cycles < change.cycles:
            told.append(f'correction = "shortway", {other.words}')
    return told


def limit_words(by: Correction) -> str:
    """Returns how offsets are corrected."""
    limits = [f"{name} {seconds(getattr(by, FIELDS[name]))}" for name in LIMITS[by.mode]]
    return ", ".join((WORDS[by.mode], *limits))


Changes = dict[int, Change]


def changes_to(street: Street, tables: list[Tables], pattern: int) -> Changes:
    """Returns the change to a pattern at each cabinet that has it, by its number."""
    found = {}
    for number, it in enumerate(tables, 1):
        if pattern in it.patterns():
            change = change_to(it, pattern, street.scenario["cabinets"][number - 1])
            if change is not None:
                found[number] = change
    return found


def of_patterns(street: Street, tables: list[Tables]) -> Iterator[Finding]:
    """Yields for each pattern how long a change to it takes where that is longest, and what other limits make of it."""
    for pattern in sorted({it for each in tables for it in each.patterns()}):
        changes = changes_to(street, tables, pattern)
        if not changes:
            continue
        worst = max(changes, key=lambda number: changes[number].ticks)
        like = [street.names.called(number) for number, it in changes.items() if it == changes[worst]]
        others = other_limits(tables[worst - 1], changes[worst])
        words = (
            f"a change to pattern {pattern} takes up to {changes[worst].words} to come onto its offset "
            f"({limit_words(changes[worst].by)})"
        )
        yield note(many(like), words + (f"; the rules also allow {'; '.join(others)}" if others else ""))


def of_drifts(street: Street, tables: list[Tables]) -> Iterator[Finding]:
    """Yields the cabinets for which no time is promised."""
    for number, (it, cabinet) in enumerate(zip(tables, street.scenario["cabinets"], strict=True), 1):
        if it.patterns() and cabinet.get("gain") and correction(it).mode != SHORTWAY:
            yield note(street.names.called(number), (
                "no time is promised in which it comes onto its offset: its clock gains, and only the correction "
                '"shortway" follows that'
            ))  # fmt: skip


def of_entry(street: Street, tables: list[Tables], line: list[Entry], at: int) -> Iterator[Finding]:
    """Yields by when a change of the schedule is done at all cabinets of its section, and whether the next change comes
    sooner. `line` has the entries of the section in the order of the day."""
    entry, after = line[at], line[(at + 1) % len(line)]
    cabinets = street.scenario["cabinets"]
    changes = {
        number: it
        for number, it in changes_to(street, tables, entry.pattern).items()
        if cabinets[number - 1].get("section", 1) == entry.section
    }
    if not changes or line[at - 1].pattern == entry.pattern and len(line) > 1:
        return
    worst = max(changes, key=lambda number: changes[number].ticks)
    last = street.names.called(worst)
    needed = changes[worst].ticks / 10
    head = f"at {day_text(entry.second)} pattern {entry.pattern}"
    done = f"left undisturbed, every intersection is on its offset by {day_text(entry.second + needed)} at the latest"
    yield note("schedule", f"{head}: {done}; {longest(street, changes)}")
    left = (after.second - entry.second) % DAY_SECONDS
    if len(line) > 1 and left < needed:
        words = f"{head} may not come onto its offset at {last} before the next change, {left // 60} min later"
        yield warn("schedule", f"{words}: it takes up to {changes[worst].words}", Rank.LOOK)


def longest(street: Street, changes: Changes) -> str:
    """Returns which cabinets take longest for a change, if not all take as long, and how many cycles that is."""
    worst = max(changes.values(), key=lambda it: it.ticks)
    slow = [number for number, it in changes.items() if it.ticks == worst.ticks]
    if len(slow) == len(changes):
        return f"{'each' if len(slow) > 1 else 'that'} takes {worst.cycles} cycles"
    return f"{many(map(street.names.called, slow))} take{'s' * (len(slow) == 1)} longest, {worst.cycles} cycles"


def of_schedule(street: Street, tables: list[Tables]) -> Iterator[Finding]:
    """Yields for each change of the schedule by when it is done."""
    for section in range(1, 9):
        line = [it for it in entries_of(street) if it.section == section]
        for at, entry in enumerate(line):
            if is_plan(entry.pattern):
                yield from of_entry(street, tables, line, at)


def all_of(street: Street, tables: list[Tables]) -> Iterator[Finding]:
    """Yields how long changes of plan take on a street whose tables keep the rules."""
    yield from of_patterns(street, tables)
    yield from of_schedule(street, tables)
    yield from of_drifts(street, tables)
