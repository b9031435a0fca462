"""The pattern that the master's schedule has for a section.

docs/SCENARIO.md, "The master"; docs/DEFINITIONS.md, "Master and line".
"""

from model.scenario import Entry, Scenario
from model.words import DAY


def master_clock(scenario: Scenario, number: int) -> int:
    """Returns the master's clock in a round."""
    return (scenario.master.clock + (number - 1) * scenario.ticks) % DAY


def scheduled(schedule: list[Entry], section: int, clock: int) -> int | None:
    """Returns the pattern of the section's latest entry that isn't after the clock, of equal seconds the later in the
    list; before the first entry of the day, that of the last one of the day; None if the section has none."""
    own = [entry for entry in schedule if entry.section == section]
    come = [entry for entry in own if 10 * entry.second <= clock] or own
    if not come:
        return None
    latest = max(entry.second for entry in come)
    return [entry for entry in come if entry.second == latest][-1].pattern
