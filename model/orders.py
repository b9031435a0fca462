"""The pattern in command, the clock, and the target of a pattern's counter, which follows from it.

docs/DEFINITIONS.md, "A tick: command, clock and mode": `command_now`, `is_backed_up`, `clock_now`, `rise_at`,
`target_at`; docs/SCENARIO.md, `gain` and `lose`.
"""

from dataclasses import dataclass

from model.past import Past
from model.plan import plan
from model.words import DAY, Kind, Mode

BACKUP_TIME = 5
"""The column of the unit that holds the backup time, in seconds."""


@dataclass(frozen=True)
class Drift:
    """At each multiple of this number of ticks a clock advances by one tick more, or stops for one; 0 is never."""

    gain: int = 0
    lose: int = 0


def command_now(past: Past) -> tuple[int, int]:
    """Returns the pattern in command at the coming tick, and the number of the tick after which it was commanded. The
    pattern is 0 once the backup time in force has passed since then, until another one is commanded."""
    last, number = past.last, past.last.number + 1
    command, commanded = (
        (last.command, last.commanded) if past.told.command is None else (past.told.command, last.number)
    )
    backup = 10 * past.tables.unit(BACKUP_TIME)
    return (0 if backup and number - commanded >= backup else command), commanded


def clock_now(past: Past, drift: Drift) -> int:
    """Returns the clock at the coming tick: one later than it was or was set to, except for the drift."""
    number = past.last.number + 1
    rise = 1
    if drift.gain and number % drift.gain == 0:
        rise = 2
    if drift.lose and number % drift.lose == 0:
        rise = 0
    before = past.last.clock if past.told.clock is None else past.told.clock
    return (before + rise) % DAY


def target(past: Past, mode: Mode, clock: int) -> int:
    """Returns the target of the counter: the time since the pattern's offset, modulo the cycle."""
    if mode.kind not in (Kind.SEEK, Kind.COORD):
        return 0
    laid = plan(past.tables, mode.number)
    return (clock - laid.offset + laid.shift) % laid.cycle
