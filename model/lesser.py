"""What the stage of a preempt leaves of the times of a phase outside its goal, and when a phase has been served.

docs/DEFINITIONS.md: `Lesser`, `lesser_in`, `is_cleared`, `is_served`, `signal_runs_within`. Yellow and red clearance
are never cut.
"""

from model.past import Past, stage_of
from model.preempts import Preempt, preempt
from model.tables import rows
from model.words import Mode, Signal


def hurry(past: Past, mode: Mode, goal: frozenset[int] | None, p: int) -> Preempt | None:
    """Returns the row of the preempt for which a phase makes way, None if it has its full times."""
    number = stage_of(mode)
    return preempt(past.tables, number) if number and p not in (goal or ()) else None


def signal_next(past: Past, p: int, row: Preempt | None) -> Signal:
    """Returns the signal that follows if none begins: Walk, then flashing for the clearance, then none. If the
    clearance has no time, the flashing is left out."""
    shown = past.last.frame.signals.of[p]
    if shown is Signal.DONT:
        return shown
    run, began = past.signal_run(p), rows(past.signal_latched(p))[p]
    clear_now = rows(past.tables)[p].ped_clear
    if shown is Signal.WALK:
        time = began.walk if row is None else max(1, min(began.walk, row.least_walk))
        if run < time:
            return shown
        left = clear_now if row is None else min(clear_now, row.enter_clear)
        return Signal.FLASH if left else Signal.DONT
    time = began.ped_clear if row is None else min(began.ped_clear, row.enter_clear)
    return shown if run < time else Signal.DONT


def has_least_green(past: Past, p: int, row: Preempt | None) -> bool:
    """Tells whether a Green phase has had its minimum green."""
    least = rows(past.latched(p))[p].least_green
    if row is not None:
        least = max(1, min(least, row.least_green))
    return past.run(p) >= least


def is_served(past: Past, p: int, row: Preempt | None) -> bool:
    """Tells whether a Green phase has had its minimum green, and its walk or pedestrian clearance isn't running."""
    return has_least_green(past, p, row) and signal_next(past, p, row) is Signal.DONT
