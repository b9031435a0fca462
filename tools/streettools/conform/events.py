"""What a device itself reports of its display, by traps or in a log, in addition to the polls.

`Events` is the interface. A maker's class in a file has it, and is named as `--events log.py:Log`; it is made without
arguments. The reported display is judged to the tick, while a poll may miss a short interval.
"""

from collections.abc import Iterable
from typing import Any, Protocol

from ..shared.fault import Fault
from .channels import own
from .objects import Display
from .watching import Sample, Span

HAS = ("changes", "close")
COLOURS, SIGNALS = frozenset("GYCR"), frozenset("WFD")
COUNTS = (8, 16)
"""How many phases a display may have."""
MOST = 100_000
"""How many changes of a test are taken."""


class Events(Protocol):
    """What a device reports of its display."""

    def changes(self) -> Iterable[tuple[int, str, str]]:
        """Returns the changes of the display since the last call, in order: the device's sysUpTime in hundredths of a
        second, and the letters of its phases from 1 on as in an F line: colours G, Y, C, R and signals W, F, D."""

    def close(self) -> None:
        """Ends the reports."""


def opened(given: str) -> Events:
    """Returns the events that a word names: `FILE.py:CLASS`."""
    path, _, name = given.rpartition(":")
    if not path.endswith(".py") or not name.isidentifier():
        raise Fault(f"--events {given}: expected FILE.py:CLASS")
    found: Events = own(path, name, HAS)
    return found


def is_change(it: Any) -> bool:
    """Tells whether something is a change of a display."""
    if not isinstance(it, tuple) or len(it) != 3 or not isinstance(it[0], int) or isinstance(it[0], bool) or it[0] < 0:
        return False
    _, colours, signals = it
    if not isinstance(colours, str) or not isinstance(signals, str) or len(colours) not in COUNTS:
        return False
    return len(colours) == len(signals) and COLOURS >= set(colours) and SIGNALS >= set(signals)


def reported(source: Events) -> list[tuple[int, str, str]]:
    """Returns the changes since the last call; raises Fault if the maker's class fails, or returns something else."""
    found: list[tuple[int, str, str]] = []
    try:
        for it in source.changes():
            if not is_change(it) or found and it[0] < found[-1][0] or len(found) == MOST:
                raise Fault(f"--events: {it!r} is not a change that can follow (time in hundredths, colours, signals)")
            found.append(it)
    except Fault:
        raise
    except Exception as fault:
        raise Fault(f"--events: {type(fault).__name__}: {fault}") from None
    return found


def samples(source: Events, start: int) -> list[Sample]:
    """Returns the changes since the last call that came at or after a sysUpTime, with their ticks from it on. Of two
    changes at one tick the later one counts."""
    found: dict[int, Sample] = {}
    for stamp, colours, signals in reported(source):
        if stamp >= start:
            tick = (stamp - start) // 10
            found[tick] = Sample(Span(tick, tick), Display(colours, signals))
    return list(found.values())
