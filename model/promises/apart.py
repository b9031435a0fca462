"""No street ever shows two conflicting phases, and a phase that isn't in use stays dark. Colours and signals follow
in order."""

from collections.abc import Iterator

from model.preempts import preempt
from model.promises.told import Interval, Street, intervals, served_preempt
from model.sides import concurrent
from model.tables import enabled, rows

FOLLOWS = {"R": "G", "G": "Y", "Y": "CR", "C": "R"}


def conflicts(street: Street) -> Iterator[str]:
    """Tells of frames in which two incompatible phases are on, or walk, together, and of phases that aren't in use
    and aren't dark."""
    for seen in street.seen:
        tables = street.tables(seen)
        used, beside = enabled(tables), concurrent(tables)
        for word, text, dark in (("on", seen.colours, "R"), ("walking", seen.signals, "D")):
            lit = [p for p in range(1, 17) if text[p - 1] != dark]
            for p in lit:
                if p not in used:
                    yield f"tick {seen.tick}: phase {p} is {word} and not in use"
                for q in lit:
                    if p < q and q not in beside[p]:
                        yield f"tick {seen.tick}: phases {p} and {q} are {word} together"


def wrong_colours(street: Street) -> Iterator[str]:
    """Tells of colours that follow in another order; red clearance is left out exactly where it has no time as
    yellow ends."""
    for it in intervals(street, of_signals=False):
        if it.end is None:
            continue
        if it.after not in FOLLOWS[it.shows]:
            yield f"tick {it.end.tick}: phase {it.phase} goes from {it.shows} to {it.after}"
        if it.shows == "Y" and (it.after == "R") != (rows(street.tables(it.end))[it.phase].red_clear == 0):
            yield f"tick {it.end.tick}: phase {it.phase} goes from yellow to {it.after} against its red clearance"


def clearance_left(street: Street, it: Interval) -> bool:
    """Tells whether there is a pedestrian clearance to show as a walk ends."""
    time = rows(street.tables(it.end))[it.phase].ped_clear
    number = served_preempt(street, it)
    return min(time, preempt(street.tables(it.end), number).enter_clear) > 0 if number else time > 0


def wrong_signals(street: Street) -> Iterator[str]:
    """Tells of signals that follow in another order, and of signals on a phase that isn't green."""
    for it in intervals(street, of_signals=True):
        if it.end is None:
            continue
        due = {"D": "W", "F": "D"}.get(it.shows) or ("F" if clearance_left(street, it) else "D")
        if it.after != due:
            yield f"tick {it.end.tick}: phase {it.phase} goes from signal {it.shows} to {it.after}, {due} is due"
    for seen in street.seen:
        for p in range(1, 17):
            if seen.signals[p - 1] != "D" and seen.colours[p - 1] != "G":
                yield f"tick {seen.tick}: phase {p} shows signal {seen.signals[p - 1]} and isn't green"


def apart(street: Street) -> Iterator[str]:
    """Tells what a street shows against this promise."""
    yield from conflicts(street)
    yield from wrong_colours(street)
    yield from wrong_signals(street)
