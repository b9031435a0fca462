"""The widest progression bands of a plan, as `arterial band` writes them, and their ticks in a trace.

A time of the cycle is the cabinets' clock modulo the cycle. The clock follows from the target of a frame, which is the
clock less the offset; if offsets refer to the end of green, the window is added.
"""

from typing import NamedTuple

from streettools.shared.bands import read_bands
from streettools.shared.fault import Fault


class NoBands(Fault):
    """A text isn't what `arterial band` writes, or not for this street."""


class Beat(NamedTuple):
    """A cycle in terms of the ticks of a trace: its length, and the time of the cycle at tick 0."""

    cycle: int
    ahead: int


def read(path):
    """Returns the bands that a file holds, outbound and inbound, each None if there is none."""
    with open(path, encoding="ascii", errors="replace") as file:
        found = read_bands(file.read(1000))
    if found is None:
        raise NoBands(f"{path}: not the two lines that `arterial band` writes")
    return found


def beat(plan, frame):
    """Returns how the cycle of a plan runs, by the target of a frame of its pattern."""
    return Beat(plan.cycle, (frame.target + plan.offset - plan.shift - frame.tick) % plan.cycle)


def spans(band, beat, start, end):
    """Returns the ticks at which a vehicle may start in the band, cycle by cycle, that reach into those from start to
    end."""
    if band.start >= beat.cycle or band.width >= beat.cycle:
        raise NoBands(
            f"a band of {band.width / 10:g} s from {band.start / 10:g} s on doesn't fit a cycle of {beat.cycle / 10:g}"
            " s"
        )
    first = (band.start - beat.ahead) % beat.cycle
    turns = range(-((first + band.width - start) // beat.cycle), (end - first) // beat.cycle + 1)
    shown = [(first + turn * beat.cycle, first + turn * beat.cycle + band.width) for turn in turns]
    return [(low, high) for low, high in shown if low < end and high > start]
