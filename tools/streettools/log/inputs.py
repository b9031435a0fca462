"""What detectors, buttons and preempt inputs report in a log, as inputs of a scenario's cabinets."""

from collections.abc import Iterator
from typing import Any, NamedTuple

import numpy as np

from ..shared import event_codes as codes
from .findings import Findings
from .stretches import where

DETECTORS = {codes.DETECTOR_OFF: False, codes.DETECTOR_ON: True}
PREEMPTS = {codes.PREEMPT_INPUT_OFF: False, codes.PREEMPT_INPUT_ON: True}
INPUT_CODES = (*DETECTORS, *PREEMPTS, codes.PEDESTRIAN_DETECTOR_ON)


class Sensed(NamedTuple):
    """An input at a tick: `kind` is veh, ped or preempt, `number` the phase or the preempt."""

    tick: int
    kind: str
    number: int
    on: bool


class Bank:
    """The detectors of a cabinet: a phase has a vehicle while one of its channels is on. Without a map of channels,
    channel n is that of phase n, as in the logs that `look events` writes."""

    def __init__(self, channels: dict[int, int]) -> None:
        self.channels = channels
        self.on: dict[int, set[int]] = {}

    def phase(self, channel: int) -> int | None:
        """Returns the phase that a channel calls, None if it calls none."""
        if self.channels:
            return self.channels.get(channel)
        return channel if 1 <= channel <= 16 else None

    def take(self, tick: int, channel: int, on: bool) -> Sensed | None:
        """Takes a row of a detector, and returns the change of its phase, if it makes one."""
        phase = self.phase(channel)
        if phase is None:
            return None
        active = self.on.setdefault(phase, set())
        was = bool(active)
        if on:
            active.add(channel)
        else:
            active.discard(channel)
        return Sensed(tick, "veh", phase, on) if was != bool(active) else None


def inputs(rows: Any, bank: Bank, cabinet: int, findings: Findings) -> Iterator[Sensed]:
    """Yields the inputs of a cabinet's rows, which are in the order of time; the bank knows what is on before them."""
    part = rows[np.isin(rows["code"], INPUT_CODES)]
    for tick, code, number in part.tolist():
        if code in DETECTORS:
            if bank.phase(number) is None:
                findings.add("channel", f"channel {number} at {where(tick)}", cabinet)
                continue
            found = bank.take(tick, number, DETECTORS[code])
            if found:
                yield found
        elif code in PREEMPTS:
            yield Sensed(tick, "preempt", number, PREEMPTS[code])
        elif 1 <= number <= 16:
            yield Sensed(tick, "ped", number, True)
        else:
            findings.add("channel", f"button {number} at {where(tick)}", cabinet)
