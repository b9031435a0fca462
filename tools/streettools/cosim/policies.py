"""A policy in Python that drives the cabinets of a run, step by step: it sees what they show and who waits, and
commands patterns, calls phases, presses buttons and calls preempts, as a session takes them.

docs/COSIM.md, "A policy in Python", has an example.
"""

import pathlib
import traceback
from collections.abc import Callable, Iterable
from typing import Any, NamedTuple

from ..cabinet.messages import SET, message
from ..shared.fault import Fault
from ..shared.oids import CONTROL
from ..shared.status import Status

STEP = "step"
"""The function that a policy's file has."""
PHASES, PREEMPTS, PATTERNS = 16, 8, 255
Waiting = Callable[[int, str], int]
"""Returns how many vehicles wait at a movement of a cabinet."""


class Shown(NamedTuple):
    """What a cabinet shows: the colours of its phases (G, Y, C, R), their walks (W, F, D), and its mode, as an F line
    has them."""

    colours: str
    walks: str
    mode: str


class Street:
    """What a policy is given at each step: `second` is the time since the beginning of the run; the methods tell what
    the cabinets show and who waits, and act."""

    def __init__(self, cabinets: int, waiting: Waiting, community: str = "public") -> None:
        self.second = 0.0
        self.cabinets = range(1, cabinets + 1)
        self.waiting = waiting
        self.shown: dict[int, Shown] = {}
        self.community = community.encode()
        self.sent: list[bytes] = []
        self.on: set[bytes] = set()
        """The detectors that are on, as `veh` requests name them."""
        self.serial = 0

    def green(self, cabinet: int) -> list[int]:
        """Returns the phases of a cabinet that are green."""
        return [phase for phase, letter in enumerate(self.shown[cabinet].colours, 1) if letter == "G"]

    def walk(self, cabinet: int) -> list[int]:
        """Returns the phases of a cabinet that show walk."""
        return [phase for phase, letter in enumerate(self.shown[cabinet].walks, 1) if letter == "W"]

    def mode(self, cabinet: int) -> str:
        """Returns the mode of a cabinet: C and a pattern, F (free), .. as in a trace."""
        return self.shown[cabinet].mode

    def pattern(self, cabinet: int, number: int) -> None:
        """Commands a pattern, by a Set of systemPatternControl: 1 to 48, 254 free, 255 flash, 0 the cabinet's own."""
        self.within(cabinet, number, 0, PATTERNS, "pattern")
        self.serial += 1
        octets = message(SET, self.serial, [(CONTROL, number)], self.community)
        self.sent.append(b"frame %d poll %b" % (cabinet, octets.hex().encode()))

    def call(self, cabinet: int, phase: int) -> None:
        """Calls a phase for a vehicle, as a detector does that somebody drives over; nothing if its detector is on."""
        self.within(cabinet, phase, 1, PHASES, "phase")
        if b"%d %d" % (cabinet, phase) not in self.on:
            self.sent += (b"veh %d %d on" % (cabinet, phase), b"veh %d %d off" % (cabinet, phase))

    def press(self, cabinet: int, phase: int) -> None:
        """Presses the push button of a phase."""
        self.within(cabinet, phase, 1, PHASES, "phase")
        self.sent.append(b"ped %d %d" % (cabinet, phase))

    def preempt(self, cabinet: int, number: int, on: bool = True) -> None:
        """Turns the input of a preempt on or off."""
        self.within(cabinet, number, 1, PREEMPTS, "preempt")
        self.sent.append(b"preempt %d %d %b" % (cabinet, number, b"on" if on else b"off"))

    def within(self, cabinet: int, number: int, least: int, most: int, what: str) -> None:
        """Refuses what a session doesn't take."""
        if cabinet not in self.cabinets:
            raise ValueError(f"there is no cabinet {cabinet}")
        if not isinstance(number, int) or not least <= number <= most:
            raise ValueError(f"{what} {number} is not {least} to {most}")

    def heard(self, lines: Iterable[bytes]) -> None:
        """Takes what cabinets show."""
        for line in lines:
            if line[:2] == b"F ":
                _, cabinet, _, colours, walks, mode, _ = line.decode("ascii").split(" ", 6)
                self.shown[int(cabinet)] = Shown(colours, walks, mode)


class Policy:
    """A policy's file, and its street."""

    def __init__(self, path: pathlib.Path, street: Street) -> None:
        self.path, self.street = path, street
        names: dict[str, Any] = {"__name__": path.stem, "__file__": str(path)}
        try:
            text = path.read_bytes()
        except OSError as fault:
            raise Fault(f"{path}: {fault.strerror}", Status.FILE) from None
        self.guarded(lambda: exec(compile(text, str(path), "exec"), names))
        if not callable(names.get(STEP)):
            raise Fault(f"{path}: has no function {STEP}(street)")
        self.step: Callable[[Street], object] = names[STEP]

    def guarded(self, does: Callable[[], object]) -> None:
        """Does something of the policy; what it raises is a fault with its line."""
        try:
            does()
        except Exception as fault:
            places = [it.lineno for it in traceback.extract_tb(fault.__traceback__) if it.filename == str(self.path)]
            line = getattr(fault, "lineno", None) if isinstance(fault, SyntaxError) else places[-1] if places else None
            where = f"line {line}: " if line else ""
            raise Fault(f"{self.path}: {where}{type(fault).__name__}: {fault}") from None

    def heard(self, lines: Iterable[bytes]) -> None:
        """Takes what cabinets show."""
        self.street.heard(lines)

    def requests(self, second: float, before: list[bytes]) -> list[bytes]:
        """Returns what the policy asks of the cabinets at a second, after other requests of the same step."""
        street = self.street
        for line in before:
            word, _, rest = line.partition(b" ")
            if word == b"veh":
                place, _, state = rest.rpartition(b" ")
                (street.on.add if state == b"on" else street.on.discard)(place)
        street.second, street.sent = second, []
        self.guarded(lambda: self.step(street))
        return street.sent
