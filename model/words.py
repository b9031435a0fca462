"""The words of a street: colours, signals, modes and what a cabinet shows at a tick.

docs/TRACE.md, "F lines"; docs/DEFINITIONS.md, "The street's words".
"""

from dataclasses import dataclass
from enum import Enum

PHASES = range(1, 17)
RINGS = (1, 2)
DAY = 864_000
"""Ticks of 0.1 s in a day."""


class Colour(Enum):
    """What a phase shows to vehicles."""

    GREEN = "G"
    YELLOW = "Y"
    CLEAR = "C"
    RED = "R"


class Signal(Enum):
    """What a phase shows to pedestrians."""

    WALK = "W"
    FLASH = "F"
    DONT = "D"


class Kind(Enum):
    """The kinds of modes, in the order of their codes from 1 on."""

    START = "S"
    FREE = "F"
    SEEK = "K"
    COORD = "C"
    ENDING = "E"
    FLASH = "X"
    ENTRY = "e"
    TRACK = "t"
    DWELL = "d"
    EXIT = "x"

    __hash__ = object.__hash__


CODES = {kind: code for code, kind in enumerate(Kind, 1)}
STAGES = frozenset((Kind.ENTRY, Kind.TRACK, Kind.DWELL))
"""The modes in which a preempt is served; on the way back, Exit, it no longer is."""


@dataclass(frozen=True)
class Mode:
    """A kind of mode, with the number of its pattern or preempt; 0 if it has none."""

    kind: Kind
    number: int = 0

    def __str__(self) -> str:
        """Returns the mode as a trace has it."""
        if self.kind in STAGES or self.kind is Kind.EXIT:
            return f"P{self.number}{self.kind.value}"
        return f"{self.kind.value}{self.number or ''}"


START, FREE, ENDING, FLASH = Mode(Kind.START), Mode(Kind.FREE), Mode(Kind.ENDING), Mode(Kind.FLASH)


class Lights:
    """What all phases show to vehicles, and the sets of phases by colour. It never changes."""

    def __init__(self, colours: dict[int, Colour]) -> None:
        self.of = colours
        self.green = frozenset(p for p in PHASES if colours[p] is Colour.GREEN)
        self.red = frozenset(p for p in PHASES if colours[p] is Colour.RED)
        self.on = frozenset(PHASES) - self.red
        self.clearing = self.on - self.green
        self.text = "".join(colours[p].value for p in PHASES)

    def changed(self, to: dict[int, Colour]) -> "Lights":
        """Returns what is shown when some phases show other colours."""
        return Lights({**self.of, **to}) if to else self


class Signals:
    """What all phases show to pedestrians. It never changes."""

    def __init__(self, signals: dict[int, Signal]) -> None:
        self.of = signals
        self.running = frozenset(p for p in PHASES if signals[p] is not Signal.DONT)
        self.text = "".join(signals[p].value for p in PHASES)

    def changed(self, to: dict[int, Signal]) -> "Signals":
        """Returns what is shown when some phases show other signals."""
        return Signals({**self.of, **to}) if to else self


ALL_RED = Lights(dict.fromkeys(PHASES, Colour.RED))
ALL_DONT = Signals(dict.fromkeys(PHASES, Signal.DONT))


@dataclass(frozen=True)
class Frame:
    """What a cabinet shows after a tick."""

    lights: Lights
    signals: Signals
    mode: Mode
    counter: int
    target: int
    version: int

    def shows_other(self, before: "Frame") -> bool:
        """Tells whether it differs from the frame before in a colour, a signal, the mode or the version."""
        return (
            self.lights.text != before.lights.text
            or self.signals.text != before.signals.text
            or self.mode != before.mode
            or self.version != before.version
        )

    def is_local_zero(self, before: "Frame") -> bool:
        """Tells whether the counter becomes 0, or is 0 as the pattern begins."""
        if self.mode.kind is not Kind.COORD or self.counter != 0:
            return False
        return before.counter != 0 or before.mode != self.mode


FIRST = Frame(ALL_RED, ALL_DONT, START, 0, 0, 0)
"""What a cabinet shows before its first tick."""
