"""What a trace says of one cabinet as it is read: tables in force, detectors, cycles of a pattern, how each green
ended."""

from functools import lru_cache
from typing import Any, NamedTuple

from . import answers, oids
from .trace_records import Frame, Input, Load, NotATrace
from .plans import Plan, correction, cycles_needed, plan
from .tables import ALL, Tables

STAGES = {"e": "entry", "t": "track", "d": "dwell", "x": "exit"}
WORDS = {"S": "start-up", "F": "free", "E": "ending", "X": "flash", "K": "seek", "C": "coordinated"}
DAY = 864_000
MOST_KEPT = 4096
"""How many modes and frames that are often repeated are kept with their meaning."""

Changes = tuple[tuple[int, str, str], ...]
"""Phases, each with the letter before and the letter now."""


class Mode(NamedTuple):
    """A mode: its letter (S, F, K, C, E, X or P), the number of its pattern or preempt, the stage of a preempt."""

    letter: str
    number: int
    stage: str

    @property
    def words(self) -> str:
        """The mode in words, without its number."""
        return "preempt" if self.letter == "P" else WORDS[self.letter]


@lru_cache(MOST_KEPT)
def mode_of(text: str) -> Mode:
    """Returns a mode as it is written in an F line."""
    letter, rest = text[0], text[1:]
    stage = rest[-1:] if letter == "P" else ""
    return Mode(letter, int(rest.removesuffix(stage) or 0), STAGES.get(stage, ""))


def changes(before: str, after: str) -> Changes:
    """Returns the phases whose letters differ between two frames: phase, letter before, letter now."""
    return changed((before, after))


@lru_cache(MOST_KEPT)
def changed(pair: tuple[str, str]) -> Changes:
    """Does what `changes` does, for two frames in one value."""
    return tuple((phase, was, now) for phase, was, now in zip(ALL, *pair) if was != now)


class Cycle(NamedTuple):
    """A cycle of a pattern begins: `pickup` says whether the pattern was taken up, `error` by how many ticks it begins
    late (above 0) or early (below 0) by the cabinet's clock; None if the pattern's cycle isn't known. `elapsed` counts
    the ticks since the local zero before, and is None at a pickup."""

    tick: int
    pattern: int
    pickup: bool
    target: int
    error: int | None
    elapsed: int | None


def changed_elsewhere(scenario: dict[str, Any], number: int) -> bool:
    """Returns whether tables may be changed by anything except the scenario's downloads as they are written: by octets
    of management software, or by a fault that flips an octet of a download."""
    flips = any(
        it["cabinet"] == number and it["kind"] == "flip" and it["stream"] == "load" and it["way"] == "down"
        for it in scenario.get("faults", ())
    )
    load = answers.DIGITS[oids.ID].removesuffix("00")
    return flips or any(it["cabinet"] == number and load in it["hex"].lower() for it in scenario.get("frames", ()))


class Cabinet:
    """A cabinet of a trace. It takes frames, inputs and ends of downloads in their order."""

    def __init__(self, scenario: dict[str, Any], number: int) -> None:
        setup = scenario["cabinets"][number - 1]
        self.number = number
        self.tables, self.told = Tables(setup.get("base", "std8"), setup.get("cells", ())), True
        self.loads = [it["cells"] for it in scenario.get("loads", ()) if it["cabinet"] == number]
        self.strange = changed_elsewhere(scenario, number)
        self.opening = setup.get("pattern", 0)
        self.clock = Clock(setup)
        self.frame: Frame | None = None
        self.plans: dict[int, Plan | None] = {}
        self.sides: dict[int, int] = {}
        self.occupied: set[int] = set()
        self.active, self.green = [0] * 17, [0] * 17
        self.zero = 0

    def plan(self, pattern: int) -> Plan | None:
        """Returns the plan of a pattern by the tables in force, or None."""
        if pattern not in self.plans:
            self.plans[pattern] = plan(self.tables, pattern) if self.told else None
        return self.plans[pattern]

    def side(self, phase: int) -> int:
        """Returns a phase's side of the barrier by the tables in force, named by its lowest phase."""
        if phase not in self.sides:
            self.sides[phase] = min(self.tables.side(phase), default=phase)
        return self.sides[phase]

    def ended(self, load: Load) -> None:
        """Puts a download in force, if it was accepted."""
        if load.version is None:
            return
        self.plans, self.sides = {}, {}
        self.told = self.told and not self.strange and 0 < load.number <= len(self.loads)
        if self.told:
            self.tables.put(self.loads[load.number - 1])

    def sensed(self, item: Input) -> None:
        """Keeps for each phase the last tick at which a vehicle was near."""
        if item.kind != "veh":
            return
        if item.on:
            self.occupied.add(item.number)
            self.active[item.number] = item.tick + 1
        elif item.number in self.occupied:
            self.occupied.discard(item.number)
            self.active[item.number] = max(self.active[item.number], item.tick)

    def shown(self, frame: Frame) -> None:
        """Processes a frame."""
        before = self.frame.vehicles if self.frame else "R" * 16
        for phase, _, shows in changes(before, frame.vehicles):
            if shows == "G":
                self.green[phase] = frame.tick
        self.frame = frame

    def cycle(self, frame: Frame) -> Cycle | None:
        """Returns the cycle that begins with this frame, which isn't processed yet; None if none does."""
        mode, before = mode_of(frame.mode), self.frame
        if mode.letter != "C" or frame.counter != 0 or before is None:
            return None
        pickup = before.mode != frame.mode or before.version != frame.version
        if not pickup and before.counter == 0 and not self.came_round(before, frame):
            return None
        elapsed = None if pickup else frame.tick - self.zero
        self.zero = frame.tick
        return Cycle(frame.tick, mode.number, pickup, frame.target, self.error(mode.number, frame.target), elapsed)

    def came_round(self, before: Frame, frame: Frame) -> bool:
        """Returns whether the counter has gone round the cycle since the frame before, in which it was also 0. While it
        is at 0, a line is written for a signal that changes; it stays at 0 for less than a cycle, and for one tick when
        ticks are skipped."""
        if (frame.vehicles, frame.pedestrians) == (before.vehicles, before.pedestrians):
            return True
        known = self.plan(mode_of(frame.mode).number)
        if known is None:
            return False
        dwells = self.tables.unit(1) == 2
        return frame.tick - self.zero >= (known.cycle if dwells else known.cycle // 2)

    def error(self, pattern: int, target: int) -> int | None:
        """Returns by how many ticks a cycle begins late or early, on the side from which it is corrected: early if
        cycles are lengthened (dwell, add-only, and shortway if that takes no more cycles), else late."""
        known = self.plan(pattern)
        if known is None:
            return None
        add, skip = self.tables.unit(3), self.tables.unit(4)
        late = self.tables.unit(1) == 3 and -(-(known.cycle - target) // add) > -(-target // skip)
        return target if late or target == 0 else target - known.cycle

    def needed(self, cycle: Cycle) -> int | None:
        """Returns the maximum number of cycles in which an undisturbed cabinet reaches its offset, from a cycle that
        begins; None if the pattern's cycle isn't known."""
        known = self.plan(cycle.pattern)
        if known is None:
            return None
        drifts = bool(self.clock.gain or self.clock.lose)
        return cycles_needed(correction(self.tables), known.cycle, cycle.target, drifts)

    def is_met(self, cycle: Cycle) -> bool:
        """Returns whether a cycle begins on the offset: to within a tick if the clock drifts."""
        known = self.plan(cycle.pattern)
        if cycle.error is None or known is None:
            return False
        return min(cycle.target, known.cycle - cycle.target) <= int(self.clock.gain > 0 or self.clock.lose > 0)

    def recalled(self, phase: int, mode: Mode) -> bool:
        """Returns whether a phase has maximum recall, by its options or by the split of the pattern that runs."""
        split = self.tables.pattern(mode.number, 4) if mode.letter == "C" else 0
        return self.tables.option(phase, 128) or (split > 0 and self.tables.split(split, phase, 4) in (4, 6))

    def gapped(self, phase: int, frame: Frame, mode: Mode) -> bool:
        """Returns whether no vehicle was near a phase for its passage time, as its green ends with this frame."""
        if phase in self.occupied or self.recalled(phase, mode):
            return False
        quiet = frame.tick - max(self.active[phase], self.green[phase])
        return bool(quiet >= max(1, self.tables.phase(phase, 5)))

    def ending(self, phase: int, frame: Frame) -> str:
        """Returns how the green of a phase ends with this frame, which isn't processed yet."""
        mode = mode_of(frame.mode)
        if mode.letter != "F" and mode.letter != "C":
            return mode.words
        if not self.told:
            return "not told"
        if mode.letter == "F":
            return "gap" if self.gapped(phase, frame, mode) else "maximum"
        known = self.plan(mode.number)
        if known is None:
            return "not told"
        if phase in known.coordinated:
            return "yield"
        if frame.counter >= known.force.get(phase, known.cycle):
            return "force-off"
        if self.gapped(phase, frame, mode):
            return "gap"
        split = 10 * self.tables.split(self.tables.pattern(mode.number, 4), phase, 3)
        length = frame.tick - self.green[phase] + self.tables.clearance(phase)
        return "split filled" if self.tables.unit(7) == 2 and length >= split else "priority"


def opened(scenario: dict[str, Any], number: int) -> Cabinet:
    """Returns a cabinet as it opens; a scenario that has none such isn't one of a trace."""
    try:
        return Cabinet(scenario, number)
    except (AttributeError, KeyError, TypeError, ValueError):
        raise NotATrace(1) from None


class Clock:
    """A cabinet's clock, in ticks since midnight; it may gain or lose a tick at each multiple of a number of ticks."""

    def __init__(self, setup: dict[str, Any]) -> None:
        self.value, self.tick = int(setup.get("clock", 0)), 0
        self.gain, self.lose = int(setup.get("gain", 0)), int(setup.get("lose", 0))

    def at(self, tick: int) -> int:
        """Returns the time of day after a tick, which must not be before the last time the clock was set."""
        drift = 0
        if self.gain:
            drift += tick // self.gain - self.tick // self.gain
        if self.lose:
            drift -= tick // self.lose - self.tick // self.lose
        return (self.value + tick - self.tick + drift) % DAY

    def named(self, ticks: int, tick: int) -> bool:
        """Takes over a time that a reply names; returns whether it differs from what the clock showed."""
        if ticks == self.at(tick):
            return False
        self.value, self.tick = ticks, tick
        return True
