"""The field's own event log of a trace: the codes of the Indiana Traffic Signal Hi Resolution Data Logger Enumerations.

docs/EVENTS.md says from what part of a trace each code is made. Rows are in order of time, of cabinets within a time.
"""

from datetime import datetime, timedelta

from streettools.shared import answers
from streettools.shared.answers import Cancelled, Requested
from streettools.shared.cabinet import changes, mode_of, opened
from streettools.shared.event_codes import (
    ADDING,
    AUTOMATIC_FLASH,
    BARRIER_TERMINATION,
    BEGIN_DONT_WALK,
    BEGIN_GREEN,
    BEGIN_PEDESTRIAN_CLEARANCE,
    BEGIN_PICKUP,
    BEGIN_RED_CLEARANCE,
    BEGIN_WALK,
    BEGIN_YELLOW,
    CYCLE_LENGTH_CHANGE,
    CYCLE_STATE_CHANGE,
    DETECTOR_OFF,
    DETECTOR_ON,
    DWELLING,
    END_RED_CLEARANCE,
    END_YELLOW,
    FLASH_PATTERN,
    FLASH_STATUS_CHANGE,
    FORCE_OFF,
    FREE,
    FREE_PATTERN,
    GAP_OUT,
    GREEN_TERMINATION,
    IN_STEP,
    LOCAL_ZERO,
    MAX_OUT,
    NOT_FLASH,
    OFFSET_LENGTH_CHANGE,
    OF_PHASES,
    PATTERN_CHANGE,
    PEDESTRIAN_DETECTOR_ON,
    PHASE_INACTIVE,
    PHASE_ON,
    PREEMPT_DWELL,
    PREEMPT_ENTRY,
    PREEMPT_EXIT,
    PREEMPT_INPUT_OFF,
    PREEMPT_INPUT_ON,
    PREEMPT_TRACK,
    PRIORITY_CHECK_IN,
    PRIORITY_CHECK_OUT,
    SPLIT_CHANGE,
    SUBTRACTING,
)
from streettools.shared.trace_records import Answered, Ended, Frame, Input, RoundEnd

HEADER = "TimeStamp,DeviceId,EventId,Parameter\n"

LEAVES = {"G": (GREEN_TERMINATION,), "Y": (END_YELLOW,), "C": (END_RED_CLEARANCE,)}
TURNS = {"Y": (BEGIN_YELLOW,), "C": (BEGIN_RED_CLEARANCE,), "R": (PHASE_INACTIVE,)}
SIGNALS = {"W": BEGIN_WALK, "F": BEGIN_PEDESTRIAN_CLEARANCE, "D": BEGIN_DONT_WALK}
REASONS = {"gap": GAP_OUT, "maximum": MAX_OUT, "force-off": FORCE_OFF, "yield": FORCE_OFF}
STAGES = {"entry": PREEMPT_ENTRY, "track": PREEMPT_TRACK, "dwell": PREEMPT_DWELL, "exit": PREEMPT_EXIT}


class Log:
    """A cabinet's events: `found` has the tick, the code and the parameter of each since it was last emptied. Phases
    that are left out have none."""

    def __init__(self, scenario, number, left_out=frozenset()):
        self.cabinet, self.found = opened(scenario, number), []
        self.left_out = left_out
        self.pattern, self.lengths, self.side = None, {}, None
        self.requests = {}

    def add(self, tick, code, parameter):
        """Keeps an event."""
        phase = parameter if code in OF_PHASES else code - SPLIT_CHANGE
        if phase in self.left_out:
            return
        self.found.append((tick, code, parameter))

    def take(self, happening):
        """Keeps the events of what happened."""
        match happening:
            case Frame():
                self.shown(happening)
            case Input(tick=tick, kind=kind, number=number, on=on):
                self.cabinet.sensed(happening)
                codes = {"veh": (DETECTOR_OFF, DETECTOR_ON), "preempt": (PREEMPT_INPUT_OFF, PREEMPT_INPUT_ON)}
                self.add(tick, codes[kind][on] if kind in codes else PEDESTRIAN_DETECTOR_ON, number)
            case Ended(load=load):
                self.cabinet.ended(load)
            case Answered(digits=str()):
                for order in answers.orders(happening.digits):
                    self.ordered(order, happening.tick)

    def ordered(self, order, tick):
        """Keeps a priority request that checks in, or out if it is cancelled."""
        match order:
            case Requested(number=number, departure=departure):
                self.departed(number, tick)
                self.requests[number] = tick + departure
                self.add(tick, PRIORITY_CHECK_IN, number)
            case Cancelled(number):
                self.departed(number, tick)
                if self.requests.pop(number, None) is not None:
                    self.add(tick, PRIORITY_CHECK_OUT, number)

    def departed(self, number, tick):
        """Checks a request out whose departure is past at this tick."""
        if self.requests.get(number, tick) < tick:
            self.add(self.requests.pop(number) + 1, PRIORITY_CHECK_OUT, number)

    def shown(self, frame):
        """Keeps the events of a frame: the mode first, then what ends, then what begins."""
        cabinet, before = self.cabinet, self.cabinet.frame
        if before is not None:
            if frame.mode != before.mode:
                self.moded(mode_of(before.mode), mode_of(frame.mode), frame.tick)
            cycle = cabinet.cycle(frame)
            if cycle:
                self.cycled(cycle)
            self.ended(before, frame)
            self.begun(before, frame)
        cabinet.shown(frame)

    def moded(self, before, mode, tick):
        """Keeps the events of a change of the mode: flash, the pattern, its state, the stages of a preempt."""
        if (mode.letter == "X") != (before.letter == "X"):
            self.add(tick, FLASH_STATUS_CHANGE, AUTOMATIC_FLASH if mode.letter == "X" else NOT_FLASH)
        running = {"F": FREE_PATTERN, "X": FLASH_PATTERN, "K": mode.number, "C": mode.number}.get(mode.letter)
        if running is not None and running != self.pattern:
            self.pattern = running
            self.add(tick, PATTERN_CHANGE, running)
            if mode.letter in "KC":
                self.selected(mode.number, tick)
        if mode.letter == "F":
            self.add(tick, CYCLE_STATE_CHANGE, FREE)
        elif mode.letter == "K" or (mode.letter == "C" and before.letter != "K"):
            self.add(tick, CYCLE_STATE_CHANGE, BEGIN_PICKUP)
        if mode.letter == "P":
            self.add(tick, STAGES[mode.stage], mode.number)
        elif before.stage == "dwell":
            self.add(tick, PREEMPT_EXIT, before.number)

    def selected(self, pattern, tick):
        """Keeps cycle, offset and splits of the pattern that is selected, in seconds, if they differ from those
        before."""
        tables = self.cabinet.tables
        if not self.cabinet.told:
            return
        lengths = {CYCLE_LENGTH_CHANGE: tables.pattern(pattern, 2), OFFSET_LENGTH_CHANGE: tables.pattern(pattern, 3)}
        split = tables.pattern(pattern, 4)
        lengths |= {SPLIT_CHANGE + phase: tables.split(split, phase, 3) for phase in tables.enabled()}
        for code, length in lengths.items():
            if self.lengths.get(code) != length:
                self.add(tick, code, length)
        self.lengths = lengths

    def cycled(self, cycle):
        """Keeps a local zero, and whether the cycle that begins is on offset or corrected, and how."""
        self.add(cycle.tick, CYCLE_STATE_CHANGE, LOCAL_ZERO)
        if cycle.error is None:
            return
        correction = self.cabinet.tables.unit(1)
        state = DWELLING if correction == 2 else SUBTRACTING if cycle.error > 0 else ADDING
        self.add(cycle.tick, CYCLE_STATE_CHANGE, state if cycle.error else IN_STEP)

    def ended(self, before, frame):
        """Keeps what ends with a frame, phase by phase."""
        tick = frame.tick
        for phase, was, shows in changes(before.vehicles, frame.vehicles):
            if was == "G":
                reason = REASONS.get(self.cabinet.ending(phase, frame))
                if reason is not None:
                    self.add(tick, reason, phase)
            for code in LEAVES.get(was, ()) + TURNS.get(shows, ()):
                self.add(tick, code, phase)

    def begun(self, before, frame):
        """Keeps what begins with a frame; a barrier is terminated as a phase of another side begins."""
        tick = frame.tick
        for phase, _, shows in changes(before.vehicles, frame.vehicles):
            if shows == "G":
                side = self.cabinet.side(phase)
                if self.side not in (None, side):
                    self.add(tick, BARRIER_TERMINATION, self.place(self.side))
                self.side = side
                self.add(tick, PHASE_ON, phase)
                self.add(tick, BEGIN_GREEN, phase)
        for phase, _, shows in changes(before.pedestrians, frame.pedestrians):
            self.add(tick, SIGNALS[shows], phase)

    def place(self, side):
        """Returns the number of a side, named by its lowest phase, in the order of those lowest phases."""
        sides = {self.cabinet.side(phase) for phase in self.cabinet.tables.enabled()}
        return sorted(sides | {side}).index(side) + 1


class Times:
    """Writes ticks as times of day, in tenths of a second."""

    def __init__(self, start):
        self.start, self.tick, self.text = start, None, ""

    def of(self, tick):
        """Returns the time after a tick."""
        if tick != self.tick:
            self.tick = tick
            self.text = (self.start + timedelta(milliseconds=100 * tick)).isoformat(" ", "milliseconds")[:-2]
        return self.text


def write(reader, start: datetime, out, names):
    """Reads the trace and writes its event log, without partner phases that a names file has; a round's events are put
    in the order of time before they are written."""
    times = Times(start)
    logs = [Log(reader.scenario, number, names.partners(number)) for number in range(1, reader.cabinets + 1)]
    out.write(HEADER)
    touched = {}
    for happening in reader.happenings():
        if not isinstance(happening, RoundEnd):
            log = logs[happening.cabinet - 1]
            log.take(happening)
            touched[log.cabinet.number] = log
            continue
        for row in round_rows(touched, happening.tick):
            out.write(f"{times.of(row[0])},{row[1]},{row[2]},{row[3]}\n")


def round_rows(touched, tick):
    """Returns the events of a round that ends at this tick, in the order of time, and forgets the cabinets that are
    done."""
    rows = []
    for number in sorted(touched):
        log = touched[number]
        for request in list(log.requests):
            log.departed(request, tick)
        rows += [(at, number, code, parameter) for at, code, parameter in log.found]
        log.found = []
        if not log.requests:
            del touched[number]
    rows.sort(key=lambda row: row[0])
    return rows
