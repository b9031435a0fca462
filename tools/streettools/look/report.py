"""A timing report of a trace: what each phase was given, how its greens ended, modes, offsets, replies and notes.

The numbers are collected as the trace is read; times are given in seconds. With a names file cabinets and phases have
their names, and partner phases are left out.
"""

import json
from collections import Counter

from streettools.shared import answers
from streettools.shared.answers import Cancelled, ClockNamed, Requested
from streettools.shared.cabinet import Mode, changes, mode_of, opened
from streettools.shared.tables import ALL
from streettools.shared.trace_records import Answered, Ended, Frame, Input, Noted

from .endings import ENDINGS
from .requests import Requests

WAYS = {1: "polls", 2: "downloads", 3: "priority"}


class Service:
    """A phase's greens: those that ended, in ticks, and how; walks that began, and how long pedestrians waited for
    them: from the first press of a button on."""

    def __init__(self):
        self.begun, self.ended, self.total, self.least, self.greatest = 0, 0, 0, None, 0
        self.endings, self.walks = Counter(), 0
        self.pressed, self.waits = None, []

    def walk(self, tick):
        """Counts a walk that begins."""
        self.walks += 1
        if self.pressed is not None:
            self.waits.append(tick - self.pressed)
        self.pressed = None

    def walk_wait(self):
        """Returns how long pedestrians waited; nothing if none has pressed a button."""
        if not self.waits and self.pressed is None:
            return {}
        mean = round(sum(self.waits) / len(self.waits) / 10, 2) if self.waits else None
        least, greatest = seconds(min(self.waits, default=None)), seconds(max(self.waits, default=None))
        served = {"served": len(self.waits), "least": least, "mean": mean, "greatest": greatest}
        return {"walk_wait": served | {"still_waiting": int(self.pressed is not None)}}

    def end(self, length, ending):
        """Counts a green that ended."""
        self.ended += 1
        self.total += length
        self.least = length if self.least is None else min(self.least, length)
        self.greatest = max(self.greatest, length)
        self.endings[ending] += 1

    def value(self, phase, name):
        """Returns the phase's row of the report; `name` is None if there aren't names."""
        mean = round(self.total / self.ended / 10, 2) if self.ended else None
        greatest = seconds(self.greatest if self.ended else None)
        return {
            "phase": phase,
            **({} if name is None else {"name": name}),
            "services": self.begun,
            "green": {"least": seconds(self.least), "mean": mean, "greatest": greatest},
            "ended": {word: self.endings[word] for word in ENDINGS if self.endings[word]},
            "still_green": self.begun - self.ended,
            "walks": self.walks,
            **self.walk_wait(),
        }


class Offsets:
    """How often a pattern was picked up, and after how many cycles it came onto its offset; `bounds` has for each
    pickup how many cycles it needs at most while nothing disturbs it, and `beyond` counts those that took more."""

    def __init__(self):
        self.pickups, self.zeros, self.met, self.cycles, self.waiting = 0, 0, 0, [], None
        self.bounds, self.beyond = [], 0

    def take(self, cycle, met, needed):
        """Counts a cycle that begins; one that begins on the offset ends the count since the pickup."""
        self.zeros += 1
        self.met += met
        if cycle.pickup:
            self.pickups += 1
            self.waiting = 0
            self.bounds += [] if needed is None else [needed]
        elif self.waiting is not None:
            self.waiting += 1
            self.beyond += bool(self.bounds) and self.waiting == self.bounds[-1] + 1
        if met and self.waiting is not None:
            self.cycles.append(self.waiting)
            self.waiting = None

    def value(self, pattern):
        """Returns the pattern's row of the report."""
        count = len(self.cycles)
        mean = round(sum(self.cycles) / count, 2) if count else None
        return {
            "pattern": pattern,
            "pickups": self.pickups,
            "local_zeros": self.zeros,
            "on_the_offset": self.met,
            "cycles_to_the_offset": {
                "least": min(self.cycles, default=None),
                "mean": mean,
                "greatest": max(self.cycles, default=None),
                "bound": max(self.bounds, default=None),
            },
            "beyond_the_bound": self.beyond,
            "offset_not_reached": self.pickups - count,
        }


class Tally:
    """What the report says of one cabinet."""

    def __init__(self, scenario, number, names):
        self.cabinet, self.names = opened(scenario, number), names
        self.services = {phase: Service() for phase in ALL}
        self.modes, self.mode, self.since = Counter(), None, 0
        self.patterns = {}
        self.replies = {way: Counter() for way in WAYS}
        self.orders, self.loads, self.requests = Counter(), [], Requests(self.cabinet)
        self.refused, self.notes = {}, {}

    def take(self, happening):
        """Counts what happened."""
        match happening:
            case Frame():
                self.shown(happening)
            case Input():
                self.cabinet.sensed(happening)
                self.pressed(happening)
            case Answered(way=way, digits=digits):
                self.replies.setdefault(way, Counter())["silent" if digits is None else "answered"] += 1
                if digits:
                    self.answered(digits, happening.tick)
            case Ended(tick=tick, load=load):
                self.cabinet.ended(load)
                self.loads.append((tick, load))
            case Noted(round=number, words=words):
                count, first, _ = self.notes.get(words, (0, number, number))
                self.notes[words] = (count + 1, first, number)

    def pressed(self, item):
        """Keeps when a push button was pressed first: of a phase with a walk, while it doesn't show walk."""
        cabinet, service = self.cabinet, self.services.get(item.number)
        if item.kind != "ped" or service is None or service.pressed is not None:
            return
        is_walk = cabinet.frame is not None and cabinet.frame.pedestrians[item.number - 1] == "W"
        if not is_walk and not (cabinet.told and cabinet.tables.phase(item.number, 2) < 1):
            service.pressed = item.tick

    def answered(self, digits, tick):
        """Counts the orders that a reply takes, or the Set that it refuses."""
        for order in answers.orders(digits):
            self.ordered(order, tick)
        it = answers.refused(digits)
        if it is not None:
            count, first, _ = self.refused.get(it, (0, tick, tick))
            self.refused[it] = (count + 1, first, tick)

    def ordered(self, order, tick):
        """Counts an order that was taken."""
        self.requests.ordered(order, tick)
        match order:
            case ClockNamed(ticks):
                self.orders["clock set"] += self.cabinet.clock.named(ticks, tick)
            case Requested():
                self.orders["priority requested"] += 1
            case Cancelled():
                self.orders["priority cancelled"] += 1

    def shown(self, frame):
        """Counts what a frame ends and begins."""
        cabinet, before = self.cabinet, self.cabinet.frame
        self.requests.shown(frame)
        if before is not None:
            cycle = cabinet.cycle(frame)
            if cycle:
                known = self.patterns.setdefault(cycle.pattern, Offsets())
                known.take(cycle, cabinet.is_met(cycle), cabinet.needed(cycle) if cycle.pickup else None)
            self.coloured(before, frame)
            for phase, _, shows in changes(before.pedestrians, frame.pedestrians):
                if shows == "W":
                    self.services[phase].walk(frame.tick)
        if frame.mode != self.mode:
            self.timed(frame.tick)
            self.mode, self.since = frame.mode, frame.tick
        cabinet.shown(frame)

    def coloured(self, before, frame):
        """Counts the greens that begin and end with a frame."""
        for phase, was, shows in changes(before.vehicles, frame.vehicles):
            if shows == "G":
                self.services[phase].begun += 1
            elif was == "G":
                length = frame.tick - self.cabinet.green[phase]
                self.services[phase].end(length, self.cabinet.ending(phase, frame))

    def timed(self, tick):
        """Counts the time of the mode that ends."""
        if self.mode is not None:
            mode = mode_of(self.mode)
            words = f"{mode.words} {mode.number or ''} {mode.stage}".replace("  ", " ").strip()
            self.modes[words] += tick - self.since

    def value(self, ticks):
        """Returns the cabinet's part of the report, at the end of the trace."""
        self.timed(ticks)
        number, names = self.cabinet.number, self.names
        partners = names.partners(number)
        asked = [(phase, it) for phase, it in self.services.items() if it.begun or it.pressed is not None]
        shown = [(phase, it) for phase, it in asked if phase not in partners]
        modes = sorted(self.modes.items(), key=lambda it: it[1], reverse=True)
        return {
            "cabinet": number,
            **({"name": names.street(number), "left_out": sorted(partners)} if names.is_given else {}),
            "phases": [it.value(phase, names.phase(number, phase) if names.is_given else None) for phase, it in shown],
            "modes": {words: seconds(length) for words, length in modes},
            "patterns": [it.value(pattern) for pattern, it in sorted(self.patterns.items())],
            "replies": {WAYS.get(way, str(way)): dict(count) for way, count in self.replies.items() if count},
            "orders": {word: count for word, count in self.orders.items() if count},
            "requests": [request_value(it) for it in self.requests.all],
            "refused_sets": [set_value(it, *times) for it, times in self.refused.items()],
            "downloads": [load_value(tick, load) for tick, load in self.loads],
            "notes": [
                {"note": words, "times": times, "first": first, "last": last}
                for words, (times, first, last) in sorted(self.notes.items())
            ],
        }


def set_value(refused, times, first, last):
    """Returns the row of a Set that was refused: what it asked for, the error, when it was refused first and last."""
    row = {"object": refused.object, "value": refused.value, "error": refused.error, "times": times}
    row |= {"first": seconds(first), "last": seconds(last)}
    return row if refused.download is None else row | {"download": refused.download}


def request_value(it):
    """Returns the row of a priority request: when it was given, until when it was live, and what it did."""
    row = {"number": it.number, "phase": it.phase, "given": seconds(it.since), "gone": seconds(it.last)}
    return row | {"held": seconds(it.held), "ended": sorted(set(it.cut)), "effect": it.effect()}


def load_value(tick, load):
    """Returns the row of a download that ended after a tick: the version that it made, or the rule that it breaks."""
    result = {"rule": load.rule, "row": load.row} if load.version is None else {"version": load.version}
    return {"download": load.number, "seconds": seconds(tick)} | result


def seconds(ticks):
    """Returns ticks as seconds."""
    return None if ticks is None else ticks / 10


def has_recall(tallies):
    """Tells whether a phase of a cabinet has maximum recall, by its options or by the split of a pattern."""
    return any(
        it.cabinet.recalled(phase, mode)
        for it in tallies
        for mode in (Mode("F", 0, ""), *(Mode("C", number, "") for number in it.cabinet.tables.patterns()))
        for phase in it.cabinet.tables.enabled()
    )


def is_call(happening):
    """Tells whether a vehicle reaches a detector, or a pedestrian presses a push button."""
    return isinstance(happening, Input) and happening.kind in ("veh", "ped") and happening.on


def collect(reader, names):
    """Reads the trace and returns its report as one value. A run has traffic if a detector or a push button is called,
    or if phases have maximum recall instead."""
    tallies = [Tally(reader.scenario, number, names) for number in range(1, reader.cabinets + 1)]
    comes = has_recall(tallies)
    for happening in reader.happenings(ends=False):
        comes = comes or is_call(happening)
        tallies[happening.cabinet - 1].take(happening)
    ticks = reader.rounds * reader.ticks
    head = {"title": names.title()} if names.is_given else {}
    head |= {"rounds": reader.rounds, "seconds": seconds(ticks)}
    head |= {} if comes else {"traffic": False}
    return head | {"cabinets": [it.value(ticks) for it in tallies]}


def text(value, as_json, names):
    """Returns the report as text for a terminal, or as JSON."""
    if as_json:
        return json.dumps(value, indent=2) + "\n"
    from . import report_text

    return report_text.text(value, names)
