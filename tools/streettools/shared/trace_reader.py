"""Walks through a trace: each line at its place, with the tick at which it happened.

A line that can't follow the lines before it stops the walk. Whether a frame is the one due is for `arterial check` to
say.
"""

from collections.abc import Callable, Generator, Iterator, Sequence
from functools import lru_cache
from typing import Any

from . import lines
from .shapes import scenario_faults
from .trace_records import (
    Answer,
    Answered,
    End,
    Ended,
    Frame,
    Happening,
    Input,
    Journal,
    Load,
    NotATrace,
    Note,
    Noted,
    Record,
    RoundEnd,
    new,
)

TICKS, INPUTS = 4, 0
Sensed = tuple[str, int, bool]
"""An input's kind, number, and whether it is on."""
Came = dict[int, list[Sensed]]
"""The inputs of a round, by cabinet."""
NOTHING: Came = {}
"""The inputs of a round that has none."""


MOST_NUMBER = {"veh": 16, "ped": 16, "preempt": 8}
"""The kinds of inputs, with the greatest number of each: phases, preempts."""


def inputs_of(scenario: dict[str, Any]) -> dict[int, Came]:
    """Returns the inputs of each round by cabinet, in the order of the scenario's list; raises ValueError if one isn't
    valid."""
    found: dict[int, Came] = {}
    for item in scenario.pop("inputs", ()):
        number, cabinet = item["round"], item["cabinet"]
        kind = "veh" if "veh" in item else "ped" if "ped" in item else "preempt"
        it = (kind, item[kind], item.get("on", True))
        if not (type(number) is type(cabinet) is type(it[1]) is int and 1 <= it[1] <= MOST_NUMBER[kind]):
            raise ValueError
        if type(it[2]) is not bool:
            raise ValueError
        if number not in found:
            found[number] = {cabinet: [it]}
        elif cabinet in found[number]:
            found[number][cabinet].append(it)
        else:
            found[number][cabinet] = [it]
    return found


class CabinetRound:
    """A cabinet's round: what its journal leaves to come, with the tick after which each comes."""

    __slots__ = ("cabinet", "inputs", "answers", "last", "end")

    def __init__(self, cabinet: int, start: int, end: int) -> None:
        self.cabinet, self.last, self.end = cabinet, start, end
        self.inputs: list[Input] = []
        self.answers: list[tuple[int, int, int]] = []

    def spread(self, runs: tuple[tuple[int, int], ...], inputs: Sequence[Sensed]) -> None:
        """Puts the inputs and the replies of a journal after the ticks that come before them: both in lists from the
        last to the first."""
        tick, place = self.end, 0
        for way, count in runs:
            if way == TICKS:
                tick += count
            elif way != INPUTS:
                self.answers.append((way, count, tick))
            elif count > len(inputs) - place:
                raise ValueError
            else:
                self.inputs += [new(Input, (self.cabinet, tick, *it)) for it in inputs[place : place + count]]
                place += count
        self.end = tick
        if place < len(inputs):
            raise ValueError
        self.inputs.reverse()
        self.answers.reverse()

    def before(self, tick: int) -> list[Input]:
        """Removes the inputs that came before this tick, and returns them."""
        found = []
        while self.inputs and self.inputs[-1].tick < tick:
            found.append(self.inputs.pop())
        return found

    def next_answer(self) -> tuple[int, int]:
        """Returns the way and the tick of the next expected reply."""
        if not self.answers:
            raise ValueError
        way, count, tick = self.answers.pop()
        if count > 1:
            self.answers.append((way, count - 1, tick))
        return way, tick


class TraceReader:
    """Reads a trace line by line: `scenario` is its value without the inputs, `happenings` what comes after it."""

    def __init__(self, stream: lines.Stream, advance: Callable[[int], object] | None = None) -> None:
        self.blocks = lines.blocks(stream, advance)
        self.line = 1
        try:
            first, *texts = next(self.blocks)
            self.texts: list[bytes] | None = texts
            self.scenario = lines.scenario(first).value
            self.inputs = inputs_of(self.scenario)
            if next(scenario_faults(self.scenario), None):
                raise ValueError
            self.cabinets = len(self.scenario["cabinets"])
            self.ticks, self.rounds = int(self.scenario["ticks"]), int(self.scenario["rounds"])
        except (StopIteration, KeyError, TypeError, ValueError, RecursionError):
            raise NotATrace(1) from None
        self.round, self.cabinet, self.whole = 0, 0, False
        self.now: CabinetRound | None = None
        self.opened, self.ends, self.came = 0, True, NOTHING
        self.plain = lru_cache(lines.MOST_KEPT)(self.journals_of)

    def happenings(self, ends: bool = True) -> Iterator[Happening]:
        """Yields what happened: frames, inputs, replies, downloads, notes and ends of rounds, in the order of the
        trace. Reading is faster without the ends of rounds."""
        self.ends, first = ends, 2
        while self.texts is not None:
            texts, at = self.texts, 0
            while at < len(texts):
                self.line, text = first + at, texts[at]
                try:
                    found = self.told(text)
                except (ValueError, IndexError):
                    raise NotATrace(self.line) from None
                yield from found
                at += 1
                if text[:1] == b"R":
                    at = yield from self.plain_rounds(texts, at)
            first += len(texts)
            self.texts = next(self.blocks, None)
        self.line = first - self.whole

    def told(self, text: bytes) -> Sequence[Happening]:
        """Returns what a line says, and what is over with it."""
        letter = text[:1]
        if self.opened < self.cabinets:
            self.opened += 1
            return (self.opening(lines.record(text), self.opened),)
        if letter == b"F":
            return self.shown(lines.record(text))
        if letter == b"J":
            return self.begun(lines.journal(text))
        if letter == b"R":
            return self.next_round(text)
        return self.placed(lines.record(text))

    def opening(self, record: Record, number: int) -> Frame:
        """Returns the frame that a cabinet opens with, which is expected here."""
        if not isinstance(record, Frame) or (record.cabinet, record.tick) != (number, 0):
            raise ValueError
        return record

    def journals_of(self, counts: tuple[int, ...]) -> list[bytes] | None:
        """Returns the journals of a round in which cabinets take inputs, and then each its ticks. `counts` has the
        cabinets that take some, then how many each of these takes. None if the ticks of a round aren't a number that a
        journal may have."""
        half = len(counts) // 2
        known = dict(zip(counts[:half], counts[half:]))
        taken = [b"0*%d " % known[number] if number in known else b"" for number in range(1, self.cabinets + 1)]
        if not taken or not 0 < self.ticks <= lines.MOST:
            return None
        return [b"J %d %b4*%d\n" % (number, it, self.ticks) for number, it in enumerate(taken, 1)]

    def plain_rounds(self, texts: list[bytes], at: int) -> Generator[Happening, None, int]:
        """Yields what happens in the round that has just begun, and in the following ones, as long as each cabinet
        takes its inputs and then nothing but ticks; returns the place of the line after their journals. Most rounds are
        of this kind."""
        count, ticks, number, came = self.cabinets, self.ticks, self.round, self.came
        plain, inputs, start = self.plain, self.inputs, (number - 1) * ticks
        empty = plain(())
        while texts[at : at + count] == (plain((*came, *map(len, came.values()))) if came else empty):
            at += count
            if came:
                for cabinet in range(1, count + 1):
                    for it in came.get(cabinet, ()):
                        yield new(Input, (cabinet, start, *it))
            start += ticks
            if at == len(texts) or texts[at] != b"R %d\n" % (number + 1):
                self.cabinet, self.now = count, CabinetRound(count, start - ticks, start)
                break
            if self.ends:
                yield new(RoundEnd, (number, start))
            number += 1
            came = inputs.pop(number, NOTHING)
            at += 1
        self.round, self.came = number, came
        return at

    def begun(self, journal: Journal) -> Sequence[Happening]:
        """Takes a journal, which must be allowed here, and returns what the round of the cabinet before it leaves."""
        cabinet, runs = journal
        left = self.left()
        if self.whole or self.round == 0 or cabinet != self.cabinet + 1 or cabinet > self.cabinets:
            raise ValueError
        self.cabinet = cabinet
        start = (self.round - 1) * self.ticks
        self.now = now = CabinetRound(cabinet, start, start)
        now.spread(runs, self.came.get(cabinet, ()))
        if now.end != start + self.ticks:
            raise ValueError
        return left

    def placed(self, record: Record) -> Sequence[Happening]:
        """Returns what a line says that is within a cabinet's round, or that notes something."""
        if self.whole:
            raise ValueError
        match record:
            case Answer(cabinet, way, digits):
                now = self.of(cabinet)
                due, tick = now.next_answer()
                if way != due:
                    raise ValueError
                return (*now.before(tick), Answered(cabinet, tick, way, digits))
            case Load(cabinet):
                now = self.of(cabinet)
                tick = now.answers[-1][2]
                return (*now.before(tick), Ended(cabinet, tick, record))
            case Note(cabinet, words):
                if self.round == 0 or self.cabinet or not 0 < cabinet <= self.cabinets:
                    raise ValueError
                return (Noted(cabinet, (self.round - 1) * self.ticks, self.round, words),)
            case End(rounds):
                return self.ended(rounds)
        raise ValueError

    def of(self, cabinet: int) -> CabinetRound:
        """Returns the round of the cabinet whose lines are read now, which must be this one."""
        if self.now is None or cabinet != self.cabinet:
            raise ValueError
        return self.now

    def shown(self, frame: Record) -> Sequence[Happening]:
        """Returns the inputs before a frame, and the frame."""
        if not isinstance(frame, Frame):
            raise ValueError
        now = self.of(frame.cabinet)
        if not now.last < frame.tick <= now.end:
            raise ValueError
        now.last = frame.tick
        return (*now.before(frame.tick), frame)

    def left(self) -> Sequence[Happening]:
        """Returns the inputs that a cabinet's round leaves, which is over; no reply may be left."""
        now, self.now = self.now, None
        if now is None:
            return ()
        if now.answers:
            raise ValueError
        return now.before(now.end + 1)

    def next_round(self, text: bytes) -> Sequence[Happening]:
        """Takes the line of the expected round, and returns what the one before leaves."""
        if text != b"R %d\n" % (self.round + 1):
            raise ValueError
        over = self.over()
        self.begin_round()
        return over

    def begin_round(self) -> None:
        """Begins the next round."""
        self.round, self.cabinet = self.round + 1, 0
        self.came = self.inputs.pop(self.round, NOTHING)

    def ended(self, rounds: int) -> Sequence[Happening]:
        """Takes the end of the trace, and returns what the last round leaves."""
        if not rounds == self.round == self.rounds:
            raise ValueError
        over = self.over()
        self.cabinet, self.whole = 0, True
        return over

    def over(self) -> Sequence[Happening]:
        """Returns what a round that is over leaves, and its end, once each cabinet has had its own."""
        if self.whole or (self.round and self.cabinet != self.cabinets):
            raise ValueError
        left = self.left()
        return (*left, RoundEnd(self.round, self.round * self.ticks)) if self.round and self.ends else left
