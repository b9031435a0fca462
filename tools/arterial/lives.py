"""A live session: cabinets that take inputs, messages and ticks as a program asks for them."""

import asyncio
import functools
import os
import threading
import weakref
from collections.abc import Awaitable, Callable, Sequence
from typing import TYPE_CHECKING, Any, NamedTuple, ParamSpec, Self, TypeVar

from streettools.cosim.queues.session import scenario_of
from streettools.shared import oids, session
from streettools.shared import lines as trace_lines
from streettools.shared.ber import Arcs
from streettools.shared.session_record import SessionRecord
from streettools.shared.trace_records import Answer, End, Frame, Load, Note

from . import objects
from .errors import Busy, Error, NoCabinet, Over, ProgramDied, Refused, own
from .given import value_of
from .objects import Value
from .programs import path_of
from .runs import refused
from .traces import Trace

if TYPE_CHECKING:
    from .given import Given

P = ParamSpec("P")
R = TypeVar("R")
REFUSALS = {
    "request": "the request is too long or has the wrong number of words", "cabinet": "the session has no such cabinet",
    "phase": "expected a phase from 1 to 16", "number": "expected a preempt from 1 to 8",
    "on": "expected True or False", "stream": "expected poll, load or priority", "hex": "expected at most 1472 octets",
    "ticks": "expected 1 to the ticks that are left in the round",
    "full": "the session has brought 100,000 inputs and messages in this round",
}  # fmt: skip
"""What a session answers to a request that isn't accepted (docs/LIVE.md), in words."""
PART = 24
"""How many cells a part of a download has at most."""
WORD = 65_535


class Step(NamedTuple):
    """The result of ticks.

    - `time_s`: the time after them, in seconds since the start of the session;
    - `frames`: the changed displays, in order; a cabinet without a frame shows the same as before;
    - `notes`: the notes of the master;
    - `downloads`: the downloads of the scenario that ended;
    - `is_over`: whether the last round of the session has ended.
    """

    time_s: float
    frames: tuple[Frame, ...]
    notes: tuple[Note, ...]
    downloads: tuple[Load, ...]
    is_over: bool


class Outcome(NamedTuple):
    """The end of a download. If it was accepted, `version` is the new version of the tables. Otherwise `rule` and `row`
    name the rule that it would break (docs/SCENARIO.md), and `words` explains this rule."""

    accepted: bool
    version: int | None = None
    rule: int | None = None
    row: int | None = None
    words: str = ""


class Street:
    """A live session, for one thread at a time: see `arterial.live`.

    A request that isn't accepted raises `Refused` and changes nothing; the session continues. If the program ends early
    or takes too long, `ProgramDied` or `Late` is raised, and the session has ended. Leaving the `with` block always
    ends the program. After that `trace` is the record, and every other request raises `Over`.
    """

    def __init__(self, scenario: dict[str, Any], path: str | os.PathLike[str], seconds: float) -> None:
        self.scenario = scenario
        self.cabinets = len(scenario["cabinets"])
        """The number of cabinets."""
        self.shown: dict[int, Frame] = {}
        """What each cabinet shows, by its number: its last frame."""
        self.is_over = False
        """Whether the session has ended."""
        self._lock, self._community = threading.Lock(), scenario.get("community", "public").encode()
        self._number, self._loads = 0, dict.fromkeys(range(1, self.cabinets + 1), 0)
        self._record = SessionRecord(scenario)
        self._session = opened(scenario, path, seconds)
        weakref.finalize(self, end_here, os.getpid(), self._session.end)
        self._heard(self._session.opened)

    def _heard(self, answer: list[bytes]) -> None:
        """Takes the answer to the scenario."""
        for line in answer:
            self._record.take(line)
        self._typed(answer)

    def __enter__(self) -> Self:
        return self

    def __exit__(self, kind: object, *_: object) -> None:
        if kind is None:
            self.end()
        else:
            self._broken()

    # asking

    def _claim(self) -> None:
        """Claims the session for this thread."""
        if not self._lock.acquire(blocking=False):
            raise Busy("another thread is using this session")
        if self.is_over:
            self._lock.release()
            raise Over("the session has ended: nothing more can be asked of it")

    def _ask(self, requests: Sequence[bytes]) -> list[list[bytes]]:
        """Returns the answers to requests, which are recorded; the first one that is refused is raised."""
        self._claim()
        try:
            with own():
                answers = self._session.exchanged(b"".join(it + b"\n" for it in requests), len(requests))
            for request, answer in zip(requests, answers):
                self._record.answered(request, answer)
        except BaseException:
            self._broken()
            raise
        finally:
            self._lock.release()
        for request, answer in zip(requests, answers):
            if word := session.refusal(answer):
                raise unaccepted(request, word)
        return answers

    def _typed(self, answer: list[bytes]) -> list[Any]:
        """Returns the records of an answer's lines, except for journals and rounds; frames are kept."""
        found = [trace_lines.record(line + b"\n") for line in answer if line[:1] not in (b"J", b"R")]
        for it in found:
            if isinstance(it, Frame):
                self.shown[it.cabinet] = it
        return found

    def _broken(self) -> None:
        """Ends the session in the middle of a request: the record ends with the last whole round."""
        if not self.is_over:
            self.is_over = True
            self._session.end()
            if not self._record.is_over:
                self._record.cut()

    def _cabinet(self, number: int) -> int:
        """Returns the number of a cabinet, which must exist."""
        if type(number) is not int or not 1 <= number <= self.cabinets:
            raise NoCabinet(f"the session has no cabinet {number!r}: it has {self.cabinets}, numbered from 1")
        return number

    # time

    @property
    def ticks(self) -> int:
        """The ticks that were taken."""
        return self._session.rounds.taken

    @property
    def time_s(self) -> float:
        """The time in seconds since the start of the session."""
        return self.ticks / 10

    @property
    def left(self) -> int:
        """The ticks that are left until the last round ends."""
        return int(self.scenario["rounds"] * self.scenario["ticks"]) - self.ticks

    def tick(self, count: int = 1) -> Step:
        """Runs ticks of 0.1 s at all cabinets, and returns their result."""
        if type(count) is not int or count < 1:
            raise Refused("", (f"count: expected a whole number of ticks from 1 on, found {count!r}",))
        if not self.is_over and count > self.left:
            raise Refused("", (f"count: {count} ticks are more than the {self.left} left in the session",))
        requests = list(self._session.rounds.requests(count)) if not self.is_over else []
        records = [it for answer in self._ask(requests) for it in self._typed(answer)]
        if any(isinstance(it, End) for it in records):
            self._finished()
        frames = tuple(it for it in records if isinstance(it, Frame))
        notes = tuple(it for it in records if isinstance(it, Note))
        loads = tuple(it for it in records if isinstance(it, Load))
        return Step(self.time_s, frames, notes, loads, self.is_over)

    def _finished(self) -> None:
        """Waits for the end of a program that has written its last line."""
        self.is_over = True
        with own():
            self._session.running.closed().done()

    def end(self) -> None:
        """Ends the session after the current round, and ends the program. If the session has already ended, nothing
        changes."""
        if self.is_over:
            return
        self._claim()
        try:
            with own():
                for answer in self._session.finish():
                    self._record.answered(None, answer)
            self.is_over = True
        except BaseException:
            self._broken()
            raise
        finally:
            self._session.end()
            self._lock.release()

    @functools.cached_property
    def trace(self) -> Trace:
        """The record of a session that has ended: a trace of its completed rounds, which `arterial.check` accepts."""
        if not self.is_over:
            raise Error("the session hasn't ended: its record is complete after end(), or after the with block")
        if self._record.number < 1:
            raise Error("the session ended before its first round did: there is no record")
        return Trace(b"".join(self._record.trace()))

    # inputs

    def vehicle(self, cabinet: int, phase: int, on: bool = True) -> None:
        """Turns the vehicle detector of a phase on or off."""
        self._ask([b"veh %d %d %b" % (self._cabinet(cabinet), whole(phase, 16, "phase"), switched(on))])

    def pedestrian(self, cabinet: int, phase: int) -> None:
        """Presses the push button of a phase."""
        self._ask([b"ped %d %d" % (self._cabinet(cabinet), whole(phase, 16, "phase"))])

    def preempt(self, cabinet: int, number: int, on: bool = True) -> None:
        """Turns the input of a preempt on or off."""
        self._ask([b"preempt %d %d %b" % (self._cabinet(cabinet), whole(number, 8, "number"), switched(on))])

    # messages

    def message(self, cabinet: int, octets: bytes, stream: str = "priority") -> bytes | None:
        """Returns a cabinet's reply to a message of SNMP version 1, None if it sends none. `stream` is `priority`,
        `poll` or `load` (docs/LIVE.md, "Which stream")."""
        return self._replied(cabinet, octets, stream)[0]

    def _replied(self, cabinet: int, octets: bytes, stream: str) -> tuple[bytes | None, Load | None]:
        if stream not in ("priority", "poll", "load"):
            raise Refused("", (f"stream: expected priority, poll or load, found {stream!r}",))
        request = b"frame %d %b %b" % (self._cabinet(cabinet), stream.encode(), bytes(octets).hex().encode())
        (answer,) = self._ask([request])
        records = self._typed(answer)
        reply = next(it for it in records if isinstance(it, Answer))
        load = next((it for it in records if isinstance(it, Load)), None)
        return (None if reply.digits is None else bytes.fromhex(reply.digits)), load

    def _next(self) -> int:
        self._number += 1
        return self._number

    def get(self, cabinet: int, *names: str) -> Any:
        """Returns the value of an object of a cabinet, or a list of the values of several objects: numbers, or octets.

        A name is the object's name in the MIB with its instance, as `phaseMinimumGreen.2` (`.0` may be left out), or
        numbers. A Get changes nothing.
        """
        if not names:
            raise Refused("", ("expected the name of an object",))
        reply = self.message(cabinet, objects.get_octets(self._next(), names, self._community))
        if reply is None:
            raise Refused("", (f"the cabinet sends no reply to a Get of {', '.join(names)}",))
        found = objects.values_of(reply, names)
        return found[0] if len(names) == 1 else found

    def set(self, cabinet: int, name: str, value: Value) -> None:
        """Sets an object of a cabinet to a number or to octets. If the cabinet answers an error, `Refused` is raised
        and names the error."""
        if not isinstance(value, (int, bytes)) or isinstance(value, bool):
            raise Refused("", (f"value: expected a whole number or bytes, found {value!r}",))
        self._set(cabinet, [name], [(objects.arcs_of(name), value)], "priority")

    def _set(
        self, cabinet: int, names: Sequence[str], bindings: Sequence[tuple[Arcs, Value]], stream: str
    ) -> Load | None:
        octets = objects.set_octets(self._next(), bindings, self._community)
        reply, load = self._replied(cabinet, octets, stream)
        if reply is None:
            raise Refused("", (f"the cabinet sends no reply to a Set of {', '.join(names)}",))
        if load is None:
            objects.values_of(reply, names)
        return load

    def command(self, cabinet: int, pattern: int) -> None:
        """Commands a pattern: the number of a defined pattern, 255 for flash; any other number is free operation."""
        arcs = [(oids.CONTROL, whole(pattern, 255, "pattern", 0))]
        self._set(cabinet, ["systemPatternControl.0"], arcs, "priority")

    def priority(
        self, cabinet: int, phase: int, arrival_s: float, departure_s: float, *, number: int = 1, cls: int = 1,
        level: int = 1,
    ) -> None:  # fmt: skip
        """Requests priority for a vehicle: the phase that serves it, the seconds until it arrives and until it has
        departed (0 to 6553.5); the number of the request, its class and its level are 1 to 10."""
        first = (whole(number, 10, "number"), whole(cls, 10, "cls"), whole(level, 10, "level"))
        times = (tenths(arrival_s, "arrival_s"), tenths(departure_s, "departure_s"))
        if times[0] > times[1]:
            raise Refused("", ("departure_s: expected a departure at or after the arrival",))
        octets = bytes((*first, whole(phase, 16, "phase"))) + b"".join(it.to_bytes(2, "big") for it in times)
        self._set(cabinet, ["priorityRequest.0"], [(oids.REQUEST, octets)], "priority")

    def cancel(self, cabinet: int, number: int = 1) -> None:
        """Cancels a priority request."""
        arcs = [(oids.CANCEL, whole(number, 10, "number"))]
        self._set(cabinet, ["priorityCancel.0"], arcs, "priority")

    def load(self, cabinet: int, cells: Sequence[Sequence[Any]]) -> Outcome:
        """Loads cells (docs/SCENARIO.md, "Cells") into a cabinet by a download. From the next tick on either all cells
        are in force, or none. If the download would break a rule, the result reports this; no exception is raised."""
        bindings = [binding(cell) for cell in cells]
        if not 1 <= len(bindings) <= 768:
            raise Refused("", (f"cells: expected 1 to 768 cells, found {len(bindings)}",))
        self._loads[self._cabinet(cabinet)] += 1
        number, head = self._loads[cabinet], [(oids.ID, self._loads[cabinet])]
        steps: list[list[tuple[Arcs, Value]]] = [[(oids.BEGIN, number)]]
        parts = [bindings[at : at + PART] for at in range(0, len(bindings), PART)]
        steps += [[*head, (oids.PART, count), *part] for count, part in enumerate(parts, 1)]
        steps += [[*head, (oids.TOTAL, len(parts))], [*head, (oids.FINISH, 1)]]
        for step in steps:
            load = self._set(cabinet, ["a download"], step, "load")
            if load is not None:
                return outcome(load)
        raise Error("the cabinet ended no download")


def end_here(owner: int, end: Callable[[], object]) -> None:
    """Ends what a process has started, if this is that process: its children have copies of what it holds."""
    if os.getpid() == owner:
        end()


def opened(scenario: dict[str, Any], path: str | os.PathLike[str], seconds: float) -> session.Session:
    """Returns the program's session of a scenario; one that it refuses is raised with words."""
    try:
        with own():
            return session.Session(os.fspath(path), scenario, seconds)
    except Refused as fault:
        raise refused(session.scenario_line(scenario), fault.line) from None
    except (TypeError, ValueError, RecursionError) as fault:
        raise Refused("", (f"the scenario can't be written as JSON: {fault}",), ".") from None


def unaccepted(request: bytes, line: bytes) -> Refused:
    """Returns why a request isn't accepted."""
    word = line.decode(errors="replace").removeprefix("? ")
    return Refused("", (f"{request[:60].decode(errors='replace')}: {REFUSALS.get(word, word)}",))


def whole(value: Any, most: int, name: str, least: int = 1) -> int:
    """Returns a whole number in its range."""
    if type(value) is not int or not least <= value <= most:
        raise Refused("", (f"{name}: expected a whole number from {least} to {most}, found {value!r}",))
    return value


def tenths(value: Any, name: str) -> int:
    """Returns seconds as ticks."""
    if isinstance(value, bool) or not isinstance(value, (int, float)) or not 0 <= value <= WORD / 10:
        raise Refused("", (f"{name}: expected 0 to {WORD / 10:g} seconds, found {value!r}",))
    return round(10 * value)


def switched(on: Any) -> bytes:
    """Returns the word for on or off."""
    if type(on) is not bool:
        raise Refused("", (f"on: expected True or False, found {on!r}",))
    return b"on" if on else b"off"


def binding(cell: Sequence[Any]) -> tuple[Arcs, Value]:
    """Returns the object and the value of a cell."""
    from streettools.shared.values import cell as faults_of

    listed = list(cell) if isinstance(cell, (list, tuple)) else cell
    for fault in faults_of("cell", listed):
        raise Refused("", (fault.words,))
    *place, new = cell
    return oids.object_of(tuple(place)), bytes.fromhex(new) if isinstance(new, str) else new


def outcome(load: Load) -> Outcome:
    """Returns the outcome of a download."""
    if load.version is not None:
        return Outcome(True, load.version)
    from streettools.plan.explain import RULES

    return Outcome(False, None, load.rule, load.row, RULES.get(load.rule, ""))


def live(
    scenario: "Given", *, rounds: int | None = None, program: str | os.PathLike[str] | None = None,
    seconds: float = session.SECONDS,
) -> Street:  # fmt: skip
    """Opens a live session of a scenario's cabinets.

    - `scenario`: as for `arterial.run`; its inputs, downloads and messages take effect in their rounds;
    - `rounds`: the maximum number of rounds of the session (default: the rounds of the scenario);
    - `program`: the program to run (default: the program that `arterial.program()` finds);
    - `seconds`: the time limit for each answer of the program; after it, `Late` is raised.

    >>> import arterial
    >>> one = {"version": 1, "rounds": 60, "ticks": 10, "cabinets": [{}]}
    >>> with arterial.live(one) as street:
    ...     step = street.tick(60)
    ...     street.vehicle(1, phase=4)
    ...     step = street.tick(155)
    ...     street.shown[1].vehicles
    'RRRGRRRGRRRRRRRR'
    >>> bool(arterial.check(street.trace))
    True
    """
    value = value_of(scenario)
    if rounds is not None:
        value = scenario_of(value, whole(rounds, 86_400, "rounds"), True)
    return Street(value, path_of(program), seconds)


class AsyncStreet:
    """A live session for asyncio: it has the requests of `Street`, as coroutines. See `arterial.live_async`."""

    def __init__(self, make: Callable[[], Street]) -> None:
        self._make, self._order = make, asyncio.Lock()
        self._street: Street | None = None

    @property
    def street(self) -> Street:
        """The session of this environment: its `shown`, `trace`, `time_s` and `left` can be read at any time."""
        if self._street is None:
            raise Over("the session isn't open: use it within async with")
        return self._street

    async def _do(self, does: Callable[P, R], *given: P.args, **named: P.kwargs) -> R:
        """Does something in a thread, after all that was asked for before; a caller that is cancelled leaves the
        request to its end."""
        async with self._order:
            task = asyncio.ensure_future(asyncio.to_thread(does, *given, **named))
            try:
                return await asyncio.shield(task)
            except asyncio.CancelledError:
                await asyncio.wait([task])
                raise

    async def __aenter__(self) -> Self:
        self._street = await self._do(self._make)
        return self

    async def __aexit__(self, kind: object, *_: object) -> None:
        await self._do(self.street.__exit__, kind)

    @property
    def trace(self) -> Trace:
        """The record of a session that has ended."""
        return self.street.trace

    def tick(self, count: int = 1) -> Awaitable[Step]:
        """Runs ticks, as `Street.tick`."""
        return self._do(self.street.tick, count)

    def vehicle(self, cabinet: int, phase: int, on: bool = True) -> Awaitable[None]:
        """Turns a vehicle detector on or off: as `Street.vehicle`."""
        return self._do(self.street.vehicle, cabinet, phase, on)

    def pedestrian(self, cabinet: int, phase: int) -> Awaitable[None]:
        """Presses a push button: as `Street.pedestrian`."""
        return self._do(self.street.pedestrian, cabinet, phase)

    def preempt(self, cabinet: int, number: int, on: bool = True) -> Awaitable[None]:
        """Turns the input of a preempt on or off: as `Street.preempt`."""
        return self._do(self.street.preempt, cabinet, number, on)

    def message(self, cabinet: int, octets: bytes, stream: str = "priority") -> Awaitable[bytes | None]:
        """Returns the reply to a message: as `Street.message`."""
        return self._do(self.street.message, cabinet, octets, stream)

    def get(self, cabinet: int, *names: str) -> Awaitable[Any]:
        """Returns values of objects: as `Street.get`."""
        return self._do(self.street.get, cabinet, *names)

    def set(self, cabinet: int, name: str, value: Value) -> Awaitable[None]:
        """Sets an object: as `Street.set`."""
        return self._do(self.street.set, cabinet, name, value)

    def command(self, cabinet: int, pattern: int) -> Awaitable[None]:
        """Commands a pattern: as `Street.command`."""
        return self._do(self.street.command, cabinet, pattern)

    def priority(
        self, cabinet: int, phase: int, arrival_s: float, departure_s: float, *, number: int = 1, cls: int = 1,
        level: int = 1,
    ) -> Awaitable[None]:  # fmt: skip
        """Requests priority: as `Street.priority`."""
        does = self.street.priority
        return self._do(does, cabinet, phase, arrival_s, departure_s, number=number, cls=cls, level=level)

    def cancel(self, cabinet: int, number: int = 1) -> Awaitable[None]:
        """Cancels a priority request: as `Street.cancel`."""
        return self._do(self.street.cancel, cabinet, number)

    def load(self, cabinet: int, cells: Sequence[Sequence[Any]]) -> Awaitable[Outcome]:
        """Brings a download to a cabinet: as `Street.load`."""
        return self._do(self.street.load, cabinet, cells)

    def end(self) -> Awaitable[None]:
        """Ends the session: as `Street.end`."""
        return self._do(self.street.end)


def live_async(
    scenario: "Given", *, rounds: int | None = None, program: str | os.PathLike[str] | None = None,
    seconds: float = session.SECONDS,
) -> AsyncStreet:  # fmt: skip
    """Opens a live session for asyncio; the arguments are those of `arterial.live`.

    >>> import arterial, asyncio
    >>> async def green_at() -> float:
    ...     async with arterial.live_async({"version": 1, "rounds": 60, "ticks": 10, "cabinets": [{}]}) as street:
    ...         while "G" not in street.street.shown[1].vehicles:
    ...             await street.tick()
    ...         return street.street.time_s
    >>> asyncio.run(green_at())
    6.0
    """
    return AsyncStreet(lambda: live(scenario, rounds=rounds, program=program, seconds=seconds))


__all__ = ["AsyncStreet", "Frame", "Outcome", "ProgramDied", "Step", "Street", "live", "live_async"]
