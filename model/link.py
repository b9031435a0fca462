"""The line between the master and the cabinets: which frames reach a cabinet in a round, and which replies reach the
master.

docs/SCENARIO.md, "Downloads, priority, frames, faults" and "What is sent in a round".
"""

from collections import defaultdict
from dataclasses import dataclass

from model.master import Sent, request_binds
from model.messages import Message, Pdu, write
from model.scenario import Fault, Harm, Scenario, Stream, Way

FIRST_PRIORITY_ID = 2_000_000_000


@dataclass(frozen=True)
class Line:
    """A stream of a cabinet, one way."""

    cabinet: int
    stream: Stream
    way: Way


def at_once(fault: Fault | None, frame: bytes) -> list[bytes]:
    """Returns what arrives in the round of a frame in place of it."""
    if fault is None:
        return [frame]
    if fault.harm is Harm.LOSE:
        return []
    if fault.harm is Harm.FLIP:
        turned = bytes(octet ^ fault.octet if place == fault.by else octet for place, octet in enumerate(frame))
        return [turned]
    if fault.harm is Harm.CUT:
        return [frame[: fault.by]]
    comes_twice = fault.harm is Harm.REPEAT or fault.by == 0
    return [frame, frame] if comes_twice else [frame]


class Link:
    """The line, with the late copies that are under way."""

    def __init__(self, scenario: Scenario) -> None:
        self.scenario = scenario
        self.faults: dict[tuple[Line, int, int], Fault] = {}
        for item in scenario.faults:
            line = Line(item.cabinet, item.what.stream, item.what.way)
            self.faults.setdefault((line, item.round, item.what.index), item.what)
        self.late: dict[tuple[Line, int], list[bytes]] = defaultdict(list)
        self.own: dict[tuple[Line, int], list[bytes]] = defaultdict(list)
        for item in scenario.frames:
            self.own[Line(item.cabinet, item.what.stream, Way.DOWN), item.round].append(item.what.octets)
        self.requests: dict[tuple[int, int], list[bytes]] = defaultdict(list)
        for item in scenario.priority:
            message = Message(
                scenario.community, Pdu.SET, FIRST_PRIORITY_ID + item.place, binds=request_binds(item.what)
            )
            self.requests[item.cabinet, item.round].append(write(message))

    def carry(self, line: Line, number: int, frames: list[bytes]) -> list[bytes]:
        """Returns what arrives of the frames of a round: each after its fault, then the late copies that arrive in this
        round."""
        arrived: list[bytes] = []
        for place, frame in enumerate(frames):
            fault = self.faults.get((line, number, place))
            arrived += at_once(fault, frame)
            if fault is not None and fault.harm is Harm.LATE and fault.by > 0:
                self.late[line, number + fault.by].append(frame)
        return arrived + self.late.pop((line, number), [])

    def down(self, number: int, cabinet: int, sent: Sent) -> dict[Stream, list[bytes]]:
        """Returns the frames that reach a cabinet in a round, by stream; those of the scenario come last and meet no
        fault."""
        frames = {
            Stream.POLL: sent.poll,
            Stream.LOAD: sent.load,
            Stream.PRIORITY: self.requests.get((cabinet, number), []),
        }
        lines = {stream: Line(cabinet, stream, Way.DOWN) for stream in Stream}
        return {
            stream: self.carry(line, number, frames[stream]) + self.own.get((line, number), [])
            for stream, line in lines.items()
        }

    def up(self, number: int, cabinet: int, replies: dict[Stream, list[bytes]]) -> dict[Stream, list[bytes]]:
        """Returns the replies of a round that reach the master, by stream."""
        return {stream: self.carry(Line(cabinet, stream, Way.UP), number, replies[stream]) for stream in Stream}
