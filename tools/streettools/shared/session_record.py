"""The trace of a session, from its requests and answers.

docs/LIVE.md, "What a session means". Nothing is worked out here: the lines are those of the answers, put in the order
of a trace after the S line of the scenario that results.
"""

import functools
import json
import weakref
from collections import defaultdict
from collections.abc import Iterator
from typing import Any, NamedTuple

from .session import LISTS, Answers
from .snmp import SET, head_of

PASSES = {"poll": 1, "load": 2, "priority": 3}
INPUTS, TICKS = 0, 4
MOST_KNOWN = 4096
"""How many requests are kept as they were read."""
MOST_INPUTS, MOST_FRAMES, MOST_SCENARIO, MOST_TRACE = 1_000_000, 100_000, 16_777_216, 67_108_864
"""The limits of a scenario and of a trace that is checked."""
FULL = 0.9
"""Which part of what a scenario leaves free is used before a session ends for its record's sake."""
OF_ITEM = 60
"""How many bytes more an item has in a scenario than in its request."""
IN_MEMORY, PIECE = 1 << 20, 1 << 16
"""How many bytes of lines are kept in memory, and how many are read back at once."""

Runs = list[tuple[int, int]]
"""A journal in runs of a pass and a number."""


def compact(scenario: dict[str, Any]) -> bytes:
    """Returns the compact text of a scenario: names in byte order, no white space."""
    return json.dumps(scenario, sort_keys=True, separators=(",", ":"), ensure_ascii=False).encode()


def runs_of(line: bytes) -> Runs:
    """Returns the runs of a J line."""
    pairs = (run.split(b"*") for run in line.split(b" ")[2:])
    return [(int(way), int(count)) for way, count in pairs]


def joined(runs: Runs) -> Runs:
    """Returns runs of which no two neighbours are of one pass, and none is empty."""
    found: Runs = []
    for number, count in runs:
        if found and found[-1][0] == number:
            count += found.pop()[1]
        if count:
            found.append((number, count))
    return found


def without_end(runs: Runs, end: Runs) -> Runs:
    """Returns runs without those at their end."""
    left = list(runs)
    for number, count in reversed(end):
        last, size = left.pop()
        assert last == number and size >= count
        if size > count:
            left.append((last, size - count))
    return left


def is_read(request: bytes, answer: list[bytes]) -> bool:
    """Tells whether a request is a message on the stream of priority that changes nothing: one that is ignored, or that
    is answered and isn't a Set."""
    words = request.split(b" ")
    if words[0] != b"frame" or words[2] != b"priority":
        return False
    return answer[-1].endswith(b" -") or not is_set(bytes.fromhex(words[3].decode()))


def is_set(octets: bytes) -> bool:
    """Tells whether a message that was answered is a Set (RFC 1157)."""
    return head_of(octets)[0].kind == SET


class Brought(NamedTuple):
    """What a request brought in a round: to which cabinet, 0 for all; the pass, how many items, and whether it is
    kept."""

    cabinet: int
    number: int
    items: int
    is_kept: bool


class Read(NamedTuple):
    """A request that was taken: what it brought, and the list and the item (without its round) that it adds to the
    scenario; none for ticks."""

    brought: Brought
    name: str | None = None
    item: dict[str, Any] | None = None


def read(request: bytes) -> Read:
    """Reads a request."""
    if not request.startswith(b"frame "):
        return read_again(request)
    _, cabinet, stream, digits = request.decode("ascii").split(" ")
    item = {"cabinet": int(cabinet), "stream": stream, "hex": digits.lower()}
    return Read(Brought(int(cabinet), PASSES[stream], 1, True), "frames", item)


@functools.lru_cache(MOST_KNOWN)
def read_again(request: bytes) -> Read:
    """Reads an input or ticks; the results are cached, since the same requests are repeated."""
    kind, number, *words = request.decode("ascii").split(" ")
    if kind == "tick":
        return Read(Brought(0, TICKS, int(number), True))
    item: dict[str, Any] = {"cabinet": int(number), kind: int(words[0])}
    if kind != "ped":
        item["on"] = words[1] == "on"
    return Read(Brought(item["cabinet"], INPUTS, 1, True), "inputs", item)


class Lines:
    """Lines in the order in which they are added. Up to 1 MiB of them is in memory; if there are more, all are in a
    file without a name, in a folder or in the usual place of temporary files."""

    def __init__(self, folder: str | None = None) -> None:
        import tempfile  # takes a while

        self.size = 0
        """The bytes of the lines, each with its newline."""
        self.file = tempfile.SpooledTemporaryFile(IN_MEMORY, dir=folder)
        weakref.finalize(self, self.file.close)

    def add(self, lines: list[bytes]) -> None:
        """Adds lines."""
        text = b"".join(line + b"\n" for line in lines)
        self.file.write(text)
        self.size += len(text)

    def cut(self, size: int) -> None:
        """Leaves only the first bytes, which are whole lines."""
        self.file.seek(size)
        self.file.truncate()
        self.size = size

    def pieces(self) -> Iterator[bytes]:
        """Yields the text of all lines in pieces."""
        self.file.seek(0)
        while piece := self.file.read(PIECE):
            yield piece
        self.file.seek(self.size)


class SessionRecord:
    """The lines of a session in the order of a trace, and what the session added to its scenario. A Get on the stream
    of priority changes nothing: where reads aren't kept it is left out, with its A line and its item of the journal."""

    def __init__(self, scenario: dict[str, Any], keeps_reads: bool = True, folder: str | None = None) -> None:
        self.scenario = scenario
        self.keeps_reads = keeps_reads
        self.number = 0
        self.is_over = False
        self.added: dict[str, list[dict[str, Any]]] = {"inputs": [], "frames": []}
        self.lines = Lines(folder)
        self.round_at = 0
        """Where the line that begins the round is: how many bytes are before it."""
        self.added_size = 0
        """About how many bytes the added part of the scenario has."""
        self.journals: dict[int, bytes] = {}
        self.events: dict[int, list[bytes]] = defaultdict(list)
        self.brought: list[Brought] = []

    def answered(self, request: bytes | None, answer: list[bytes]) -> bool:
        """Takes a request and the lines of its answer without the dot; None means the scenario, or the end of input.
        Tells whether it is kept."""
        if answer and answer[0].startswith(b"? "):
            return False
        if request is None:
            self.brought.append(Brought(0, TICKS, self.ticks_left(), True))
        elif not self.is_noted(request, answer):
            return False
        for line in answer:
            self.take(line)
        return True

    def is_noted(self, request: bytes, answer: list[bytes]) -> bool:
        """Notes what a request brings; tells whether it is kept."""
        brought, name, item = read(request)
        if name and not self.keeps_reads and is_read(request, answer):
            self.brought.append(brought._replace(is_kept=False))
            return False
        self.brought.append(brought)
        if name and item is not None:
            self.added[name].append({"round": self.number, **item})
            self.added_size += len(request) + OF_ITEM
        return True

    def ticks_left(self) -> int:
        """Returns how many ticks of the round weren't taken yet."""
        return int(self.scenario["ticks"]) - sum(it.items for it in self.brought if it.cabinet == 0)

    def take(self, line: bytes) -> None:
        """Takes a line of an answer."""
        kind, second = line.split(b" ", 2)[:2]
        if kind == b"J":
            self.journals[int(second)] = line
        elif kind in (b"R", b"Z"):
            self.close_round()
            self.number, self.is_over = int(second), kind == b"Z"
            self.round_at = self.lines.size
            self.lines.add([line])
        elif kind == b"M" or self.number == 0:
            self.lines.add([line])
        else:
            self.events[int(second)].append(line)

    def close_round(self) -> None:
        """Puts the lines of the round that ends in the order of a trace."""
        dropped = () if self.keeps_reads else {it.cabinet for it in self.brought if not it.is_kept}
        lines = []
        for cabinet, journal in sorted(self.journals.items()):
            lines.append(self.less(cabinet) if cabinet in dropped else journal)
            if cabinet in self.events:
                lines += self.events[cabinet]
        self.lines.add(lines)
        self.journals, self.events, self.brought = {}, defaultdict(list), []

    def less(self, cabinet: int) -> bytes:
        """Returns the J line of a cabinet without the reads that are left out."""
        brought = [it for it in self.brought if it.cabinet in (0, cabinet)]
        end = joined([(it.number, it.items) for it in brought])
        kept = [(it.number, it.items) for it in brought if it.is_kept]
        runs = joined(without_end(runs_of(self.journals[cabinet]), end) + kept)
        return b"J %d %b" % (cabinet, b" ".join(b"%d*%d" % run for run in runs))

    def cut(self) -> None:
        """Ends the record with the last whole round, as if the session ended there; what follows is left out."""
        self.lines.cut(self.round_at)
        self.number -= 1
        for name, items in self.added.items():
            self.added[name] = [item for item in items if item["round"] <= self.number]
        self.lines.add([b"Z %d" % self.number])
        self.is_over = True

    def resulting(self) -> dict[str, Any]:
        """Returns the scenario that results from the rounds that there are."""
        made: dict[str, Any] = self.scenario | {"rounds": self.number}
        for name in LISTS:
            own = [item for item in made.get(name, ()) if item["round"] <= self.number]
            items = own + self.added.get(name, [])
            if name in made or items:
                made[name] = items
        return made

    def trace(self) -> Iterator[bytes]:
        """Yields the text of the trace of a session that is over, in pieces."""
        yield b"S " + compact(self.resulting()) + b"\n"
        yield from self.lines.pieces()


def trace_of_session(dialogue: bytes, output: bytes, keeps_reads: bool = True) -> bytes:
    """Returns the trace of a session by its whole input and its whole output."""
    first, *requests = dialogue.split(b"\n")
    record = SessionRecord(json.loads(first), keeps_reads)
    asked = [None, *requests[:-1], None]
    for request, answer in zip(asked, Answers().fed(output)):
        record.answered(request, answer)
    return b"".join(record.trace())


class Room:
    """How much more a record may hold before its session has to end."""

    def __init__(self, scenario: dict[str, Any]) -> None:
        text = len(compact(scenario))
        self.inputs = FULL * (MOST_INPUTS - len(scenario.get("inputs", ())))
        self.frames = FULL * (MOST_FRAMES - len(scenario.get("frames", ())))
        self.octets = FULL * (MOST_TRACE - text)
        self.scenario = FULL * (MOST_SCENARIO - text)

    def is_used(self, record: SessionRecord) -> bool:
        """Tells whether a record has used it."""
        return (
            len(record.added["inputs"]) >= self.inputs
            or len(record.added["frames"]) >= self.frames
            or record.added_size >= self.scenario
            or record.lines.size + record.added_size >= self.octets
        )
