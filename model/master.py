"""The master: what it sends to each cabinet in a round, and what it notes.

docs/SCENARIO.md, "The master" and "What is sent in a round"; docs/TRACE.md, the M lines.
"""

from dataclasses import dataclass, field
from enum import Enum

from model.lines_of_master import fails, has_pattern, is_good
from model.loader import Loader
from model.messages import Bind, Message, Pdu, read, write
from model.names import ASC, Oid, Scalar
from model.scenario import CabinetSetup, Scenario
from model.schedule import master_clock, scheduled

POLLED: list[Oid] = [
    Scalar.PATTERN_STATUS.value,
    Scalar.COUNTER.value,
    Scalar.TARGET.value,
    Scalar.MODE_CODE.value,
    Scalar.VERSION.value,
    ASC + (1, 4, 1, 4, 1),
    ASC + (1, 4, 1, 4, 2),
    Scalar.PATTERN_CONTROL.value,
]


class Due(Enum):
    """The commands that may be pending, in the order in which they are sent."""

    PATTERN = 1
    CLOCK = 2
    POLL = 3


@dataclass
class Command:
    """A command that is under way: its kind, the id of the last frame of it, how often it was sent, and the pattern
    that it names."""

    kind: Due
    id: int
    tries: int
    pattern: int | None


@dataclass
class Sent:
    """What is sent to a cabinet in a round: on the stream of polls and on that of downloads at most one frame each."""

    poll: list[bytes] = field(default_factory=list)
    load: list[bytes] = field(default_factory=list)


class Master:
    """What the master keeps of a cabinet."""

    def __init__(self, number: int, scenario: Scenario, setup: CabinetSetup) -> None:
        self.number = number
        self.scenario = scenario
        self.section = setup.section
        self.loader = Loader(number, [item for item in scenario.loads if item.cabinet == number])
        self.next_id = 1
        self.open: Command | None = None
        self.flags: set[Due] = set()
        self.acknowledged: int | None = None
        self.refused: int | None = None
        self.has_failed = False

    def new_id(self) -> int:
        """Returns the id of the next frame."""
        self.next_id += 1
        return self.next_id - 1

    def hear_poll(self, message: Message) -> list[bytes]:
        """Takes a Response on the stream of polls; returns the notes of it. One that doesn't answer the command is
        dropped."""
        if self.open is None or message.id != self.open.id:
            return []
        command, self.open = self.open, None
        notes = [is_good(self.number)] if self.has_failed else []
        self.has_failed = False
        if command.kind is not Due.PATTERN:
            return notes
        if message.status != 0:
            self.refused = command.pattern
            return notes
        is_new, self.acknowledged = self.acknowledged != command.pattern, command.pattern
        return notes + ([has_pattern(self.number, command.pattern)] if is_new else [])

    def give_up(self) -> list[bytes]:
        """Gives a command up that was sent as often as may be; returns the note of a cabinet that fails."""
        if self.open is None or self.open.tries < self.scenario.master.retries:
            return []
        self.open = None
        had_failed, self.has_failed = self.has_failed, True
        return [] if had_failed else [fails(self.number)]

    def set_flags(self, number: int, pattern: int | None) -> None:
        """Notes which commands become pending in a round."""
        master = self.scenario.master

        def is_its_round(every: int) -> bool:
            return every > 0 and number % every == 0

        wants = pattern is not None and pattern != self.refused
        if wants and (pattern != self.acknowledged or is_its_round(master.pattern_every)):
            self.flags.add(Due.PATTERN)
        if is_its_round(master.clock_every):
            self.flags.add(Due.CLOCK)
        if is_its_round(master.poll_every):
            self.flags.add(Due.POLL)

    def command_frame(self, clock: int, pattern: int | None) -> list[bytes]:
        """Returns the frame of the open command, repeated under a new id; if none is open, of the first pending one."""
        if self.open is not None:
            kind, tries = self.open.kind, self.open.tries + 1
        elif self.flags:
            kind, tries = min(self.flags, key=lambda due: due.value), 1
            self.flags.remove(kind)
        else:
            return []
        self.open = Command(kind, self.new_id(), tries, pattern if kind is Due.PATTERN else None)
        if kind is Due.POLL:
            return [self.message(Pdu.GET, self.open.id, [Bind(oid, None) for oid in POLLED])]
        name, value = (Scalar.PATTERN_CONTROL, pattern) if kind is Due.PATTERN else (Scalar.CLOCK, clock)
        return [self.message(Pdu.SET, self.open.id, [Bind(name.value, value)])]

    def load_frame(self, number: int) -> list[bytes]:
        """Returns the frame of the download that is under way, or begins."""
        binds = self.loader.next(number, self.next_id)
        return [] if binds is None else [self.message(Pdu.SET, self.new_id(), binds)]

    def message(self, pdu: Pdu, frame_id: int, binds: list[Bind]) -> bytes:
        """Returns the octets of a message to the cabinet."""
        return write(Message(self.scenario.community, pdu, frame_id, binds=binds))

    def turn(self, number: int, polls: list[bytes], loads: list[bytes]) -> tuple[list[bytes], Sent]:
        """Returns the notes of a round and what is sent in it, by the replies that have arrived."""
        notes = [note for message in responses(polls) for note in self.hear_poll(message)]
        notes += [note for message in responses(loads) for note in self.loader.hear(message)]
        notes += self.give_up()
        clock = master_clock(self.scenario, number)
        pattern = scheduled(self.scenario.master.schedule, self.section, clock)
        self.set_flags(number, pattern)
        return notes, Sent(self.command_frame(clock, pattern), self.load_frame(number))


def responses(replies: list[bytes]) -> list[Message]:
    """Returns the Responses among some octets."""
    messages = map(read, replies)
    return [message for message in messages if message is not None and message.pdu is Pdu.RESPONSE]


def request_binds(what: object) -> list[Bind]:
    """Returns the binding of a priority request or of a cancel."""
    if isinstance(what, int):
        return [Bind(Scalar.CANCEL.value, what)]
    octets = bytes((what.number, what.klass, what.level, what.phase))
    return [Bind(Scalar.REQUEST.value, octets + what.arrival.to_bytes(2, "big") + what.departure.to_bytes(2, "big"))]
