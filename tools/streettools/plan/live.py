"""A walk over a live agent by SNMP version 1: the tables of plans, several columns in one question.

The agent isn't trusted. Each question has a deadline, names have to rise, and there are limits to what is kept and to
how long a walk takes: whatever the agent answers, the walk ends.
"""

import ipaddress
import secrets
import socket
import time
from collections.abc import Callable
from typing import Any

from ..cabinet.messages import GET_NEXT, INTEGER, OCTETS, RESPONSE, Reply, kind_of, message, reply_of
from ..shared.oids import ASC, CLOCK, CONTROL, CORRECTION, DETECTOR_ENTRY, ENTRIES, OWN, SEQUENCE_DATA
from ..shared.given import Defect, Unreadable
from .walk import Name

COLUMNS = [
    *((*ENTRIES["phase"], column) for column in range(2, 24)),
    *((*ENTRIES["pattern"], column) for column in range(2, 6)),
    *((*ENTRIES["split"], column, split) for split in range(1, 33) for column in range(3, 6)),
    *((*ENTRIES["preempt"], column) for column in range(4, 16)),
    SEQUENCE_DATA,
    *((*DETECTOR_ENTRY, column) for column in (4, 6, 7, 9, 10, 11)),
    (*ASC, 3, 3), CORRECTION[:-1], (*ASC, 4, 4), CONTROL[:-1], *((*OWN, 3, number) for number in range(1, 8)),
    CLOCK[:-1],
]  # fmt: skip
"""Under which names there is something of a plan. The long columns of splits are asked split by split, side by side."""

AT_ONCE = 24
SECONDS, TRIES = 3.0, 3
"""How long one try waits for its answer, and how often a question is asked."""
MOST_SECONDS = 900.0
"""How long a whole walk may take."""
MOST_OBJECTS = 20_000
"""How many objects a walk keeps at most: a controller with 255 rows in each table has fewer in these columns."""
TOO_BIG, NO_SUCH_NAME = 1, 2
"""Error statuses of RFC 1157."""


class Agent:
    """An agent that answers at a port of a host. Datagrams from elsewhere are ignored."""

    def __init__(self, host: str, port: int, community: str):
        self.where, self.community = f"{host}:{port}", community.encode(errors="surrogateescape")
        self.socket = socket.socket(socket.AF_INET, socket.SOCK_DGRAM)
        self.socket.connect((host, port))
        self.number = secrets.randbelow(2**30)
        self.strange = 0
        """How many datagrams came that were no answers to the questions."""

    def next_of(self, asked: list[Name]) -> Reply:
        """Returns the answer to a GetNext with some names; raises Unreadable if none comes."""
        return self.ask(GET_NEXT, [(name, None) for name in asked])

    def ask(self, kind: int, bindings: list[tuple[Name, int | bytes | None]]) -> Reply:
        """Returns the answer to a question, or to a Set; raises Unreadable if none comes."""
        self.number += 1
        octets = message(kind, self.number, bindings, self.community)
        for _ in range(TRIES):
            try:
                self.socket.send(octets)
                return self.answer(time.monotonic() + SECONDS)
            except (TimeoutError, ConnectionRefusedError):
                continue
        more = f" ({self.strange} datagrams were not answers)" if self.strange else ""
        raise self.refusal(f"no answer in {TRIES} attempts{more}; check the port and the community")

    def answer(self, deadline: float) -> Reply:
        """Returns the answer to the last question; TimeoutError if it doesn't arrive in time."""
        while True:
            self.socket.settimeout(max(0.001, deadline - time.monotonic()))
            octets = self.socket.recv(65_536)
            try:
                reply = reply_of(octets)
                if reply.number == self.number and kind_of(octets) == RESPONSE:
                    return reply
            except (ValueError, IndexError):
                pass
            self.strange += 1
            if time.monotonic() >= deadline:
                raise TimeoutError

    def refusal(self, words: str) -> Unreadable:
        """Returns the refusal of what this agent says."""
        return Unreadable([Defect(self.where, words)])


def address(host: str, anywhere: bool) -> str:
    """Returns the address of a host, which by default must be this machine."""
    try:
        found = socket.gethostbyname(host)
    except (OSError, UnicodeError):
        raise Unreadable([Defect(host, "no such host")]) from None
    if not anywhere and not ipaddress.ip_address(found).is_loopback:
        raise Unreadable([Defect(host, "not on this machine: --anywhere lets other hosts be asked")])
    return found


def walk(agent: Agent, advance: Callable[[int], object] = lambda count: None) -> dict[Name, int | bytes]:
    """Returns the objects of the tables of plans that an agent has. If an answer would be too big for it, less is asked
    at once. `advance` is called with the number of columns that are done."""
    found: dict[Name, int | bytes] = {}
    reached: dict[Name, Name] = {}
    waiting, at_once, end = list(COLUMNS), AT_ONCE, time.monotonic() + MOST_SECONDS
    while waiting:
        if time.monotonic() > end:
            raise agent.refusal(f"the walk takes more than {MOST_SECONDS / 60:g} minutes")
        batch = waiting[:at_once]
        reply = agent.next_of([reached.get(column, column) for column in batch])
        if reply.status == TOO_BIG and len(batch) > 1:
            at_once = len(batch) // 2
            continue
        over = ended(agent, batch, reply)
        if not reply.status:
            keep(agent, [it for it in zip(batch, reply.bindings) if it[0] not in over], reached, found)
        waiting = [column for column in waiting if column not in over]
        advance(len(over))
    return found


def keep(agent: Agent, bindings: list[Any], reached: dict[Name, Name], found: dict[Name, int | bytes]) -> None:
    """Keeps the objects of some columns, each with its binding. A name that isn't greater than the one that was asked
    for is refused, since a walk would never end."""
    for column, (name, tag, content) in bindings:
        if name <= reached.get(column, column):
            raise agent.refusal(f"its names don't rise: {dotted(name)} after {dotted(reached.get(column, column))}")
        reached[column] = name
        if tag in (INTEGER, OCTETS):
            found[name] = content if tag == OCTETS else int.from_bytes(content, "big", signed=True)
        if len(found) > MOST_OBJECTS:
            raise agent.refusal(f"it has more than {MOST_OBJECTS} objects of plans")


def dotted(name: Name) -> str:
    """Returns a name as numbers with dots between them, a long one shortened."""
    text = ".".join(map(str, name))
    return text if len(text) <= 80 else text[:77] + "..."


def ended(agent: Agent, batch: list[Name], reply: Reply) -> list[Name]:
    """Returns the columns that are over: those after which another begins, or the one after which nothing comes."""
    if reply.status == NO_SUCH_NAME and 1 <= reply.index <= len(batch):
        return [batch[reply.index - 1]]
    if reply.status or len(reply.bindings) != len(batch):
        raise agent.refusal(f"it answers GetNext with status {reply.status}, index {reply.index}")
    return [column for column, (name, _, __) in zip(batch, reply.bindings) if name[: len(column)] != column]
