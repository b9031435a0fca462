"""Which manager holds the transaction of a cabinet, which have lost one, and how the Sets of transactions were
answered.

A manager is an address and a port. Tools that take a new port for each message are known by their address only: a
message from a new port of the address that holds the transaction counts as one of the same manager.
"""

import collections
import hashlib
import time
from typing import TypeVar

from ..street import Manager

MOST_KEPT = 512
"""How many Sets, managers and addresses are remembered."""
LATE = 1024
"""By how much the number of a late message may be below that of the manager's last request for a transaction."""
SECONDS = 60.0
"""How late a message may be. If a manager restarts its numbers later than that, its message isn't late."""
NUMBERS = 1 << 32

Key = TypeVar("Key")
Value = TypeVar("Value")
Answered = tuple[int, int]
"""The status and the index that a Set was answered with."""


def digest_of(octets: bytes) -> bytes:
    """Returns a digest that identifies octets."""
    return hashlib.blake2b(octets, digest_size=16).digest()


def keep(kept: "collections.OrderedDict[Key, Value]", key: Key, value: Value) -> None:
    """Keeps a value among those that were kept last."""
    kept[key] = value
    kept.move_to_end(key)
    if len(kept) > MOST_KEPT:
        kept.popitem(last=False)


class Copies:
    """The Sets of transactions that were answered. A copy of one has the same manager, number and octets."""

    def __init__(self) -> None:
        self.of: collections.OrderedDict[tuple[Manager, int], tuple[bytes, Answered, float]]
        self.of = collections.OrderedDict()

    def answered(self, manager: Manager, number: int, octets: bytes) -> Answered | None:
        """Returns the answer to the first copy of a Set, None if there was none."""
        digest, answered, when = self.of.get((manager, number), (b"", (0, 0), 0.0))
        return answered if digest == digest_of(octets) and time.monotonic() <= when + SECONDS else None

    def keep(self, manager: Manager, number: int, octets: bytes, answered: Answered) -> None:
        """Keeps the answer to a Set."""
        keep(self.of, (manager, number), (digest_of(octets), answered, time.monotonic()))

    def begins_anew(self, answered: Answered) -> None:
        """The street begins a new session: copies of Sets that were answered before now get this answer."""
        for key, (digest, _, when) in self.of.items():
            self.of[key] = (digest, answered, when)


class Managers:
    """The managers of a cabinet's transactions."""

    def __init__(self) -> None:
        self.holder: Manager | None = None
        """Who opened the transaction."""
        self.ports: set[Manager] = set()
        """All from which messages of the transaction came."""
        self.asked: collections.OrderedDict[Manager, tuple[int, float]] = collections.OrderedDict()
        """The number of the last message by which each manager has asked for a transaction, and when it came."""
        self.lost: collections.OrderedDict[Manager, None] = collections.OrderedDict()
        """Managers whose transaction ended differently from what they asked for. They get an error until they ask for
        another."""
        self.endings: collections.OrderedDict[Manager | str, bool] = collections.OrderedDict()
        """Whether the last transaction of a manager, or of an address, ended as it was asked for."""

    def asks(self, manager: Manager, number: int) -> None:
        """A manager asks for a transaction: how the one before ended no longer concerns it."""
        keep(self.asked, manager, (number, time.monotonic()))
        self.lost.pop(manager, None)
        self.endings.pop(manager, None)
        self.endings.pop(manager[0], None)

    def opens(self, manager: Manager) -> None:
        """A manager opens a transaction; one that was open has ended."""
        self.discarded(manager)
        self.holder, self.ports = manager, {manager}

    def holds(self, manager: Manager) -> bool:
        """Tells whether a manager is the one that holds the transaction: one that never asked for a transaction itself
        is by its address."""
        if self.holder is None or manager == self.holder:
            return manager == self.holder
        return manager[0] == self.holder[0] and manager not in self.asked and manager not in self.lost

    def is_late(self, manager: Manager, number: int) -> bool:
        """Tells whether a message was sent before the last one that asked for a transaction, by their numbers."""
        last, when = self.asked.get(manager, (number, 0.0))
        return 0 < (last - number) % NUMBERS <= LATE and time.monotonic() <= when + SECONDS

    def has_asked(self, manager: Manager) -> bool:
        """Tells whether a manager, or another one of its address, has asked for a transaction not long ago: a cell of
        its that comes now may be a late one of that transaction."""
        since = time.monotonic() - SECONDS
        return any(when >= since for (address, _), (_, when) in self.asked.items() if address == manager[0])

    def ending(self, manager: Manager) -> bool | None:
        """Returns whether the last transaction of a manager ended as it was asked for, None if it has had none."""
        return self.endings.get(manager if manager in self.asked else manager[0])

    def finished(self) -> None:
        """The transaction ends with its tables in force."""
        self.end(True, set())

    def failed(self) -> None:
        """The transaction ends without its tables in force, which was asked for."""
        self.end(False, self.ports)

    def discarded(self, by: Manager | None) -> None:
        """The transaction ends as a manager asks for, perhaps a different one, or because the street begins a new
        session."""
        is_own = by is not None and self.holds(by)
        self.end(is_own, set() if by == self.holder else {it for it in self.ports if it != by})

    def begins_anew(self) -> None:
        """The street begins a new session: tables that were put in force before aren't in force."""
        self.endings = collections.OrderedDict.fromkeys(self.endings, False)

    def end(self, is_well: bool, losers: set[Manager]) -> None:
        """The transaction ends, which some have lost by that."""
        if self.holder is not None:
            keep(self.endings, self.holder, is_well)
            keep(self.endings, self.holder[0], is_well)
        for it in losers:
            keep(self.lost, it, None)
        self.holder, self.ports = None, set()
