"""What the front keeps of a cabinet, and by what an object of the front is read."""

from collections.abc import Awaitable, Callable

from ...shared.ber import Arcs, Field
from ..street import Street
from .eventlog import EventLog
from .managers import Managers
from .side import Side
from .transaction import Transaction


class Front:
    """What the front keeps of a cabinet."""

    def __init__(self, street: Street, cabinet: int, managers: Managers, log: EventLog) -> None:
        self.street, self.cabinet, self.log = street, cabinet, log
        self.side = Side(street, cabinet)
        self.transaction = Transaction(self.side, street.downloads, managers)
        self.people = [0, 0]
        """The bits of the calls of people that were set last, by group."""
        self.is_undefined = False
        """Whether the pattern that was commanded last isn't defined."""


Read = Callable[[Front], Awaitable[Field]]


def constant(value: Field) -> Read:
    """Returns what reads a value that doesn't change."""

    async def read(front: Front) -> Field:
        return value

    return read


def kept(told: Callable[[Front], Field]) -> Read:
    """Returns what reads a value that the front keeps."""

    async def read(front: Front) -> Field:
        return told(front)

    return read


def by_stage(told: Callable[[Transaction], Field]) -> Read:
    """Returns what reads a value of the transaction, which follows the cabinet's stage."""

    async def read(front: Front) -> Field:
        await front.transaction.look()
        return told(front.transaction)

    return read


def rows(entry: Arcs, count: int, columns: dict[int, Callable[[int], Read]]) -> dict[Arcs, Read]:
    """Returns the cells of a table of this number of rows, by the function that reads a row's cell in each column."""
    return {entry + (column, row): read(row) for column, read in columns.items() for row in range(1, count + 1)}
