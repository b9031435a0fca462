"""The downloads that the master sends to a cabinet, message by message.

docs/SCENARIO.md, "What is sent in a round", stream `load`.
"""

from dataclasses import dataclass

from model.cells import Cell, Value
from model.lines_of_master import load_done, load_refused
from model.messages import Bind, Message
from model.names import Scalar, oid_of_cell
from model.scenario import Item

CELLS_OF_A_PART = 24


@dataclass(frozen=True)
class Load:
    """A download: its number at the cabinet, and its parts."""

    number: int
    parts: list[list[tuple[Cell, Value]]]

    def steps(self) -> list[list[Bind]]:
        """Returns the bindings of its messages in order: begin, the parts, verify, finish."""
        named = Bind(Scalar.ID.value, self.number)
        parts = [
            [named, Bind(Scalar.PART.value, k), *(Bind(oid_of_cell(cell), value) for cell, value in cells)]
            for k, cells in enumerate(self.parts, 1)
        ]
        begin = [Bind(Scalar.BEGIN.value, self.number)]
        return [begin, *parts, [named, Bind(Scalar.TOTAL.value, len(parts))], [named, Bind(Scalar.FINISH.value, 1)]]


def load_of(number: int, cells: list[tuple[Cell, Value]]) -> Load:
    """Returns a download by its cells: each part has 24, the last may have fewer."""
    return Load(number, [cells[at : at + CELLS_OF_A_PART] for at in range(0, len(cells), CELLS_OF_A_PART)])


class Loader:
    """The downloads of a cabinet: which is under way, at which message, and the number of the latest frame of it."""

    def __init__(self, cabinet: int, items: list[Item]) -> None:
        self.cabinet = cabinet
        self.waiting = [(item.round, load_of(number, item.what)) for number, item in enumerate(items, 1)]
        self.load: Load | None = None
        self.step = 0
        self.latest: int | None = None

    def hear(self, message: Message) -> list[bytes]:
        """Takes a Response, and returns the note of a download that ends with it. One that doesn't answer the latest
        frame is dropped."""
        if self.load is None or self.latest is None or message.id != self.latest:
            return []
        load, self.latest = self.load, None
        if message.status != 0:
            self.load = None
            return [load_refused(self.cabinet, load.number, message.status, message.index)]
        self.step += 1
        if self.step < len(load.steps()):
            return []
        self.load = None
        return [load_done(self.cabinet, load.number)]

    def next(self, number: int, frame_id: int) -> list[Bind] | None:
        """Returns the bindings of the frame to be sent in a round under an id; None where there is none."""
        if self.load is None and self.waiting and self.waiting[0][0] <= number:
            self.load, self.step = self.waiting.pop(0)[1], 0
        if self.load is None:
            return None
        self.latest = frame_id
        return self.load.steps()[self.step]
