"""What has to be counted in a run for the measures that are asked."""

from collections.abc import Iterable

from ..shared.tables import ALL
from .choice import Column
from .measures import Part, Scope


class Needs:
    """What some columns need. Without columns all is counted."""

    def __init__(self, columns: Iterable[Column] = ()) -> None:
        self.columns = tuple(columns)
        parts = {it.measure.part for it in self.columns} if self.columns else set(Part)
        self.endings, self.waits, self.walks, self.cycles = (
            part in parts for part in (Part.ENDINGS, Part.WAITS, Part.WALKS, Part.CYCLES)
        )
        self.inputs = self.endings or self.waits or self.walks
        self.named = {(it.cabinet, it.phase) for it in self.columns if it.measure.scope is Scope.PHASE}
        self.kept: dict[int, list[int]] = {}

    def phases(self, cabinet: int) -> list[int]:
        """Returns the phases of a cabinet that are counted."""
        if cabinet not in self.kept:
            self.kept[cabinet] = [phase for phase in ALL if self.is_counted(cabinet, phase)]
        return self.kept[cabinet]

    def is_counted(self, cabinet: int, phase: int) -> bool:
        """Tells whether a phase is counted."""
        places = ((None, None), (cabinet, None), (None, phase), (cabinet, phase))
        return not self.columns or any(it in self.named for it in places)
