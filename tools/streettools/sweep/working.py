"""What a worker does: it makes the study ready once, and then runs variants by their numbers."""

from collections.abc import Iterable
from pathlib import Path
from typing import Any

from .prepared import prepared
from .variants import Asked


class Work:
    """A study on a worker."""

    def __init__(self, task: dict[str, Any], program: Path) -> None:
        files: dict[str, bytes] = task["files"]
        self.prepared = prepared(task["study"], files.__getitem__, program)
        self.runner = self.prepared.runner(task["check"], task["seconds"])

    def rows(self, asked: Iterable[Asked]) -> list[list[Any]]:
        """Returns the results of some variants."""
        return [self.runner.row(self.prepared.variants.of(it)) for it in asked]
