"""Reads a sweep's table for its pictures: rows by parameter, means over all that isn't shown."""

import math
from collections import defaultdict
from collections.abc import Iterable
from dataclasses import dataclass
from pathlib import Path
from typing import Any

from ..shared.fault import Fault
from ..shared.status import Status
from .one_run import Outcome


@dataclass(frozen=True)
class Spot:
    """A value over several runs: the least, the mean and the greatest."""

    least: float
    mean: float
    greatest: float


class Results:
    """A table of a sweep; runs that were not done are left out."""

    def __init__(self, path: Path) -> None:
        import pandas

        try:
            read = pandas.read_parquet if path.suffix == ".parquet" else pandas.read_csv
            frame = read(path)
        except OSError as fault:
            raise Fault(f"{path}: {fault.strerror or fault}", Status.FILE) from None
        except (ValueError, pandas.errors.ParserError, ImportError) as fault:
            raise Fault(f"{path}: no table: {str(fault).splitlines()[0]}") from None
        if not {"run", "outcome"} <= set(frame.columns):
            raise Fault(f"{path}: no table of a sweep")
        self.path, self.frame = path, frame[frame["outcome"] == Outcome.DONE.value]
        if self.frame.empty:
            raise Fault(f"{path}: no run of it was done")
        names = list(frame.columns)
        self.parameters = [it for it in names[1 : names.index("outcome")] if it != "seed"]

    def column(self, name: str, is_measure: bool = True) -> Any:
        """Returns a column, which has to be there, and to have numbers where it is measured."""
        import pandas

        if name not in self.frame.columns:
            raise Fault(f"{self.path} has no column {name}: it has {', '.join(self.frame.columns)}")
        column = self.frame[name]
        if is_measure and not (pandas.api.types.is_numeric_dtype(column) and column.notna().any()):
            raise Fault(f"{self.path}: the column {name} has no numbers")
        return column

    def grouped(self, by: list[str], measure: str) -> dict[tuple[Any, ...], Spot]:
        """Returns a measure over runs that are alike in some columns; runs without it are left out."""
        found: dict[tuple[Any, ...], list[float]] = defaultdict(list)
        columns = [self.column(it, False) for it in by]
        for *key, value in zip(*columns, self.column(measure)):
            if value == value:
                found[tuple(key)].append(float(value))
        return {key: Spot(min(it), round(math.fsum(it) / len(it), 9), max(it)) for key, it in found.items()}

    def unit(self, name: str) -> str:
        """Returns a measure's name with its unit, for an axis."""
        from . import measures

        known = [it for it in measures.ALL if name == it or name.startswith((f"{it}_c", f"{it}_p"))]
        unit = measures.ALL[max(known, key=len)].unit if known else ""
        return f"{name} ({unit})" if unit else name


def in_order(values: Iterable[Any]) -> list[Any]:
    """Returns different values in their order; texts keep the order in which they come."""
    found = list(dict.fromkeys(values))
    return found if any(isinstance(it, str) for it in found) else sorted(found)
