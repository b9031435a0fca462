"""Writes the table of a sweep: CSV, or Parquet if Python's pyarrow is installed. Line by line, so any number of runs
fits into memory."""

import csv
import json
import tempfile
from collections.abc import Iterable, Iterator
from pathlib import Path
from typing import Any

from ..shared import files
from ..shared.fault import Fault
from ..shared.status import Status

CHUNK = 10_000

Line = list[Any]
"""A line of a table: a value for each column."""


def check(path: Path) -> None:
    """Refuses a table that can't be written, before anything is run."""
    if path.suffix not in (".csv", ".parquet"):
        raise Fault(f"{path}: the table's name has to end in .csv or .parquet")
    if not path.parent.is_dir():
        raise Fault(f"{path.parent}: no such folder", Status.FILE)
    if path.suffix == ".parquet":
        try:
            import pyarrow.parquet  # noqa: F401
        except ModuleNotFoundError:
            raise Fault(
                f"{path}: Python's pyarrow is missing, which Debian does not package; a name in .csv needs nothing",
                Status.FILE,
            ) from None


def cell(value: Any) -> Any:
    """Returns a value as a cell of CSV holds it."""
    if isinstance(value, (list, dict, bool)):
        return json.dumps(value, separators=(",", ":"))
    return "" if value is None else value


def write(path: Path, names: list[str], lines: Iterable[list[Any]]) -> None:
    """Writes the table whole, or not at all."""
    try:
        with files.whole(path) as name:
            if path.suffix == ".parquet":
                write_parquet(name, names, lines)
            else:
                with open(name, "w", encoding="utf-8", newline="") as out:
                    writer = csv.writer(out, lineterminator="\n")
                    writer.writerow(names)
                    writer.writerows([cell(it) for it in line] for line in lines)
    except OSError as fault:
        raise Fault(
            f"{path}: {fault.strerror}; the runs are kept, and --resume writes the table", Status.FILE
        ) from None


def chunks(lines: Iterable[Line]) -> Iterator[list[Line]]:
    """Yields lines in lists of at most `CHUNK`; at least one list."""
    found: list[Line] = []
    for line in lines:
        found.append(line)
        if len(found) == CHUNK:
            yield found
            found = []
    yield found


def numeric_columns(count: int, lines: Iterable[Line]) -> list[bool]:
    """Returns for each of `count` columns whether it has numbers, and nothing else, in all lines."""
    seen, other = [False] * count, [False] * count
    for line in lines:
        for place, it in enumerate(line):
            if it is not None:
                seen[place] = True
                other[place] = other[place] or isinstance(it, bool) or not isinstance(it, (int, float))
    return [has and not text for has, text in zip(seen, other)]


def write_parquet(name: str, names: list[str], lines: Iterable[Line]) -> None:
    """Writes Parquet. A column of numbers is one of 64-bit floats, any other is text. The lines are kept in a temporary
    file until all are known."""
    import pyarrow
    import pyarrow.parquet

    with tempfile.TemporaryFile("w+", encoding="utf-8") as kept:

        def keeping() -> Iterator[Line]:
            for line in lines:
                kept.write(json.dumps(line) + "\n")
                yield line

        numeric = numeric_columns(len(names), keeping())
        kept.seek(0)
        kinds = [pyarrow.float64() if it else pyarrow.string() for it in numeric]
        schema = pyarrow.schema(list(zip(names, kinds)))
        with pyarrow.parquet.ParquetWriter(name, schema) as writer:
            for chunk in chunks(map(json.loads, kept)):
                columns = list(zip(*chunk)) or [()] * len(names)
                values = [
                    [it if is_number or it is None else str(cell(it)) for it in column]
                    for is_number, column in zip(numeric, columns)
                ]
                writer.write_table(pyarrow.table(values, schema=schema))
