"""The tables that a cabinet has in force, read as management software reads them: what pages must know of them.

So a page is right after any download, whoever has brought it.
"""

import itertools
from collections.abc import Awaitable, Callable
from typing import Any

from ...shared.oids import VERSION, object_of
from ...shared.tables import ALL, Tables
from .layout import DWELL, PREEMPTS

Name = tuple[int, ...]
Cell = tuple[Any, ...]
Values = list[int | tuple[int, ...]]
Asked = Callable[[list[Name]], Awaitable[Values | None]]
"""Gets some objects: their numbers, or octets; None where the cabinet is silent."""

REFERENCE = ("unit", 8)
PHASE_COLUMNS, PATTERN_COLUMNS, SPLIT_COLUMNS = (2, 8, 9, 21, 22, 23), (2, 3, 4, 5), (3, 5)
"""Walk, clearances, options, ring and partners of phases; cycle, offset, split and sequence of patterns; times of
splits, and which phases they coordinate."""
AT_ONCE = 30
"""How many objects a message asks for, beside the version."""


class Changed(Exception):
    """A download came into force while tables were read, or the cabinet is silent: it is to be read again."""


async def taken(asked: Asked, cells: list[Cell], tables: Tables, version: int) -> None:
    """Puts the values of some cells into tables, all of them of this version."""
    for at in range(0, len(cells), AT_ONCE):
        part = cells[at : at + AT_ONCE]
        values = await asked([VERSION, *map(object_of, part)])
        if values is None or values[0] != version:
            raise Changed
        tables.cells.update(zip(part, values[1:], strict=True))


async def read(asked: Asked, version: int) -> Tables:
    """Returns the tables of this version, as far as pages need them."""
    tables = Tables()
    tables.cells = {}
    first = [("phase", phase, column) for phase in ALL for column in PHASE_COLUMNS]
    first += [("pattern", pattern, column) for pattern in range(1, 49) for column in PATTERN_COLUMNS]
    first += [("preempt", preempt, DWELL) for preempt in PREEMPTS]
    await taken(asked, [REFERENCE, *first], tables, version)
    patterns = tables.patterns()
    splits = sorted({tables.pattern(it, 4) for it in patterns} & set(range(1, 33)))
    sequences = sorted({1, *(tables.pattern(it, 5) for it in patterns)} & set(range(1, 17)))
    rest: list[Cell] = [("split", *it) for it in itertools.product(splits, ALL, SPLIT_COLUMNS)]
    rest += [("sequence", *it) for it in itertools.product(sequences, (1, 2))]
    await taken(asked, rest, tables, version)
    return tables
