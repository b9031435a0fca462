"""Cells of tables in words, as `phase 4 min_green 10` or `preempt 1 dwell 2,5`: with the names of a timing sheet."""

from collections.abc import Mapping
from typing import Any

from ..plan.fields import (
    OPTIONS, PATTERN_FIELDS, PHASE_FIELDS, PREEMPT_FIELDS, SPLIT_MODES, SPLIT_TIME, UNIT_FIELDS, Field, Phases, Time,
    Word, flag, read_option,
)  # fmt: skip
from ..shared.cells import put, value, written
from ..shared.given import Wrong
from ..shared.tables import Cell, Tables

EXAMPLES = "phase 4 min_green 10; coordination correction shortway; pattern 2 cycle 100; split 1 phase 4 time 20; " \
    "sequence 2 ring 1 2,1,3,4; preempt 1 dwell 2,5"  # fmt: skip
FLAGS = {"true": True, "false": False}
TABLES: dict[str, tuple[Mapping[str, Field], int]] = {
    "phase": (PHASE_FIELDS, 16), "pattern": (PATTERN_FIELDS, 48), "preempt": (PREEMPT_FIELDS, 8),
}  # fmt: skip


def row_of(word: str, what: str, most: int) -> int:
    """Returns the number of a row."""
    if not word.isdecimal() or len(word) > 3 or not 1 <= int(word) <= most:
        raise Wrong(f"{word!r} is not a {what} from 1 to {most}")
    return int(word)


def phases_in(text: str) -> list[int]:
    """Returns a list of phases, as 2,6; none is an empty list."""
    try:
        return [] if text == "none" else [int(it) for it in text.split(",")]
    except ValueError:
        raise Wrong(f"{text!r} is not a list of phases, as 2,6") from None


def read(field: Field, text: str) -> Any:
    """Returns the value of a cell by its field and a text."""
    if isinstance(field, Time):
        try:
            return field.read(float(text))
        except ValueError:
            raise Wrong(f"{text!r} is not a number") from None
    if isinstance(field, Word):
        return field.read(text)
    assert isinstance(field, Phases)
    return field.read(phases_in(text))


def split_cell(words: list[str], tables: Tables) -> tuple[Cell, Any]:
    """Returns a cell of the splits: `N phase P time|mode|coordinated VALUE`."""
    if len(words) < 5 or words[1] != "phase":
        raise Wrong("expected a split, as split 1 phase 4 time 20")
    split, phase = row_of(words[0], "split", 32), row_of(words[2], "phase", 16)
    name, text = words[3], " ".join(words[4:])
    if name == "time":
        return ("split", split, phase, 3), read(SPLIT_TIME, text)
    if name == "mode":
        return ("split", split, phase, 4), read(SPLIT_MODES, text)
    if name == "coordinated" and text in FLAGS:
        return ("split", split, phase, 5), int(FLAGS[text])
    raise Wrong(f"{name} {text} is not time, mode or coordinated (true or false) of a split")


def sequence_cell(words: list[str]) -> tuple[Cell, Any]:
    """Returns a cell of the sequences: `N ring R LIST`."""
    if len(words) != 4 or words[1] != "ring":
        raise Wrong("expected a sequence, as sequence 2 ring 1 2,1,3,4")
    return ("sequence", row_of(words[0], "sequence", 16), row_of(words[2], "ring", 2)), tuple(phases_in(words[3]))


def cell_of(line: str, tables: Tables) -> tuple[Cell, Any]:
    """Returns the cell and the value that a line names. An option of a phase is set in the options that `tables`
    have."""
    table, *words = line.split()
    if table == "split":
        return split_cell(words, tables)
    if table == "sequence":
        return sequence_cell(words)
    if table == "coordination" and len(words) >= 2 and words[0] in UNIT_FIELDS:
        field = UNIT_FIELDS[words[0]]
        return ("unit", field.column), read(field, " ".join(words[1:]))
    if table not in TABLES or len(words) < 3:
        raise Wrong(f"{line!r} is not a cell, as {EXAMPLES}")
    fields, most = TABLES[table]
    number, name, text = row_of(words[0], table, most), words[1], " ".join(words[2:])
    if table == "phase" and name in OPTIONS:
        given: object = FLAGS.get(text, text if text == "none" else text.split(","))
        flag(given) if name in ("enabled", "locking", "dual_entry") else None
        return ("phase", number, 21), read_option(name, given, value(tables, ("phase", number, 21)))
    if name not in fields:
        raise Wrong(f"{name} is not known of a {table}: {', '.join(fields)}")
    return (table, number, fields[name].column), read(fields[name], text)


def cells_of(lines: tuple[str, ...], tables: Tables) -> list[list[Any]]:
    """Returns the cells, as a scenario has them, that lines put into tables, which stay as they are."""
    new, found = tables.copy(), []
    for line in lines:
        if not line.split():
            raise Wrong("an empty line")
        cell, its = cell_of(line, new)
        put(new, cell, its)
        found.append(written(cell, its))
    return found
