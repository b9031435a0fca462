"""A changed plan in the text of its sheet: all other text stays as it was written, and so do comments and order.

It uses TOML Kit, Debian's python3-tomlkit."""

from collections.abc import Iterator, MutableMapping
from typing import Any

import tomlkit

from ...shared.cells import differing, tables_of, value
from ...shared.tables import Cell, Tables
from .. import drawing, kept_text, toml_text, writing
from ..fields import PATTERN_FIELDS, PHASE_FIELDS, UNIT_FIELDS
from ..reading import Street
from .plans import Plan

Row = MutableMapping[str, Any]


class NotInPlace(Exception):
    """A change can't be written in place."""


def from_values(plan: Plan) -> str:
    """Returns the text of a plan from its values, without comments: for changes that can't be made in place."""
    return toml_text.text(writing.sheet_of(plan.written()))


def means(street: Street, aim: Plan) -> bool:
    """Tells whether a street that was read is the one of a plan."""
    travels = [[it.travel for it in names.intersections] for names in (street.names, aim.names)]
    found = (tables_of(it) for it in street.scenario["cabinets"])
    return travels[0] == travels[1] and not any(differing(*pair) for pair in zip(found, aim.tables, strict=True))


def in_place(text: str, before: Plan, after: Plan) -> str:
    """Returns the text with the values that differ put in place."""
    sheet: Any = tomlkit.parse(text)
    for number in after.numbers:
        old, new = before.of(number), after.of(number)
        row = sheet["intersection"][number - 1]
        if (travel := after.names.intersection(number).travel) != before.names.intersection(number).travel:
            row["travel"] = plain(travel)
        if new is not old:
            put_cells(row, old, new, after.names.intersection(number).partners)
    return tomlkit.dumps(sheet)


def plain(number: Any) -> Any:
    """Returns a number without a decimal point if it is whole."""
    return int(number) if isinstance(number, float) and number == int(number) else number


def put_cells(row: Row, old: Tables, new: Tables, partners: list[int]) -> None:
    """Puts the cells that differ into an intersection of a sheet."""
    splits: dict[int, dict[int, int]] = {}
    sequences: set[int] = set()
    for cell in differing(old, new):
        match cell:
            case ("split", number, phase, 3):
                splits.setdefault(number, {})[phase] = value(new, cell)
            case ("sequence", number, _):
                sequences.add(number)
            case _:
                put_cell(row, cell, value(new, cell))
    for number in sorted(sequences):
        put_sequence(row, number, new, partners)
    for number, times in splits.items():
        put_splits(row, old, number, times, partners)


def put_cell(row: Row, cell: Cell, new: Any) -> None:
    """Puts a time of a phase, a limit, or a number of a pattern into an intersection of a sheet."""
    match cell:
        case ("phase", phase, column):
            name = next(name for name, it in PHASE_FIELDS.items() if it.column == column)
            put_inline(inline(below(row, "phase"), str(phase)), name, plain(PHASE_FIELDS[name].show(new)))
        case ("unit", column):
            name = next(name for name, it in UNIT_FIELDS.items() if it.column == column)
            below(row, "coordination")[name] = plain(UNIT_FIELDS[name].show(new))
        case ("pattern", pattern, column):
            name = next(name for name, it in PATTERN_FIELDS.items() if it.column == column)
            below(below(row, "pattern"), str(pattern))[name] = new
        case _:
            raise NotInPlace


def below(row: Row, name: str) -> Row:
    """Returns a table of a sheet, made if it isn't there."""
    if name not in row:
        row[name] = tomlkit.table()
    found: Row = row[name]
    return found


def inline(table: Row, name: str) -> Row:
    """Returns the row of a phase, made in one line if it isn't there. A row that means several phases stays: one that
    follows it takes precedence."""
    if name not in table:
        table[name] = tomlkit.inline_table()
    found: Row = table[name]
    return found


def put_inline(table: Row, name: str, value: Any) -> None:
    """Puts a value into a table in one line; TOML Kit puts a blank before a new name only if it is appended."""
    if name in table:
        table[name] = value
    else:
        table.append(name, value)  # type: ignore[attr-defined]


def put_sequence(row: Row, number: int, new: Tables, partners: list[int]) -> None:
    """Puts a sequence into an intersection of a sheet, with bars at the barriers."""
    if number == 1:
        raise NotInPlace
    rings = [tuple(it for it in value(new, ("sequence", number, ring)) if it not in partners) for ring in (1, 2)]
    lines = tomlkit.array()
    lines.extend(drawing.order_lines(drawing.of_tables(new), rings))
    below(row, "sequence")[str(number)] = lines


def rows_with_splits(row: Row, tables: Tables, split: int) -> Iterator[Row]:
    """Yields the tables of an intersection that have the splits of a number: the split's, or a pattern's."""
    named = {("split", str(split))} | {
        ("pattern", str(it)) for it in range(1, 49) if value(tables, ("pattern", it, 4)) == split
    }
    for kind, name in sorted(named):
        found = row.get(kind, {}).get(name, {})
        if "splits" in found:
            yield found


def put_splits(row: Row, old: Tables, split: int, times: dict[int, int], partners: list[int]) -> None:
    """Puts splits into an intersection of a sheet."""
    found = next(rows_with_splits(row, old, split), None)
    if found is None:
        new, found = standard_splits(old, split, times, partners), row_for_splits(row, old, split)
    else:
        new = kept_text.put(found["splits"], times, partners)
    if new is not None:
        found["splits"] = tomlkit.inline_table()
        found["splits"].update(new)


def standard_splits(old: Tables, split: int, times: dict[int, int], partners: list[int]) -> dict[str, int] | None:
    """Returns the splits of all phases where the sheet leaves them to the standard table."""
    phases = [it for it in old.enabled() if it not in partners]
    return {str(it): times.get(it, value(old, ("split", split, it, 3))) for it in phases}


def row_for_splits(row: Row, old: Tables, split: int) -> Row:
    """Returns the table of the first pattern that uses a split."""
    pattern = next((it for it in old.patterns() if value(old, ("pattern", it, 4)) == split), None)
    if pattern is None:
        raise NotInPlace
    return below(below(row, "pattern"), str(pattern))
