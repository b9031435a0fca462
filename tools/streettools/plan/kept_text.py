"""The text of a sheet with other splits in it: all other text stays as it was written, and so do comments.

It uses TOML Kit, Debian's python3-tomlkit."""

from collections.abc import MutableMapping
from typing import Any

from ..shared.tables import Tables
from . import reading, toml_text
from ..shared.cells import tables_of
from .fix import Change
from .reading import Street


def with_splits(text: str, changes: list[tuple[int, Change]], aim: Street) -> str | None:
    """Returns the text of a sheet with the splits of some changes, each with the number of its intersection from 1.
    None if such a text doesn't make the intended street; ModuleNotFoundError without TOML Kit."""
    import tomlkit
    from tomlkit.exceptions import TOMLKitError

    try:
        sheet: Any = tomlkit.parse(text)
    except TOMLKitError:
        return None
    for number, change in changes:
        row = row_of(sheet["intersection"][number - 1], change)
        if row is None:
            return None
        made = put(row["splits"], change.after, aim.names.intersection(number).partners)
        if made is not None:
            row["splits"] = tomlkit.inline_table()
            row["splits"].update(made)
    said = tomlkit.dumps(sheet)
    return said if comes_to(said, aim) else None


def put(times: MutableMapping, after: dict[int, int], partners: list[int]) -> dict[str, int] | None:
    """Puts times into the splits of a sheet. A name may mean several phases: if their times differ now, nothing is put,
    and splits in which each of them has a name of its own are returned. A partner that the sheet doesn't name gets its
    time by itself."""
    left = dict(after)
    made: dict[str, int] = {}
    for key, before in times.items():
        new = {word: left.pop(int(word), before) for word in key.replace(",", " ").split()}
        made |= new if len(set(new.values())) > 1 else {key: new.popitem()[1]}
    made |= {str(phase): time for phase, time in left.items() if phase not in partners}
    if not set(times) <= set(made):
        return made
    for key, time in made.items():
        if times.get(key) != time:
            times[key] = time
    return None


def row_of(intersection: MutableMapping, change: Change) -> MutableMapping | None:
    """Returns the table in which a sheet has the splits of a change: the pattern's, or the split's."""
    for name, number in (("pattern", change.pattern), ("split", change.split)):
        row = intersection.get(name, {}).get(str(number), {})
        if "splits" in row:
            return row
    return None


def comes_to(text: str, aim: Street) -> bool:
    """Tells whether a sheet has the tables that are aimed at."""
    street, faults = reading.read_sheet(toml_text.read(text))
    return not faults and tables_in(street) == tables_in(aim)


def tables_in(street: Street) -> list[dict]:
    """Returns the cells of each cabinet, those left out that are as in the standard table."""
    usual = Tables().cells
    return [
        {cell: value for cell, value in tables_of(it).cells.items() if usual.get(cell) != value}
        for it in street.scenario["cabinets"]
    ]
