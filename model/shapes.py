"""What is allowed at a place of a JSON value, and the first fault of what is there.

docs/SCENARIO.md, "What is refused, and how". A shape takes a value and its path, and returns what the value says; it
raises the first fault. A value's kind is checked before its range, a list's length before its items, and an object's
unknown names before its names in their order.
"""

import re
from collections.abc import Callable
from dataclasses import dataclass
from typing import Any

from model.cells import COLUMNS, ROWS, SUBS, Cell, Misfit, Octets, Table, Value, holds, misfit

Shape = Callable[[Any, str], Any]
NEEDED = object()
"""The default of a required name."""


class Refused(Exception):
    """The first fault of an input, as it is printed after `scenario: `."""


def field_fault(path: str) -> Refused:
    """Returns the fault of a value of the wrong kind."""
    return Refused(f"field {path}")


def limit_fault(path: str) -> Refused:
    """Returns the fault of a value out of its range."""
    return Refused(f"limit {path}")


def below(path: str, name: str) -> str:
    """Returns the path of a name in an object."""
    return name if path == "." else f"{path}.{name}"


def is_whole(value: Any) -> bool:
    """Tells whether a value is a whole number."""
    return isinstance(value, int) and not isinstance(value, bool)


def whole(low: int, high: int) -> Shape:
    """Returns the shape of a whole number in a range."""

    def shape(value: Any, path: str) -> int:
        if not is_whole(value):
            raise field_fault(path)
        if not low <= value <= high:
            raise limit_fault(path)
        return value

    return shape


def zero_or(low: int, high: int) -> Shape:
    """Returns the shape of a whole number that is 0 or in a range."""

    def shape(value: Any, path: str) -> int:
        return value if is_whole(value) and value == 0 else whole(low, high)(value, path)

    return shape


def word(words: dict[str, Any]) -> Shape:
    """Returns the shape of a text that is one of some words, each with what it says."""

    def shape(value: Any, path: str) -> Any:
        if not isinstance(value, str) or value not in words:
            raise field_fault(path)
        return words[value]

    return shape


def flag(value: Any, path: str) -> bool:
    """The shape of true and false."""
    if not isinstance(value, bool):
        raise field_fault(path)
    return value


def visible(low: int, high: int) -> Shape:
    """Returns the shape of a text of characters from space to `~`."""

    def shape(value: Any, path: str) -> bytes:
        if not isinstance(value, str) or not re.fullmatch(r"[ -~]*", value):
            raise field_fault(path)
        if not low <= len(value) <= high:
            raise limit_fault(path)
        return value.encode()

    return shape


def hexadecimal(text: Any) -> bytes | None:
    """Returns the octets that a text has in hexadecimal digits, None if it has none."""
    if not isinstance(text, str) or not re.fullmatch(r"(?:[0-9A-Fa-f]{2})*", text):
        return None
    return bytes.fromhex(text)


def octets(most: int) -> Shape:
    """Returns the shape of a text of octets in hexadecimal digits."""

    def shape(value: Any, path: str) -> bytes:
        read = hexadecimal(value)
        if read is None:
            raise field_fault(path)
        if len(read) > most:
            raise limit_fault(path)
        return read

    return shape


def list_of(item: Shape, low: int, high: int) -> Shape:
    """Returns the shape of a list."""

    def shape(value: Any, path: str) -> list[Any]:
        if not isinstance(value, list):
            raise field_fault(path)
        if not low <= len(value) <= high:
            raise limit_fault(path)
        return [item(it, f"{path}[{place}]") for place, it in enumerate(value)]

    return shape


@dataclass(frozen=True)
class Named:
    """A name of an object: the shape of its value, and its default."""

    name: str
    shape: Shape
    default: Any = NEEDED


def names_known(value: Any, path: str, known: list[str]) -> dict[str, Any]:
    """Returns an object that has no other names than some."""
    if not isinstance(value, dict):
        raise field_fault(path)
    unknown = sorted((name for name in value if name not in known), key=str.encode)
    if unknown:
        raise field_fault(below(path, unknown[0]))
    return value


def told(value: dict[str, Any], path: str, named: Named) -> Any:
    """Returns what the value of a name says, or its default."""
    if named.name in value:
        return named.shape(value[named.name], below(path, named.name))
    if named.default is NEEDED:
        raise field_fault(below(path, named.name))
    return named.default


def fields(value: Any, path: str, names: list[Named]) -> dict[str, Any]:
    """Returns what the names of an object say."""
    known = names_known(value, path, [it.name for it in names])
    return {it.name: told(known, path, it) for it in names}


def alternatives(value: Any, path: str, common: list[Named], choices: dict[str, list[Named]]) -> dict[str, Any]:
    """Returns what the names of an object say that has some names and those of one alternative. An alternative is
    chosen by its first name. If two or none are chosen, the fault is the object's, after those of the common names."""
    standing = [first for first in choices if isinstance(value, dict) and first in value]
    one = choices[standing[0]] if len(standing) == 1 else [it for choice in choices.values() for it in choice]
    known = names_known(value, path, [it.name for it in common + one])
    says = {it.name: told(known, path, it) for it in common}
    if len(standing) != 1:
        raise field_fault(path)
    return says | {it.name: told(known, path, it) for it in one}


TABLES = {table.value: table for table in Table}


def cell_named(value: Any) -> Cell | None:
    """Returns the cell that a list names, None if it names none."""
    if not isinstance(value, list) or not value or not isinstance(value[0], str) or value[0] not in TABLES:
        return None
    table, places = TABLES[value[0]], value[1:-1]
    has_row, has_sub, has_column = ROWS[table] > 0, table in SUBS, len(COLUMNS[table]) > 1
    if len(value) < 2 or len(places) != has_row + has_sub + has_column or not all(map(is_whole, places)):
        return None
    left = iter(places)
    row, sub = next(left) if has_row else 0, next(left) if has_sub else 0
    found = Cell(table, row, sub, next(left) if has_column else next(iter(COLUMNS[table])))
    return found if holds(found) else None


def cell(value: Any, path: str) -> tuple[Cell, Value]:
    """The shape of a cell with its value. Whatever is wrong in it, the path is the cell's."""
    found = cell_named(value)
    if found is None:
        raise field_fault(path)
    last = value[-1]
    given = hexadecimal(last) if isinstance(holds(found), Octets) else last if is_whole(last) else None
    if given is None:
        raise field_fault(path)
    if misfit(found, given) is Misfit.RANGE:
        raise limit_fault(path)
    return found, given
