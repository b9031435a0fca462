"""The names and values of a scenario (docs/SCENARIO.md): each fault with its path and in words, in the order in which
the program looks."""

import json
from collections.abc import Callable, Iterator
from typing import Any, NamedTuple

from .cells import LONGEST_LIST, Lists, kinds

MOST_TICKS = 55_296_000
MOST_BYTES = 16_777_216
WHOLE = "."


class Fault(NamedTuple):
    """A value that is missing, unknown, or of the wrong kind (`field`), or beyond its limits (`limit`)."""

    what: str
    path: str
    words: str

    @property
    def line(self) -> str:
        """What the program says of it."""
        return f"scenario: {self.what} {self.path}"


Test = Callable[[str, Any], Iterator[Fault]]


def below(path: str, name: str) -> str:
    """Returns the path of a name in an object."""
    return name if path == WHOLE else f"{path}.{name}"


def shown(value: object) -> str:
    """Returns a value in a few words."""
    if isinstance(value, str):
        words = json.dumps(value[:60], ensure_ascii=False)
    else:
        words = {bool: str(value).lower(), type(None): "null", dict: "an object", list: "a list"}.get(
            type(value), repr(value)
        )
    return words if len(words) < 60 else words[:57] + ".."


def whole(low: int, high: int, also: int | None = None, meaning: str = "") -> Test:
    """Returns what tests a whole number for its range; one more number may be allowed."""
    range_ = f"{low} to {high}" + (f", or {also}" if also is not None else "")
    tail = f": {meaning}" if meaning else ""

    def test(path: str, value: object) -> Iterator[Fault]:
        if type(value) is not int:
            hint = ", written without point and exponent" if type(value) is float else ""
            yield Fault("field", path, f"expected a whole number from {range_}{hint}, found {shown(value)}{tail}")
        elif not low <= value <= high and value != also:
            yield Fault("limit", path, f"expected {range_}, found {value}{tail}")

    return test


def word(*words: str) -> Test:
    """Returns what tests a text for being one of some words."""

    def test(path: str, value: object) -> Iterator[Fault]:
        if type(value) is not str or value not in words:
            known = ", ".join(f'"{it}"' for it in words)
            yield Fault("field", path, f"expected one of {known}, found {shown(value)}")

    return test


def flag(path: str, value: object) -> Iterator[Fault]:
    """Tests a value for being true or false."""
    if type(value) is not bool:
        yield Fault("field", path, f"expected true or false, found {shown(value)}")


def community(path: str, value: object) -> Iterator[Fault]:
    """Tests a community's name."""
    if type(value) is not str or not all(" " <= letter <= "~" for letter in value):
        yield Fault("field", path, f"expected a text of characters from space to ~, found {shown(value)}")
    elif not 1 <= len(value) <= 32:
        yield Fault("limit", path, f"expected 1 to 32 characters, found {len(value)}")


def octets(most: int) -> Test:
    """Returns what tests a text for being hexadecimal, of at most this number of bytes."""

    def test(path: str, value: object) -> Iterator[Fault]:
        if type(value) is not str or len(value) % 2 or any(it not in "0123456789abcdefABCDEF" for it in value):
            yield Fault("field", path, f"expected hexadecimal bytes, two digits each, found {shown(value)}")
        elif len(value) > 2 * most:
            yield Fault("limit", path, f"expected at most {most} bytes, found {len(value) // 2}")

    return test


def listing(low: int, high: int, item: Test) -> Test:
    """Returns what tests a list for its length, and then each item."""

    def test(path: str, value: object) -> Iterator[Fault]:
        if type(value) is not list:
            yield Fault("field", path, f"expected a list, found {shown(value)}")
            return
        if not low <= len(value) <= high:
            yield Fault("limit", path, f"expected {low} to {high} items, found {len(value)}")
        for place, it in enumerate(value):
            yield from item(f"{path}[{place}]", it)

    return test


CELL_LENGTHS = {"phase": 4, "sequence": 4, "unit": 3, "pattern": 4, "split": 5, "preempt": 4}


def cell(path: str, value: object) -> Iterator[Fault]:
    """Tests a cell. Each fault in it is reported at the path of the cell."""
    if type(value) is not list or not value or type(value[0]) is not str or value[0] not in CELL_LENGTHS:
        known = ", ".join(f'"{it}"' for it in CELL_LENGTHS)
        found = shown(value[0]) if type(value) is list and value else shown(value)
        yield Fault("field", path, f"expected a cell that begins with one of {known}, found {found}")
        return
    name, *numbers, new = value
    wanted = CELL_LENGTHS[name]
    if len(value) != wanted:
        yield Fault("field", path, f'expected {wanted} parts in a cell of "{name}", found {len(value)}')
        return
    key = (name, *numbers)
    if any(type(it) is not int for it in numbers) or key not in kinds():
        yield Fault("field", path, f"cell {' '.join(map(shown, key))} doesn't exist")
        return
    kind = kinds()[key]
    if isinstance(kind, Lists):
        test = octets(LONGEST_LIST)
    else:
        test = whole(kind.least, kind.most)
    for fault in test(path, new):
        yield Fault(fault.what, path, f"cell {' '.join(map(str, key))}: {fault.words}")


class Name(NamedTuple):
    """A name of an object: what tests its value, and whether it is required."""

    test: Test
    needed: bool = True
    meaning: str = ""


def must(test: Test) -> Name:
    """Says that a name is required."""
    return Name(test)


def may(test: Test) -> Name:
    """Says that a name may be absent."""
    return Name(test, False)


def members(path: str, value: dict[str, Any], names: dict[str, Name]) -> Iterator[Fault]:
    """Tests the names of an object, in order."""
    for name, it in names.items():
        if name in value:
            yield from it.test(below(path, name), value[name])
        elif it.needed:
            yield Fault("field", below(path, name), f'required name "{name}" is missing')


def thing(names: dict[str, Name], alternatives: tuple[dict[str, Name], ...] = (), after: Test | None = None) -> Test:
    """Returns what tests an object: its names in order; then the alternative that is there, known by its first
    name; then what must hold of it all."""

    def test(path: str, value: object) -> Iterator[Fault]:
        if type(value) is not dict:
            yield Fault("field", path, f"expected an object, found {shown(value)}")
            return
        standing = [it for it in alternatives if next(iter(it)) in value]
        known = set(names).union(*(standing if len(standing) == 1 else alternatives))
        for name in sorted(value, key=str.encode):
            if name not in known:
                listed = ", ".join(sorted(known))
                yield Fault("field", below(path, name), f"unknown name {shown(name)}; known names: {listed}")
        yield from members(path, value, names)
        if len(standing) == 1:
            yield from members(path, value, standing[0])
        elif alternatives:
            firsts = ", ".join(next(iter(it)) for it in alternatives)
            yield Fault("field", path, f"expected exactly one of {firsts}, found {len(standing)}")
        if after:
            yield from after(path, value)

    return test
