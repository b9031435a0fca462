"""Files in TOML, and what their tables say: each name once, each of its kind, and no other names.

A table is read in one of two ways: the first fault is raised, or all faults are collected and reading continues."""

import difflib
import math
import pathlib
import sys
import tomllib
from collections.abc import Callable, Iterable, Iterator, Mapping
from dataclasses import dataclass
from typing import Any

from .fault import Fault
from .status import Status

NUMBER = (int, float)
KINDS = {
    int: "a whole number",
    NUMBER: "a number",
    str: "a text",
    list: "a list",
    dict: "a table",
    bool: "true or false",
}
DEEPEST = 32
"""Lists and tables may be nested so deep."""


def plain(text: str) -> dict[str, Any]:
    """Returns what a text in TOML says. Raises ValueError if it isn't valid TOML, if lists and tables are nested too
    deep, and if a number is infinite, is none (nan), or takes more than 64 bits."""
    try:
        found = tomllib.loads(text)
    except RecursionError:
        raise ValueError("lists and tables are nested too deep") from None
    refuse_strange(found)
    return found


def refuse_strange(document: dict[str, Any]) -> None:
    """Refuses what `plain` refuses of a document, with a ValueError."""
    waiting: list[tuple[Any, int]] = [(document, 0)]
    while waiting:
        value, depth = waiting.pop()
        if depth > DEEPEST:
            raise ValueError(f"lists and tables are nested more than {DEEPEST} deep")
        if isinstance(value, float) and not math.isfinite(value):
            raise ValueError(f"{value} is not allowed as a number")
        if isinstance(value, int) and not -(2**63) <= value < 2**63:
            raise ValueError("a whole number takes more than 64 bits")
        if isinstance(value, (dict, list)):
            below = value.values() if isinstance(value, dict) else value
            waiting += [(it, depth + 1) for it in below]


def toml_of(content: bytes, name: object) -> dict[str, Any]:
    """Returns what a file of this name says, by its content in TOML."""
    try:
        return plain(content.decode().replace("\r\n", "\n"))
    except ValueError as fault:
        raise Fault(f"{name}: not valid TOML: {fault}") from None


def read_toml(path: pathlib.Path) -> "Given":
    """Reads a file of tables."""
    return Given(toml_of(content_of(path), path), str(path))


def content_of(path: pathlib.Path | str) -> bytes:
    """Returns the content of a file; `-` is standard input."""
    try:
        return sys.stdin.buffer.read() if str(path) == "-" else pathlib.Path(path).read_bytes()
    except (OSError, ValueError) as fault:
        raise Fault(f"{path}: {getattr(fault, 'strerror', None) or fault}", Status.FILE) from None


def is_of(value: Any, kind: Any) -> bool:
    """Tells whether a value is of a kind; true and false aren't numbers."""
    return isinstance(value, kind) and (kind in (bool, object) or not isinstance(value, bool))


def is_shown(value: object) -> bool:
    """Tells whether a value has only characters that a terminal prints: no escapes, no line ends. Only texts may lack
    that."""
    return not isinstance(value, str) or value.isprintable()


class Wrong(Exception):
    """A value isn't allowed, in words."""


@dataclass(frozen=True)
class Defect:
    """What is wrong in a file, and where."""

    where: str
    words: str

    def __str__(self) -> str:
        return f"{self.where}: {self.words}" if self.where else self.words


class Unreadable(Fault):
    """A file isn't accepted, for one or more reasons."""

    def __init__(self, faults: Iterable[Defect]) -> None:
        self.faults = list(faults)
        super().__init__("\n".join(map(str, self.faults)))


def is_place(word: str, most: int) -> bool:
    """Tells whether a word is a number from 1 to `most`."""
    return word.isdecimal() and len(word) <= 9 and 1 <= int(word) <= most


class Given:
    """A table of a file. `file` names the file in messages, `place` the table: "" for the whole file; words that end
    with a blank for a table that isn't named by its path. Names that were asked for are known; `end` refuses the
    others.

    Without `faults` the first fault is raised, with its path, as `vary[0].name`. With `faults` each one is added there,
    with its place in words, as `intersection 2, phase 4`, and reading continues."""

    def __init__(self, table: Any, file: str = "", place: str = "", faults: list[Defect] | None = None) -> None:
        self.file, self.place, self.faults = file, place, faults
        self.known: list[str] = []
        if not is_of(table, dict):
            raise Fault(f"{file}: {place} has to be a table")
        self.table: dict[str, Any] = table

    def at(self, name: str) -> str:
        """Returns the place of a name of this table in a message."""
        if self.place.endswith(" "):
            return self.place + name
        return ("." if self.faults is None else ", ").join(filter(None, (self.place, name)))

    def inner(self, table: Any, place: str) -> "Given":
        """Returns a table below this one."""
        return Given(table, self.file, place, self.faults)

    def refuse(self, name: str, words: object) -> Fault:
        """Returns the refusal of the value of a name."""
        return Fault(f"{self.file}: {self.at(name)} {words}")

    def fault(self, words: object, name: str = "") -> None:
        """Collects a fault, or raises it."""
        if self.faults is None:
            raise self.refuse(name, words)
        self.faults.append(Defect(self.at(name), str(words)))

    # single values

    def take(self, name: str, kind: Any, default: Any = None) -> Any:
        """Returns the value of a name, which has to be of a kind; the default if there is none."""
        self.known.append(name)
        if name not in self.table:
            return default
        if not is_of(self.table[name], kind):
            self.fault(f"has to be {KINDS.get(kind) or ' or '.join(KINDS[it] for it in kind)}", name)
            return default
        if not is_shown(self.table[name]):
            self.fault("has characters that can't be shown", name)
            return default
        return self.table[name]

    def read(self, name: str, read: Callable[[Any], Any], default: Any = None) -> Any:
        """Returns what a function makes of the value of a name; the default if there is none, or if it is wrong."""
        self.known.append(name)
        if name not in self.table:
            return default
        try:
            return read(self.table[name])
        except Wrong as wrong:
            self.fault(wrong, name)
            return default

    def need(self, name: str, kind: Any) -> Any:
        """Returns the value of a name, which has to be there."""
        if name not in self.table:
            self.fault("is missing", name)
        return self.take(name, kind)

    def within(self, name: str, kind: Any, least: float, most: float, default: Any = None) -> Any:
        """Returns a number that has to be in a range."""
        value = self.take(name, kind, default)
        if value is not None and not least <= value <= most:
            self.fault(f"is {value}, and has to be {least} to {most}", name)
        return value

    def only(self, names: tuple[str, ...]) -> str:
        """Returns which of several names is given; exactly one must be."""
        self.known.extend(names)
        there = [it for it in names if it in self.table]
        if len(there) != 1:
            raise Fault(
                f"{self.file}: {self.place or f'the {self.file}'} needs one of {', '.join(names)}"
                + (", and has several" if there else "")
            )
        return there[0]

    # lists

    def texts(self, name: str) -> tuple[str, ...]:
        """Returns a list of texts, which may be missing."""
        return self.listed(name, str, "texts")

    def numbers(self, name: str, most: int = 2**31) -> tuple[int, ...]:
        """Returns a list of whole numbers from 0 on, which may be missing."""
        found = self.listed(name, int, "whole numbers")
        if any(not 0 <= it <= most for it in found):
            self.fault(f"has to have numbers from 0 to {most}", name)
        return found

    def listed(self, name: str, kind: Any, words: str) -> tuple[Any, ...]:
        """Returns a list whose items are of one kind."""
        found = self.take(name, list, [])
        if not all(is_of(it, kind) for it in found):
            self.fault(f"has to be a list of {words}", name)
            return ()
        if not all(map(is_shown, found)):
            self.fault("has characters that can't be shown", name)
            return ()
        return tuple(found)

    # tables below this one

    def below(self, name: str) -> "Given":
        """Returns the table of a name; an empty one if there is none."""
        return self.inner(self.take(name, dict, {}), self.at(name))

    def tables(self, name: str) -> Iterator[tuple[int, "Given"]]:
        """Yields the tables of a list, as `[[schedule]]`, with their numbers from 1. In a path they count from 0."""
        for number, it in enumerate(self.listed(name, dict, "tables"), 1):
            place = f"{self.at(name)}[{number - 1}]" if self.faults is None else self.at(f"{name} {number}")
            yield number, self.inner(it, place)

    def each(self, name: str, read: Callable[["Given"], Any]) -> tuple[Any, ...]:
        """Returns what is read of each table in a list of tables, and refuses names in it that were not read."""
        found = []
        for _, inner in self.tables(name):
            found.append(read(inner))
            inner.end()
        return tuple(found)

    def numbered(self, name: str, most: int) -> Iterator[tuple[int, "Given"]]:
        """Yields the tables below a name that are named by numbers from 1, as `phase.2`; "2 6" means both."""
        for key, it in self.below(name).table.items():
            numbers = key.replace(",", " ").split()
            if not numbers or not all(is_place(word, most) for word in numbers):
                self.fault(f"{key!r} is not a {name} from 1 to {most}", name)
            elif not isinstance(it, dict):
                self.fault("has to be a table", f"{name} {key}")
            else:
                for number in map(int, numbers):
                    yield number, self.inner(it, self.at(f"{name} {number}"))

    def spread(self, name: str, most: int) -> "Given":
        """Returns the table at a name with one number from 1 in each of its names; "2 6" means both."""
        found = self.below(name)
        table: dict[str, object] = {}
        for key, value in found.table.items():
            words = key.replace(",", " ").split()
            if len(words) < 2 or not all(is_place(word, most) for word in words):
                words = [key]
            for word in words:
                if word in table:
                    found.fault("this number is a duplicate", word)
                table[word] = value
        return self.inner(table, found.place)

    # names that aren't allowed

    def allow(self, names: Iterable[str], homes: Mapping[str, str] | None = None) -> None:
        """Refuses each name that isn't one of some; `homes` says where other names of a file are written."""
        known = list(names)
        for name in self.table:
            if name not in known:
                home = (homes or {}).get(name)
                begun = [it for it in known if name.startswith(f"{it}_")]
                near = begun or difflib.get_close_matches(name, known, 1)
                hint = f" here; write it in {home}" if home else f"; did you mean {near[0]}?" if near else ""
                self.fault("is unknown" + hint, name)

    def end(self) -> None:
        """Refuses names that weren't asked for."""
        self.allow(self.known)
