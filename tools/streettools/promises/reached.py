"""The statements that the promises of the top call consist of: its clauses, and all definitions that they reach."""

import pathlib
import re
from collections.abc import Iterator

from . import statement

TOP_CALL = ("crates/station/src/top.rt", "station")
FIRST = (
    TOP_CALL,
    ("crates/io_edge/src/lib.rt", "Source"),
    ("crates/io_edge/src/lib.rt", "Sink"),
    ("crates/io_edge/src/lib.rt", "Gate"),
)
"""The top call, and the traits that say what its clauses speak of."""

USED = re.compile(r"\buse Rattle\.(\w+)\.specs\.([\w.]+?)\.\{([^}]*)\}")
"""An import of definitions: the crate, the module in its specs/, and the names."""


class Statements(dict[str, str]):
    """What each place states, by the place: `crates/NAME/specs/FILE.antt`, or `crates/NAME/src/FILE.rt#ITEM`."""

    def __init__(self, top: pathlib.Path) -> None:
        """Reads the statements of the checkout at this place."""
        super().__init__()
        self._top = top
        for file, name in FIRST:
            self._add_item(file, name)
            self._follow(file, self[f"{file}#{name}"])

    def _add_item(self, file: str, name: str) -> None:
        """Adds a type, a trait or a function, if the file has it."""
        place = f"{file}#{name}"
        if place not in self and (text := stated_at(place, (self._top / file).read_text(encoding="utf-8"))):
            self[place] = text

    def _add_file(self, file: str) -> None:
        """Adds a file of definitions, and all that it imports."""
        if file not in self:
            self[file] = stated_at(file, (self._top / file).read_text(encoding="utf-8"))
            self._follow(file, self[file])

    def _follow(self, file: str, stated: str) -> None:
        """Adds what a file imports of the crates of this checkout for what it states."""
        for crate, module, names in imports((self._top / file).read_text(encoding="utf-8")):
            folder = f"crates/{crate}"
            if not (self._top / folder / "src").is_dir() or not any(name in stated for name in names):
                continue
            if module[0] == "declared":
                self._add_declared(folder, module[1:])
            else:
                self._add_file(f"{folder}/specs/{'/'.join(module)}.antt")

    def _add_declared(self, folder: str, names: list[str]) -> None:
        """Adds a type that the code declares, whose modules and name these are."""
        at = next(place for place, name in enumerate(names) if name[0].isupper())
        self._add_item(f"{folder}/src/{'/'.join(names[:at]) or 'lib'}.rt", names[at])


def imports(text: str) -> Iterator[tuple[str, list[str], list[str]]]:
    """Yields the crate, the module part by part, and the names of each import of definitions in a file."""
    for crate, module, names in USED.findall(statement.code(text)):
        yield crate, module.split("."), [name.strip() for name in names.split(",")]


def stated_at(place: str, text: str) -> str:
    """Returns what a place states in a file with this text."""
    file, _, name = place.partition("#")
    return statement.item(statement.contracts(text), name) if name else statement.definitions(text)
