"""The crates of a checkout, as crates.txt lists them: which of them the program depends on, and the files that a proof
of these reads."""

import hashlib
import os
import pathlib
import re
from collections.abc import Iterator

TOP = pathlib.Path(__file__).resolve().parents[3]
"""The top of the checkout."""

PROGRAM = "arterial"
LISTS = ("crates.txt", "HANDLES")
PARTS = ("src", "specs", "proofs", "c")
"""What of a crate a proof reads."""


def uses(top: pathlib.Path) -> dict[str, list[str]]:
    """Returns for each crate of the checkout the crates of the checkout on which it depends directly, in the list's
    order."""
    found = dict(re.findall(r"^([a-z]\w*)(?: staticlib)?:(.*)$", (top / LISTS[0]).read_text(), re.M))
    return {name: [it for it in below.split() if it in found] for name, below in found.items()}


def listed(top: pathlib.Path, names: list[str]) -> str:
    """Returns the lines of the list that are those of these crates."""
    lines = (top / LISTS[0]).read_text().splitlines(keepends=True)
    return "".join(line for line in lines if re.split(r"\W", line, maxsplit=1)[0] in names)


def parts_of(name: str, known: dict[str, list[str]]) -> list[str]:
    """Returns a crate and all that it depends on, each after its own dependencies."""
    order: dict[str, None] = {}

    def visit(crate: str) -> None:
        if crate not in order:
            for it in known[crate]:
                visit(it)
            order[crate] = None

    visit(name)
    return list(order)


def parts(top: pathlib.Path) -> list[str]:
    """Returns the crates on which the program depends, and the program's own as the last."""
    return parts_of(PROGRAM, uses(top))


def files_of(top: pathlib.Path, crate: str) -> Iterator[str]:
    """Yields each file of a crate that its proof reads, by its name below the top, in order."""
    for part in PARTS:
        for folder, folders, names in os.walk(top / "crates" / crate / part):
            folders.sort()
            yield from (os.path.relpath(os.path.join(folder, name), top) for name in sorted(names))


def files(top: pathlib.Path) -> Iterator[str]:
    """Yields each file that the proof of the program reads, by its name below the top, in order."""
    yield from LISTS
    for crate in sorted(parts(top)):
        yield from files_of(top, crate)


def folders(names: list[str]) -> list[str]:
    """Returns the folders that contain these files' own folders: they change if a folder in them is replaced."""
    found: set[str] = set()
    for name in names:
        found.update(str(it) for it in list(pathlib.PurePath(name).parents)[1:-1])
    return sorted(found)


def sum_of(file: pathlib.Path) -> str:
    """Returns the SHA-256 of a file in hexadecimal digits."""
    with open(file, "rb") as it:
        return hashlib.file_digest(it, "sha256").hexdigest()


def sums(top: pathlib.Path) -> dict[str, str]:
    """Returns the SHA-256 of each file that the proof reads."""
    return {name: sum_of(top / name) for name in files(top)}
