"""The program that this package runs: where it is, and whether it is the proved one."""

import functools
import hashlib
import os
import pathlib
import subprocess
import warnings
from typing import NamedTuple

from streettools.shared import program as starting

from .errors import NoProgram, own

RECORD = "crates/arterial/out/proved/sums"
"""The record of a proof in a checkout: the checksum of the program first, then those of its sources."""
TRIED = 'checkout=$1 program=; . "$1/tools/trust.sh"; is_tried && echo "$program"'
"""A shell script that prints the unproved program of a checkout, if it is one of the sources that are there."""

HINT = "ARTERIAL_PROGRAM names one, and ./arterial prove makes one in a checkout"
"""The hint that is added if a program isn't found."""


class Program(NamedTuple):
    """A program that was found.

    - `path`: where it is;
    - `is_proved`: whether the record of a proof names exactly this program, by its checksum;
    - `words`: where it was found, and why it is regarded as proved or as not proved.
    """

    path: pathlib.Path
    is_proved: bool
    words: str

    def __str__(self) -> str:
        return f"{self.path}: {'proved' if self.is_proved else 'not proved'} ({self.words})"

    def version(self) -> str:
        """Returns the version that the program prints, as `0.8`."""
        with own():
            return starting.ran(self.path, "--version").done().decode().strip().removeprefix("arterial ")


class Unproved(UserWarning):
    """Warns that no proved program was found, so an unproved program answers."""


def program(name: str | os.PathLike[str] | None = None) -> Program:
    """Returns the program that this package runs.

    The function looks, in this order, for: `name`; the environment variable `ARTERIAL_PROGRAM`; the program inside an
    installed package; the program that was proved in this checkout; the unproved program that the launcher built in
    this checkout; the model in plain Python of the checkout, which is slow; `arterial` on the path. If no program is
    found, `NoProgram` is raised.

    >>> import arterial
    >>> arterial.program("/nowhere")
    Traceback (most recent call last):
    arterial.errors.NoProgram: no program at /nowhere
    """
    named = os.fspath(name) if name is not None else os.environ.get("ARTERIAL_PROGRAM")
    with own():
        if named:
            return of_file(starting.found(named), "named by the caller" if name else "named by ARTERIAL_PROGRAM")
        try:
            return of_file(starting.found(), "the first one found")
        except starting.NotProved as fault:
            return unproved(str(fault))
        except starting.NoProgram as fault:
            raise NoProgram(f"{fault}, and this package carries none: {HINT}") from None


def unproved(why: str) -> Program:
    """Returns the program of a checkout in which none was proved: the unproved one, else the model."""
    top = os.path.dirname(starting.HERE)
    asked = subprocess.run(["/bin/sh", "-c", TRIED, "sh", top], capture_output=True, text=True)
    path = asked.stdout.strip() if asked.returncode == 0 else ""
    if path:
        return Program(pathlib.Path(path), False, f"{why}; this is the unproved program of the checkout")
    if os.path.isfile(starting.MODEL):
        return Program(pathlib.Path(starting.MODEL), False, f"{why}; this is the model in plain Python, which is slow")
    raise NoProgram(f"{why}; {HINT}")


def of_file(path: pathlib.Path, words: str) -> Program:
    """Returns what is known of the program at a path."""
    place = record_naming(path)
    if place is None:
        return Program(path, False, f"{words}; no record of a proof names it")
    maker = "proved by its maker, not here" if is_of_maker(place) else "proved in this checkout"
    return Program(path, True, f"{words}; {maker}")


def records() -> list[pathlib.Path]:
    """Returns where the records of proofs may be: in a wheel, in the checkout, in an installation."""
    here = pathlib.Path(starting.HERE)
    return [here / "arterial/data/proof/sums", here.parent / RECORD, here.parents[1] / "share/doc/arterial/proof/sums"]


def is_of_maker(place: pathlib.Path) -> bool:
    """Tells whether a record is that of a proof that was made elsewhere."""
    return place.parent.name != "proved" or (place.parent / "maker").exists()


def record_naming(path: pathlib.Path) -> pathlib.Path | None:
    """Returns the record of a proof that names a program by its checksum; None if there is none."""
    found = None
    for place in records():
        try:
            first = place.read_bytes().split(b" ", 1)[0].decode("ascii", "replace")
        except OSError:
            continue
        found = place if first == sum_of(str(path), os.stat(path).st_mtime_ns) else found
    return found


@functools.lru_cache(16)
def sum_of(path: str, changed: int) -> str:
    """Returns the checksum of a file, which is kept until it changes."""
    with open(path, "rb") as file:
        return hashlib.file_digest(file, "sha256").hexdigest()


def path_of(name: str | os.PathLike[str] | None) -> pathlib.Path:
    """Returns the path of the program; warns if this package chose one that isn't known to be proved."""
    found = program(name)
    if not found.is_proved and name is None and not os.environ.get("ARTERIAL_PROGRAM"):
        warnings.warn(str(found), Unproved, stacklevel=3)
    return found.path
