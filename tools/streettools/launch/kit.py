"""The Rattle kit on this machine: its command, and what it is made of."""

import pathlib
import shutil


def command() -> str | None:
    """Returns the path of the command rt, None if there is none."""
    return shutil.which("rt")


def folder() -> pathlib.Path | None:
    """Returns the kit's folder, None if the kit isn't found."""
    found = command()
    return pathlib.Path(found).resolve().parent.parent if found else None


def scripts() -> list[pathlib.Path]:
    """Returns the files of the command rt: itself and the modules next to it."""
    found = command()
    if not found:
        return []
    own = pathlib.Path(found).resolve()
    return [own, *sorted(own.parent.glob("rtlib*.py"))]


def identity(folder: pathlib.Path) -> str:
    """Returns the kit's own account of what it was made of, with checksums; nothing if it has none."""
    what = folder / "WHAT"
    return what.read_text() if what.is_file() else ""
