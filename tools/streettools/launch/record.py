"""The record of a built program: checksums of the program and of everything it was made of, the kit, and the moment of
the last test. `tools/trust.sh` reads it.

There are two records in the program's out/: `proved/` of the proved program, and `tried/` of the unproved one, which is
stored in that folder. A proof that was made elsewhere and taken over (take.py) has a file `maker` in `proved/`.
"""

import os
import pathlib
import re
import shutil
import tempfile
import time

from . import crates, kit

VERDICT = re.compile(r"^(?:rt: \w+ (?:proved|is kept)|.*\blogic=|\d+ passed, \d+ failed)")
"""Lines of the kit that say what was proved."""


class Changed(Exception):
    """A source is not as it was when the proof began; its name."""


def program_of(top: pathlib.Path) -> pathlib.Path:
    """Returns the place of the proved program."""
    return top / "crates" / crates.PROGRAM / "out" / crates.PROGRAM


def compare(before: dict[str, str], now: dict[str, str]) -> None:
    """Raises Changed with the first file whose checksum differs."""
    for name in sorted({*before, *now}):
        if before.get(name) != now.get(name):
            raise Changed(name)


def folder_of(top: pathlib.Path, own: str, sums: dict[str, str], kit_text: str, begun: float) -> pathlib.Path:
    """Writes a record to a new folder in the program's out/ and returns it. `own` is the program's path below the top;
    `sums` has its checksum and those of its sources; all of them were right at `begun`."""
    sources = [name for name in sums if name != own]
    names = [own, *sources, *crates.folders(sources)]
    made = pathlib.Path(tempfile.mkdtemp(dir=program_of(top).parent, prefix=".record-"))
    made.chmod(0o755)
    lines = [f"{sums[own]}  {own}\n", *(f"{sums[name]}  {name}\n" for name in sources)]
    (made / "sums").write_text("".join(lines))
    (made / "names").write_bytes(b"".join(os.fsencode(name) + b"\0" for name in names))
    (made / "kit").write_text(kit_text)
    (made / "tested").touch()
    os.utime(made / "tested", (begun - 1, begun - 1))
    return made


def put(made: pathlib.Path, name: str) -> None:
    """Puts a record in the place of an earlier one."""
    place = made.parent / name
    shutil.rmtree(place, ignore_errors=True)
    os.rename(made, place)


def kit_here() -> str:
    """Returns the kit's folder and its own account of what it was made of."""
    folder = kit.folder()
    return f"{folder}\n{kit.identity(folder)}" if folder else "none\n"


def write(top: pathlib.Path, before: dict[str, str], verdict: str = "") -> None:
    """Records the program that a proof of sources with these checksums has just built, with the kit's lines about the
    proof; Changed if a source has changed since."""
    begun, now = time.time(), crates.sums(top)
    compare(before, now)
    program = program_of(top)
    own = os.path.relpath(program, top)
    made = folder_of(top, own, {own: crates.sum_of(program), **now}, kit_here(), begun)
    lines = [it for it in verdict.splitlines() if VERDICT.match(it)]
    (made / "verdict").write_text("".join(f"{it}\n" for it in lines))
    put(made, "proved")


def keep_unproved(top: pathlib.Path, program: pathlib.Path, before: dict[str, str], now: dict[str, str]) -> None:
    """Keeps an unproved program, made of sources with the checksums `before`, with its record; Changed if a source has
    changed since."""
    compare(before, now)
    begun, place = time.time(), program_of(top).parent / "tried"
    own = os.path.relpath(place / program.name, top)
    made = folder_of(top, own, {own: crates.sum_of(program), **now}, kit_here(), begun)
    os.replace(program, made / program.name)
    put(made, place.name)
