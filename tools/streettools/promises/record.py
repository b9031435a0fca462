"""What was read or tried last: files of digests, a line each, and the texts that belong to them."""

import pathlib
import subprocess
from collections.abc import Iterable

from . import reached, statement

TOP = pathlib.Path(__file__).resolve().parents[3]
"""The top of the checkout."""

PROMISES = pathlib.Path("edits/promises.sums")
"""The digest of each statement that the promises of the top call consist of."""

TRIED = pathlib.Path("edits/tried.sums")
"""The digest of the contracts of each crate with edits, as they were when all its edits were last refused."""

SECONDS = 60
"""How long git may take for one answer."""


class Unread(Exception):
    """A file of digests can't be read, in words."""


def read(file: pathlib.Path) -> dict[str, str]:
    """Returns the digests of a file by their names, empty if the file doesn't exist. Raises Unread for an invalid
    line."""
    found = {}
    if file.exists():
        for number, line in enumerate(file.read_text(encoding="utf-8").splitlines(), 1):
            digest, gap, name = line.partition("  ")
            if not gap or len(digest) != 64 or not name:
                raise Unread(f"{file}, line {number}: no digest and name")
            found[name] = digest
    return found


def write(file: pathlib.Path, digests: dict[str, str]) -> None:
    """Writes a file of digests, by their names in order."""
    file.write_text("".join(f"{digests[name]}  {name}\n" for name in sorted(digests)), encoding="utf-8")


def changed(old: dict[str, str], new: dict[str, str]) -> list[str]:
    """Returns the names whose digests differ, those that are only in one of both among them."""
    return sorted(name for name in {*old, *new} if old.get(name) != new.get(name))


def promises(statements: dict[str, str]) -> dict[str, str]:
    """Returns the digest of each statement."""
    return {place: statement.digest(text) for place, text in statements.items()}


def crate(top: pathlib.Path, name: str) -> str:
    """Returns the digest of what a crate with edits states: its contracts, its definitions, and the edits."""
    folder = top / "crates" / name
    parts = [statement.contracts(it.read_text(encoding="utf-8")) for it in sorted(folder.glob("src/**/*.rt"))]
    parts += [statement.definitions(it.read_text(encoding="utf-8")) for it in sorted(folder.glob("specs/**/*.antt"))]
    parts += [f"{it.name}\n{it.read_text(encoding='utf-8')}" for it in sorted((top / "edits" / name).glob("*.edit"))]
    return statement.digest("".join(parts))


def edited(top: pathlib.Path) -> list[str]:
    """Returns the crates that have edits which the gate leaves out."""
    return sorted({it.parent.name for it in top.glob("edits/*/*.edit")})


def untried(top: pathlib.Path) -> list[str]:
    """Returns the crates whose contracts, definitions or edits changed after their edits were last refused."""
    return changed(read(top / TRIED), {name: crate(top, name) for name in edited(top)})


def renew(top: pathlib.Path, names: Iterable[str]) -> None:
    """Records that all edits of these crates were refused with the contracts of now. Crates without edits go."""
    known = edited(top)
    kept = {name: digest for name, digest in read(top / TRIED).items() if name in known}
    write(top / TRIED, kept | {name: crate(top, name) for name in names})


def before(top: pathlib.Path, place: str, digest: str) -> str | None:
    """Returns the latest statement of a place in git's history that has this digest, None if there is none."""
    file = place.partition("#")[0]
    for commit in _git(top, "log", "--format=%H", "--", file).split():
        text = reached.stated_at(place, _git(top, "show", f"{commit}:{file}"))
        if statement.digest(text) == digest:
            return text
    return None


def _git(top: pathlib.Path, *words: str) -> str:
    """Returns what git answers; an empty text if it can't."""
    try:
        told = subprocess.run(["git", "-C", top, *words], capture_output=True, timeout=SECONDS)
    except OSError:
        return ""
    return "" if told.returncode else told.stdout.decode(errors="replace")
