"""The file of a sheet that is edited, and its draft: what isn't saved yet, in a file next to it.

The draft is written after each change, only its owner can read it, and it is removed once the sheet is saved. A draft
that is there as the editor starts is offered."""

import errno
import fcntl
import hashlib
import json
import os
import pathlib
import stat
from dataclasses import dataclass
from typing import BinaryIO

from ...shared import files
from ...shared.fault import Fault
from ...shared.given import content_of
from ...shared.status import Status
from ...shared.values import MOST_BYTES
from .. import sources

BOM = b"\xef\xbb\xbf"
ENDING = ".draft"


@dataclass(frozen=True)
class Draft:
    """A draft: the sheet's text, whether the file had the content from which the draft began, and when it was written,
    in seconds since 1970."""

    text: str
    fits: bool
    time: float


def digest(content: bytes) -> str:
    """Returns what tells contents apart."""
    return hashlib.sha256(content).hexdigest()


class Kept:
    """The file of a sheet: its content as it was read or saved last."""

    def __init__(self, path: str) -> None:
        self.path = pathlib.Path(path)
        self.draft_path = self.path.with_name(self.path.name + ENDING)
        self.lock = locked(self.path)
        self.content = self.read()

    def read(self) -> bytes:
        """Returns the content of the file."""
        content = content_of(self.path)
        if len(content) > MOST_BYTES:
            raise Fault(f"{self.path}: more than {MOST_BYTES:,} bytes")
        return content

    def text(self) -> str:
        """Returns the text of the content that is known."""
        return sources.utf8(self.content)

    def octets(self, text: str) -> bytes:
        """Returns a text as the file has it: with its line ends, and with the mark at its beginning if it has one."""
        lines = text.replace("\n", "\r\n") if b"\r\n" in self.content else text
        return (BOM if self.content.startswith(BOM) else b"") + lines.encode()

    def is_changed(self) -> bool:
        """Tells whether another program has changed or removed the file."""
        try:
            return self.read() != self.content
        except Fault:
            return True

    def load(self) -> str:
        """Reads the file again, and returns its text."""
        self.content = self.read()
        return self.text()

    def save(self, text: str) -> None:
        """Writes the file whole, and removes the draft."""
        octets = self.octets(text)
        with files.whole(self.path) as name:
            pathlib.Path(name).write_bytes(octets)
        before, self.lock = self.lock, locked(self.path)
        before.close()
        self.content = octets
        self.forget()

    # the draft

    def keep(self, text: str) -> None:
        """Writes the draft whole."""
        if os.path.lexists(self.draft_path) and not stat.S_ISREG(os.lstat(self.draft_path).st_mode):
            raise OSError(errno.EEXIST, f"{self.draft_path} isn't a regular file")
        said = {"version": 1, "of": digest(self.content), "text": text}
        with files.whole(self.draft_path, is_private=True) as name:
            pathlib.Path(name).write_text(json.dumps(said), encoding="utf-8")

    def forget(self) -> None:
        """Removes the draft."""
        self.draft_path.unlink(missing_ok=True)

    def draft(self) -> Draft | None:
        """Returns the draft; None if there is none, or if it isn't one of this editor's."""
        try:
            handle = os.open(self.draft_path, os.O_RDONLY | os.O_NOFOLLOW | os.O_NONBLOCK)
        except OSError:
            return None
        known = os.fstat(handle)
        if not stat.S_ISREG(known.st_mode) or known.st_uid != os.getuid() or known.st_size > 2 * MOST_BYTES:
            os.close(handle)
            return None
        with open(handle, "rb") as file:
            try:
                said = json.loads(file.read(2 * MOST_BYTES))
                if set(said) != {"version", "of", "text"} or said["version"] != 1:
                    return None
                text = str(said["text"])
                text.encode()
            except (ValueError, TypeError, RecursionError):
                return None
        return Draft(text, said["of"] == digest(self.content), known.st_mtime)


def locked(path: pathlib.Path) -> BinaryIO:
    """Returns the open file of a sheet, which no second editor can open until it is closed."""
    try:
        file = open(path, "rb")
    except OSError as fault:
        raise Fault(f"{path}: {fault.strerror}", Status.FILE) from None
    try:
        fcntl.flock(file, fcntl.LOCK_EX | fcntl.LOCK_NB)
    except OSError:
        file.close()
        raise Fault(f"{path} is open in another editor") from None
    return file
