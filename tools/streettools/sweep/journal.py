"""The file of the runs that are done, next to the table: a line for each, written when it is done. An interrupted sweep
continues from it."""

import fcntl
import json
import os
from collections.abc import Iterable
from pathlib import Path
from typing import Any, Self

from ..shared.fault import Fault
from ..shared.status import Status
from .one_run import Outcome

HEAD = b'{"sweep":1}\n'


class Journal:
    """The runs that are done, by their keys. What was measured stays on the disk."""

    def __init__(self, path: Path, anew: bool) -> None:
        self.path = path
        self.places: dict[str, int] = {}
        try:
            self.file = open(path, "r+b" if path.exists() else "w+b")
            fcntl.flock(self.file, fcntl.LOCK_EX | fcntl.LOCK_NB)
            self.begin(anew)
        except BlockingIOError:
            raise Fault(f"{path}: another sweep is writing this table", Status.FILE) from None
        except OSError as fault:
            raise Fault(f"{path}: {fault.strerror}", Status.FILE) from None

    def begin(self, anew: bool) -> None:
        """Reads the runs that are done, and cuts off an incomplete last line."""
        if anew:
            self.file.truncate(0)
        end, line = 0, self.file.readline()
        if line and line != HEAD:
            raise Fault(f"{self.path}: not a journal of a sweep")
        while line.endswith(b"\n"):
            self.note(line, end)
            end += len(line)
            line = self.file.readline()
        self.file.seek(end)
        self.file.truncate()
        if end == 0:
            self.file.write(HEAD)
            self.file.flush()
        self.end = max(end, len(HEAD))

    def note(self, line: bytes, place: int) -> None:
        """Keeps the place of a run in the file. One that failed is run again."""
        try:
            value = json.loads(line)
            if "key" in value and value["row"][0] != Outcome.FAILED:
                self.places[value["key"]] = place
        except (ValueError, KeyError, IndexError, TypeError):
            raise Fault(f"{self.path}: not a journal of a sweep, or damaged at byte {place}") from None

    def __contains__(self, key: str) -> bool:
        return key in self.places

    def add(self, rows: Iterable[tuple[str, list[Any]]]) -> None:
        """Writes runs that are done; a line that can't be written whole is taken back."""
        lines = [
            (key, json.dumps({"key": key, "row": row}, separators=(",", ":")).encode() + b"\n") for key, row in rows
        ]
        text = b"".join(line for _, line in lines)
        try:
            place = self.end
            while text:
                text = text[os.pwrite(self.file.fileno(), text, self.end) :]
                self.end = place + sum(len(line) for _, line in lines) - len(text)
        except OSError as fault:
            os.ftruncate(self.file.fileno(), place)
            self.end = place
            raise Fault(
                f"{self.path}: {fault.strerror}; earlier runs are kept, and --resume continues", Status.FILE
            ) from None
        for key, line in lines:
            self.places[key] = place
            place += len(line)

    def row(self, key: str) -> list[Any]:
        """Returns the results of a run."""
        self.file.seek(self.places[key])
        row: list[Any] = json.loads(self.file.readline())["row"]
        return row

    def close(self, remove: bool = False) -> None:
        """Closes the file, and removes it if it is no longer needed."""
        if remove:
            self.path.unlink(missing_ok=True)
        self.file.close()

    def __enter__(self) -> Self:
        return self

    def __exit__(self, *_: object) -> None:
        self.close()
