"""Reads a study's file, and the files that it names beside it. A timing sheet is read as its scenario: the workers of a
sweep have nothing that reads sheets."""

import json
from pathlib import Path
from typing import Any

from ..shared.fault import Fault
from ..shared.given import content_of, toml_of

FACTS = ".facts"
"""The ending of the name, after that of a sheet, under which stands what the sheet says for its volumes."""
TABLE = b"[[intersection]]"
"""What a sheet in TOML has, and a file of volumes hasn't."""


def study_file(path: Path) -> dict[str, Any]:
    """Returns what the study's file says."""
    return toml_of(content_of(path), path)


def facts_name(name: str) -> str | None:
    """Returns the name under which stands what a sheet says for its volumes, None for a scenario."""
    return name + FACTS if name.endswith((".toml", ".xlsx")) else None


class Files:
    """The files that a study names, read once; their names are taken from the folder of the study."""

    def __init__(self, folder: Path) -> None:
        self.folder = folder
        self.read: dict[str, bytes] = {}

    def __call__(self, name: str) -> bytes:
        """Returns the content of a file."""
        if name not in self.read:
            sheet = name.removesuffix(FACTS)
            content = content_of(self.folder / sheet)
            if sheet.endswith(".xlsx") or (sheet.endswith(".toml") and TABLE in content):
                self.take(sheet, content)
            else:
                self.read[name] = content
        return self.read[name]

    def take(self, name: str, content: bytes) -> None:
        """Keeps the scenario of a sheet, and what it says for volumes."""
        from ..cosim.queues.said import said_in  # these take a while
        from ..plan import names, sources

        source = sources.source_of(name, content, names.Names)
        if source.errors or source.street is None:
            raise Fault("\n".join(f"{name}: {it}" for it in source.errors))
        self.read[name] = json.dumps(source.street.scenario).encode()
        self.read[name + FACTS] = json.dumps(said_in(source.street.names).value()).encode()
