"""A street for other tools: the text of a scenario as it is, or what a timing sheet makes, with the names."""

import json
import pathlib
from typing import NamedTuple

from ..shared.fault import Fault
from ..shared.given import content_of
from . import names
from .names import Names
from .suffixes import is_sheet


class Text(NamedTuple):
    """The text of a scenario, and the names, None where neither a sheet nor a file next to the scenario has any."""

    scenario: bytes
    names: Names | None


def text_of(path: str) -> Text:
    """Returns the text of a scenario, with the names next to it; or those of a timing sheet."""
    if is_sheet(path):
        from . import taking  # takes a while

        street = taking.sheet(path)
        return Text(json.dumps(street.scenario).encode(), street.names)
    return Text(content_of(path), names_beside(path))


def names_beside(path: str) -> Names | None:
    """Returns the names in the file next to a scenario, None if there is no such file. A file that has no names is
    refused with its path."""
    file = names.beside(pathlib.Path(path))
    if path == "-" or not file.is_file():
        return None
    try:
        return names.read(content_of(file).decode())
    except (names.NoNames, UnicodeDecodeError) as fault:
        raise Fault(f"{file}: {fault}") from None
