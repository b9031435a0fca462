"""A file of volumes (docs/QUEUES.md): its text, and how it is read."""

from collections.abc import Iterator
from typing import Any

from ..cosim.queues.volumes import Volumes, volumes_of
from ..shared.given import content_of, toml_of
from .toml_text import rows, scalar

HEAD = "# Vehicles an hour by movement, and persons at crossings; docs/QUEUES.md has all names.\n"


def lines(document: dict[str, Any]) -> Iterator[str]:
    """Yields the lines of a file of volumes."""
    if document.get("title"):
        yield f"title = {scalar(document['title'])}"
    for cabinet in document["cabinet"]:
        yield from ("", "[[cabinet]]", f"number = {cabinet['number']}")
        for name in ("movements", "crossings"):
            if name in cabinet:
                yield from rows(name, cabinet[name])
        if "idle" in cabinet:
            yield f"idle = {scalar(cabinet['idle'])}"


def text(document: dict[str, Any]) -> str:
    """Returns the text of a file of volumes, which is read back first: what it can't hold is refused."""
    volumes_of(document)
    return HEAD + "\n".join(lines(document)) + "\n"


def read(path: str) -> Volumes:
    """Returns the volumes that a file has."""
    return volumes_of(toml_of(content_of(path), path))
