"""What a run of queues is given: volumes, and the cabinets of a scenario or of a timing sheet with their names."""

import pathlib
from dataclasses import dataclass
from typing import TYPE_CHECKING, Any

from ...plan.suffixes import is_sheet
from ...shared.given import content_of, toml_of
from . import said
from .study import read_scenario
from .volumes import Volumes, volumes_of

if TYPE_CHECKING:
    from ...plan.names import Names


@dataclass(frozen=True)
class Street:
    """The cabinets of a run: the scenario, and the names, None if neither a sheet nor a names file gives any."""

    scenario: dict[str, Any]
    names: "Names | None" = None

    def called(self, cabinet: int) -> str:
        """Returns what a cabinet is called."""
        return self.names.called(cabinet) if self.names else f"cabinet {cabinet}"


def read_volumes(path: pathlib.Path | str) -> Volumes:
    """Reads a file of volumes."""
    return volumes_of(toml_of(content_of(path), path))


def read_street(path: pathlib.Path | str) -> Street:
    """Reads a timing sheet, or a scenario with the names file next to it."""
    if is_sheet(str(path)):
        from ...plan import taking  # takes a while

        found = taking.sheet(str(path))
        return Street(found.scenario, found.names)
    scenario = read_scenario(content_of(path), str(path))
    from ...plan import streets

    return Street(scenario, streets.names_beside(str(path)))


def fitted(volumes: Volumes, street: Street) -> Volumes:
    """Returns the volumes with what the street's sheet has said already."""
    return said.fitted(volumes, said.said_in(street.names))
