"""Who does the runs: what the engine asks of processes on this machine and of a cluster alike."""

import abc
import hashlib
import secrets
from collections.abc import Callable
from pathlib import Path
from typing import Any

from .carried import Parcel
from .variants import Asked

Rows = list[list[Any]]
TRIES = 4
"""How many workers may die with the same runs before these are taken for the cause."""


class Lost(Exception):
    """Workers died with some runs, one after another."""


class Crew(abc.ABC):
    """Workers, each of which does one batch of runs at a time."""

    address: str
    """Where they are, in words."""
    sends_program: bool
    """Whether the program travels, since a worker may lack it."""

    def __init__(self) -> None:
        self.name = f"arterial_sweep_{secrets.token_hex(6)}"
        """The name under which workers keep the tools."""

    def carry(self, task: dict[str, Any], modules: dict[str, str], program: Path) -> None:
        """Brings the tools, the study and the program to the workers, also to those that come later."""
        octets = program.read_bytes()
        known = hashlib.sha256(octets).hexdigest()
        self.take_up(Parcel(self.name, modules, task, str(program), known, octets if self.sends_program else None))

    @abc.abstractmethod
    def take_up(self, parcel: Parcel) -> None:
        """Prepares the sweep on the workers."""

    @abc.abstractmethod
    def count(self) -> int:
        """Returns how many batches are done at the same time."""

    @abc.abstractmethod
    def submit(self, indexes: list[Asked], over: Callable[[Any], object]) -> Any:
        """Sends out the variants with some numbers; returns a ticket, which `over` gets when they are over."""

    @abc.abstractmethod
    def waits(self, ticket: Any, over: Callable[[Any], object]) -> None:
        """Lets `over` get a ticket again when its variants are over."""

    @abc.abstractmethod
    def rows(self, ticket: Any) -> Rows | None:
        """Returns the results of variants that are over, None if they were lost and the variants run again. `Lost` is
        raised if workers died with them, `Fault` if a worker can't continue."""

    @abc.abstractmethod
    def end(self, tickets: list[Any]) -> None:
        """Gives back what the workers were given; some batches may be on their way."""
