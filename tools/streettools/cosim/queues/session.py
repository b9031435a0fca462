"""A session of the program for the vehicles of a study: inputs, then ticks. It is recorded only if that is asked for.
"""

from typing import Any

from ...shared.session import LISTS
from ..session import Session


def scenario_of(scenario: dict[str, Any], rounds: int, keeps: bool) -> dict[str, Any]:
    """Returns a scenario for a session of `rounds` rounds. What comes later is left out. The scenario's own vehicles
    and persons are also left out, unless they are kept in addition to the simulated ones."""
    made: dict[str, Any] = scenario | {"rounds": rounds}
    for name in LISTS:
        if name in made:
            made[name] = [it for it in made[name] if it["round"] <= rounds]
    if "inputs" in made and not keeps:
        made["inputs"] = [it for it in made["inputs"] if "preempt" in it]
    return made


def frames(lines: list[bytes]) -> list[bytes]:
    """Returns the frame lines among lines."""
    return [line for line in lines if line[:1] == b"F"]


class Cabinets(Session):
    """The cabinets of a session. `shown` are the frame lines of tick 0."""

    def __init__(self, program: str, scenario: dict[str, Any], records: bool = False) -> None:
        super().__init__(program, scenario, records)
        self.shown = frames(self.opened)

    def step(self, inputs: list[bytes], count: int) -> list[bytes]:
        """Brings inputs, then takes ticks; returns the frame lines that come."""
        return frames(self.tick(count, inputs))

    def trace(self) -> bytes:
        """Returns the trace of a session that is over."""
        return b"".join(self.record.trace())
