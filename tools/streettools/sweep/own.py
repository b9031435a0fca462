"""Measures of one's own: a Python function that is given a run and returns a number."""

from collections.abc import Callable
from dataclasses import dataclass
from typing import Any

from ..shared.fault import Fault
from ..shared.given import Given


@dataclass(frozen=True)
class Own:
    """A measure of one's own: its column, its unit, the text of its file and the function in it."""

    name: str
    unit: str
    file: str
    function: str
    text: str

    def compiled(self) -> Callable[[Any], Any]:
        """Returns the function."""
        space: dict[str, Any] = {"__name__": f"own_{self.name}"}
        try:
            exec(compile(self.text, self.file, "exec"), space)
        except Exception as fault:
            raise Fault(f"{self.file}: {type(fault).__name__}: {fault}") from None
        if not callable(space.get(self.function)):
            raise Fault(f"{self.file} has no function {self.function}")
        found: Callable[[Any], Any] = space[self.function]
        return found


def own_of(given: Given, fetch: Callable[[str], bytes]) -> Own:
    """Reads a measure of one's own."""
    name, file = given.need("name", str), given.need("file", str)
    found = Own(
        name,
        given.take("unit", str, ""),
        file,
        given.take("function", str, name),
        fetch(file).decode("utf-8", "replace"),
    )
    given.end()
    return found
