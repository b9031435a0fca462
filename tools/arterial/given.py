"""What a caller gives as a scenario: a dict, a `Scenario`, text, a file, or a timing sheet."""

import json
import os
import pathlib
from typing import TYPE_CHECKING, Any, Protocol, TypeAlias, runtime_checkable

from streettools.shared.values import MOST_BYTES, shown

from .errors import Error, Refused, own

if TYPE_CHECKING:
    from .plans import Plan
    from .scenarios import Scenario

EXPECTED = "expected a dict, an arterial.Scenario, an arterial.Plan, JSON text or the path of a file"


@runtime_checkable
class HasValue(Protocol):
    """What can say its scenario: `Scenario` and `Plan`."""

    def value(self) -> dict[str, Any]:
        """Returns the scenario as a dict with the names of its JSON."""


if TYPE_CHECKING:
    Given: TypeAlias = "dict[str, Any] | Scenario | Plan | str | bytes | os.PathLike[str]"
    """What every function takes that takes a scenario. A text that begins with `{` is JSON, any other is a path; the
    path of a timing sheet ends in .toml or .xlsx."""


def text_of(given: "Given") -> bytes:
    """Returns the JSON text of a scenario; what is wrong in it is for the program to say."""
    if isinstance(given, HasValue):
        given = given.value()
    if isinstance(given, dict):
        return of_value(given)
    if isinstance(given, bytes):
        return given
    if isinstance(given, str) and given.lstrip()[:1] in ("{", "["):
        return given.encode("utf-8", "surrogatepass")
    if isinstance(given, (str, os.PathLike)):
        return of_file(os.fspath(given))
    raise Refused("", (f"{EXPECTED}, found {type(given).__name__}",), ".")


def of_value(value: dict[str, Any]) -> bytes:
    """Returns the text of a value."""
    try:
        return json.dumps(value, separators=(",", ":"), allow_nan=False).encode()
    except (TypeError, ValueError, RecursionError) as fault:
        raise Refused("", (f"the scenario can't be written as JSON: {fault}",), ".") from None


def of_file(name: str) -> bytes:
    """Returns the text of a file, or of the scenario that a timing sheet makes."""
    from streettools.plan.suffixes import is_sheet

    if "\0" in name:
        raise Error(f"{name!r}: not the name of a file")
    with own():
        if is_sheet(name):
            from streettools.plan import taking

            return of_value(taking.sheet(name).scenario)
        path = pathlib.Path(name)
        if path.is_dir():
            raise Error(f"{name}: is a directory")
        with open(path, "rb") as file:
            return file.read(MOST_BYTES + 1)


def value_of(given: "Given") -> dict[str, Any]:
    """Returns a scenario as JSON has it; one that isn't an object with rounds, ticks and cabinets is refused in the
    words of the program."""
    if isinstance(given, HasValue):
        return given.value()
    if isinstance(given, dict):
        found: Any = given
    else:
        try:
            found = json.loads(text_of(given))
        except (ValueError, RecursionError):
            raise Refused("scenario: not JSON", ("the text isn't JSON",)) from None
    return object_of(found)


def object_of(found: Any) -> dict[str, Any]:
    """Returns a value that has what a session is made from."""
    from streettools.shared.shapes import scenario_faults

    if not isinstance(found, dict):
        raise Refused("scenario: field .", (f"expected an object, found {shown(found)}",))
    head = {name: found[name] for name in ("version", "rounds", "ticks", "cabinets") if name in found}
    for fault in scenario_faults(head):
        raise Refused(fault.line, (fault.words,))
    return found
