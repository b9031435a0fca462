"""docs/PYTHON-REFERENCE.md: every public name of the package arterial, from its docstrings and types."""

import dataclasses
import functools
import importlib
import inspect
import re
from collections.abc import Iterator
from types import ModuleType
from typing import Any

from .markdown import table

HEAD = """\
# Reference of the Python package

For everyone who looks up a name of `import arterial`. This page is made by `tools/reference --write` from the
docstrings and the types; a test compares it, and another one runs the examples. [PYTHON.md](PYTHON.md) shows how to use
the package. Times are in seconds unless a name says otherwise; a tick is 0.1 s.
"""
GROUPS = (
    ("Runs and traces", (
        "run", "check", "Verdict", "judge", "Judgement", "Trace", "Frame", "Picture", "program", "Program",
    )),
    ("Live sessions", ("live", "Street", "Step", "Outcome", "live_async", "AsyncStreet")),
    ("Plans", ("Plan", "Finding", "Bands", "Band")),
    ("Scenarios", (
        "Scenario", "Cabinet", "Master", "Entry", "Vehicle", "Pedestrian", "Preempt", "Load", "Request", "Cancel",
        "Message", "LinkFault",
    )),
    ("Environments", ("env.StreetEnv", "env.VectorEnv")),
    ("Exceptions and warnings", (
        "Error", "Refused", "NoProgram", "ProgramDied", "Late", "NotATrace", "NoCabinet", "Over", "Busy", "Missing",
        "Unproved",
    )),
)  # fmt: skip
"""The names of the package, in the order of the page."""
WIDTH = 120
VALUES = (property, functools.cached_property)
QUOTED = re.compile(r"'([A-Za-z_][\w.\[\], |]*)'")
LONG = re.compile(r"\b(?:arterial|streettools|collections\.abc|typing|pathlib|pandas\.core\.frame)(?:\.\w+)*\.(?=\w)")


def package() -> ModuleType:
    """Returns the package."""
    return importlib.import_module("arterial")


def public() -> list[str]:
    """Returns the names of the page."""
    return [name for _, names in GROUPS for name in names]


def found(name: str) -> Any:
    """Returns the value of a name."""
    thing: Any = package()
    for part in name.split("."):
        thing = getattr(thing, part)
    return thing


def signature(name: str, thing: Any) -> str:
    """Returns how a function or a class is called, as the source says it, in lines that fit."""
    try:
        text = str(inspect.signature(thing))
    except (TypeError, ValueError):
        return name
    text = LONG.sub("", QUOTED.sub(r"\1", text)).replace("(self, ", "(").replace("(self)", "()")
    text = re.sub(r"<factory>", "..", re.sub(r"<function <lambda> at 0x\w+>", "..", text))
    whole = f"{name}{text}"
    if len(whole) <= WIDTH - 4:
        return whole
    head, _, rest = whole.partition("(")
    inner, _, tail = rest.rpartition(")")
    return f"{head}(\n    " + ",\n    ".join(parts(inner)) + f"\n){tail}"


def parts(text: str) -> list[str]:
    """Returns the arguments of a signature: a text cut at the commas outside of brackets."""
    rows, depth = [""], 0
    for letter in text:
        depth += (letter in "([{") - (letter in ")]}")
        if letter == "," and not depth:
            rows.append("")
        else:
            rows[-1] += letter
    return [it.strip() for it in rows if it.strip()]


def prose(text: str) -> Iterator[str]:
    """Yields a docstring as Markdown: its paragraphs and lists, and its examples as blocks of code."""
    for block in re.split(r"\n\s*\n", inspect.cleandoc(text)):
        yield f"```python\n{block}\n```\n" if block.startswith(">>> ") else f"{block}\n"


def members(thing: type) -> Iterator[tuple[str, Any]]:
    """Yields the public methods and properties of a class itself, in the order of the source."""
    for name, it in vars(thing).items():
        if not name.startswith("_") and (inspect.isfunction(it) or isinstance(it, (*VALUES, classmethod))):
            yield name, it


def fields(thing: type) -> Iterator[tuple[str, str]]:
    """Yields the fields of a data class or a named tuple, each with its type and default."""
    if dataclasses.is_dataclass(thing):
        for it in dataclasses.fields(thing):
            default = "" if it.default is dataclasses.MISSING else repr(it.default)
            yield it.name, f"{named(it.type)}{' = ' + default if default else ''}"
    elif hasattr(thing, "_fields"):
        defaults: dict[str, Any] = getattr(thing, "_field_defaults")
        for name, kind in inspect.get_annotations(thing).items():
            yield name, f"{named(kind)}{' = ' + repr(defaults[name]) if name in defaults else ''}"


def named(kind: Any) -> str:
    """Returns the name of a type."""
    return LONG.sub("", kind.__name__ if isinstance(kind, type) and not hasattr(kind, "__args__") else str(kind))


def section(name: str) -> Iterator[str]:
    """Yields the parts of the section of a name."""
    thing = found(name)
    yield f"### {name}\n"
    is_plain = inspect.isclass(thing) and (issubclass(thing, Exception) or [*fields(thing)])
    if not is_plain:
        yield f"```python\n{signature(name, thing)}\n```\n"
    yield from prose(thing.__doc__ or "")
    if not inspect.isclass(thing):
        return
    rows = [*fields(thing)]
    if rows:
        yield table(("Field", "Type"), ((f"`{it}`", f"`{kind}`".replace("|", "\\|")) for it, kind in rows))
    for own, it in members(thing):
        yield from member(own, it)


def member(name: str, thing: Any) -> Iterator[str]:
    """Yields the parts of a method or a property."""
    if isinstance(thing, VALUES):
        yield f"**`{name}`**: {one_line(thing.__doc__)}\n"
        return
    is_made = isinstance(thing, classmethod)
    called = thing.__func__ if is_made else thing
    text = signature(name, called).replace("(cls, ", "(").replace("(cls)", "()")
    yield f"```python\n{text}\n```\n"
    yield from prose(called.__doc__ or "")


def one_line(text: str | None) -> str:
    """Returns a docstring in one line."""
    return " ".join((text or "").split())


def page() -> str:
    """Returns the page."""
    rows = [HEAD]
    for title, names in GROUPS:
        rows.append(f"## {title}\n")
        for name in names:
            rows += section(name)
    return "\n".join(rows)
