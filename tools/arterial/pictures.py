"""Pictures in one call: those of `arterial look` and of `arterial plan picture`, for notebooks and files."""

import os
import pathlib
import tempfile
from collections.abc import Callable, Sequence
from typing import TYPE_CHECKING, Any

from streettools.shared.fault import Fault

if TYPE_CHECKING:
    from .traces import Span

SUFFIXES = (".svg", ".png", ".pdf")
USUAL = {"rings": 180.0, "coordination": 300.0, "offset": float("inf")}
"""The kinds of pictures of a trace, and how many seconds each shows by default."""
MOST = 3600.0
"""A picture over time shows at most an hour: more isn't readable."""


class Picture:
    """A picture as SVG: `svg` is its text. A notebook shows the picture; `save(path)` writes it to a file."""

    def __init__(self, svg: str) -> None:
        self.svg = svg

    def _repr_svg_(self) -> str:
        return self.svg

    def __repr__(self) -> str:
        return f"<arterial.Picture of {len(self.svg)} characters of SVG>"

    def save(self, path: str | os.PathLike[str]) -> pathlib.Path:
        """Writes the SVG to a file, and returns its path."""
        from .errors import own

        with own():
            found = pathlib.Path(path)
            if found.suffix != ".svg":
                raise Fault(f"{found}: this picture is SVG; plot(path=..) also writes .png and .pdf")
            found.write_text(self.svg, encoding="utf-8")
        return found


def made(draw: Callable[[str], object], path: str | os.PathLike[str] | None) -> Picture:
    """Returns the picture that a function draws into a file by its name; if a path is given, it is also drawn there.
    The reader's own figures and settings of matplotlib stay as they are."""
    import matplotlib
    from matplotlib import pyplot  # before the tools, which then leave its way to show figures as it is

    if path is not None and pathlib.Path(path).suffix not in SUFFIXES:
        raise Fault(f"{path}: a picture's name ends in " + ", ".join(SUFFIXES))
    with tempfile.TemporaryDirectory() as folder, pyplot.ioff(), matplotlib.rc_context():
        name = os.path.join(folder, "picture.svg")
        draw(name)
        if path is not None:
            draw(os.fspath(path))
        return Picture(pathlib.Path(name).read_text(encoding="utf-8"))


def drawn(
    text: bytes, kind: str, span: "Span", path: str | os.PathLike[str] | None, travel_s: Sequence[float] | None
) -> Picture:
    """Returns a picture of a trace."""
    if kind not in USUAL:
        raise Fault(f"kind: expected one of {', '.join(USUAL)}, found {kind!r}")
    return made(lambda name: draw(text, kind, span, name, travel_s), path)


def draw(text: bytes, kind: str, span: "Span", name: str, travel_s: Sequence[float] | None) -> None:
    """Draws a picture of a trace into a file."""
    from streettools.look import called, offset, rings

    from .walks import reader_of

    reader, names = reader_of(text), called.Called()
    own: Any = rings if kind == "rings" else offset  # the modules of pictures have no types
    more = (frozenset[int](),) if kind == "rings" else ()
    last = reader.rounds * reader.ticks
    start, end = ticks_of(span, kind, last)
    if kind == "coordination":
        street(reader, names, (start, end), name, travel_s)
        return
    own.draw(own.collect(reader, span.cabinet or 1, start, end, *more), name, names)


def ticks_of(span: "Span", kind: str, last: int) -> tuple[int, int]:
    """Returns the first and the last tick of a picture."""
    end_s = span.end if span.end != float("inf") else span.start + USUAL[kind]
    start, end = round(10 * span.start), round(min(10 * end_s, last))
    if start >= end:
        raise Fault(f"the trace ends after {last / 10:g} s")
    if kind != "offset" and end - start > 10 * MOST:
        raise Fault("at most an hour fits into this picture: between(..) takes a part")
    return start, end


def street(reader: Any, names: Any, ticks: tuple[int, int], name: str, travel_s: Sequence[float] | None) -> None:
    """Draws the coordinated greens of a street."""
    from streettools.look import coordination

    own: Any = coordination
    travel = None if travel_s is None else [round(10 * it) for it in travel_s]
    if travel is not None and len(travel) != reader.cabinets - 1:
        raise Fault(f"travel_s: {reader.cabinets} cabinets have {reader.cabinets - 1} times between them")
    look = coordination.View(*ticks, sum(travel or ()), None, names)
    corners = own.collect(reader, list(range(1, reader.cabinets + 1)), look)
    own.draw(corners, travel, name)
