"""A trace as tables: what each cabinet showed and why, in seconds, as pandas frames; and as pictures."""

import copy
import functools
import os
import pathlib
from collections.abc import Iterable, Sequence
from typing import TYPE_CHECKING, Any, NamedTuple

from streettools.shared.lines import LONGEST
from streettools.shared.trace_records import Frame

from . import walks
from .errors import Error, NoCabinet, NotATrace, Refused, own
from .pictures import Picture

if TYPE_CHECKING:
    import pandas

EVENTS = {
    0: "phase on", 1: "begin green", 4: "gap out", 5: "max out", 6: "force off", 7: "green termination",
    8: "begin yellow", 9: "end yellow", 10: "begin red clearance", 11: "end red clearance", 12: "phase inactive",
    21: "begin walk", 22: "begin pedestrian clearance", 23: "begin don't walk", 31: "barrier termination",
    81: "detector off", 82: "detector on", 90: "pedestrian detector on", 102: "preempt input on",
    104: "preempt input off", 105: "preempt entry", 106: "preempt track", 107: "preempt dwell", 111: "preempt exit",
    112: "priority check-in", 115: "priority check-out", 131: "pattern change", 132: "cycle length change",
    133: "offset length change", **{code: "split change" for code in range(134, 150)}, 150: "cycle state change",
    173: "flash status change",
}  # fmt: skip
"""The codes of docs/EVENTS.md in words."""


class Span(NamedTuple):
    """What a view of a trace shows: one cabinet or all, and the seconds from a start to before an end."""

    cabinet: int | None = None
    start: float = 0.0
    end: float = float("inf")


class Walked:
    """The rows of a trace, collected when they are first asked for; all views of a trace share them."""

    def __init__(self, text: bytes) -> None:
        self.text = text

    @functools.cached_property
    def rows(self) -> walks.Rows:
        """The rows of all tables but that of events."""
        return walks.rows_of(self.text)

    @functools.cached_property
    def events(self) -> list[walks.Event]:
        """The rows of the table of events."""
        return walks.events_of(self.text)


class Trace:
    """A trace: the text that a run or a session wrote, and its tables.

    `Trace(text)` takes the text, `Trace.read(path)` a file. A text that doesn't have the form of a trace raises
    `NotATrace`; only `arterial.check` checks whether a run could have written its lines. A tick is 0.1 s; the tables
    have seconds since the start of the run. Tables are pandas frames, which are made at their first use.

    >>> import arterial
    >>> trace = arterial.run({"version": 1, "rounds": 60, "ticks": 10, "cabinets": [{"base": "max8"}]})
    >>> trace
    <arterial.Trace of 1 cabinet, 60 s>
    >>> trace.cabinet(1).between(0, 30).greens()[["phase", "start_s", "end_s", "ending"]].to_dict("records")[0]
    {'phase': 2, 'start_s': 6.0, 'end_s': 46.0, 'ending': 'maximum'}
    """

    def __init__(self, text: str | bytes) -> None:
        if not isinstance(text, (str, bytes)):
            raise Refused("", (f"expected the text of a trace, found {type(text).__name__}",))
        self.text = text.encode("utf-8", "surrogateescape") if isinstance(text, str) else text
        self._span = Span()
        with own():
            reader = walks.reader_of(self.text)
        self.cabinets: int = reader.cabinets
        """The number of cabinets."""
        self.seconds: float = reader.rounds * reader.ticks / 10
        """The length of the run in seconds."""
        self._walked = Walked(self.text)

    @classmethod
    def read(cls, path: str | os.PathLike[str]) -> "Trace":
        """Returns the trace of a file; `NotATrace` if it isn't one, `Error` if it can't be read."""
        return cls(octets_of(path))

    def save(self, path: str | os.PathLike[str]) -> pathlib.Path:
        """Writes the text of the trace to a file, and returns its path. If the text can't be written completely, the
        file is unchanged."""
        from streettools.shared import files

        with own(), files.whole(path) as name:
            pathlib.Path(name).write_bytes(self.text)
        return pathlib.Path(path)

    def __repr__(self) -> str:
        count = f"{self.cabinets} cabinet{'s'[: self.cabinets - 1]}"
        shown = "" if self._span == Span() else f", showing {self._shown()}"
        return f"<arterial.Trace of {count}, {self.seconds:g} s{shown}>"

    def _shown(self) -> str:
        cabinet = "" if self._span.cabinet is None else f"cabinet {self._span.cabinet}, "
        return f"{cabinet}{self._span.start:g} to {min(self._span.end, self.seconds):g} s"

    @property
    def scenario(self) -> dict[str, Any]:
        """The scenario of the run, as a dict with the names of its JSON."""
        import json

        found: dict[str, Any] = json.loads(self.text.split(b"\n", 1)[0][2:])
        return found

    # slices

    def cabinet(self, number: int) -> "Trace":
        """Returns a view of one cabinet, by its number from 1; `NoCabinet` if the trace doesn't have it."""
        if type(number) is not int or not 1 <= number <= self.cabinets:
            words = f"the trace has no cabinet {number!r}: it has {self.cabinets}, numbered from 1"
            raise NoCabinet(words)
        return self._view(self._span._replace(cabinet=number))

    def between(self, start_s: float = 0.0, end_s: float | None = None) -> "Trace":
        """Returns a view of the time from `start_s` to before `end_s`, in seconds since the start of the run. Greens
        and splits that overlap this time are included with their full length."""
        end = float("inf") if end_s is None else end_s
        if not all(isinstance(it, (int, float)) for it in (start_s, end)) or not 0 <= start_s < end:
            raise Refused("", (f"expected 0 <= start_s < end_s, found {start_s!r} and {end_s!r}",))
        return self._view(self._span._replace(start=float(start_s), end=float(end)))

    def _view(self, span: Span) -> "Trace":
        found = copy.copy(self)
        found._span = span
        return found

    def _is_shown(self, cabinet: int, start: int, end: int | None = None) -> bool:
        """Tells whether a row is in the view: one of a moment, or one that lasts up to an end."""
        if self._span.cabinet not in (None, cabinet):
            return False
        first = start if end is None else end
        within = first / 10 >= self._span.start if end is None else first / 10 > self._span.start
        return within and start / 10 < self._span.end

    # tables

    def frames(self) -> "pandas.DataFrame":
        """Returns the F lines: what a cabinet shows from a moment on, until its next row.

        Columns: `time_s`, `cabinet`, `vehicles` (16 letters: G green, Y yellow, C red clearance, R red), `pedestrians`
        (W walk, F flashing don't walk, D don't walk), `mode` (docs/TRACE.md), `counter_s` and `target_s` (the place in
        the cycle, and the expected place according to the offset), `version` (accepted downloads).

        >>> import arterial
        >>> trace = arterial.run({"version": 1, "rounds": 7, "ticks": 10, "cabinets": [{"base": "max8"}]})
        >>> trace.frames()[["time_s", "vehicles", "mode"]].values.tolist()
        [[0.0, 'RRRRRRRRRRRRRRRR', 'S'], [6.0, 'RGRRRGRRRRRRRRRR', 'F']]
        """
        rows = (
            (it.tick / 10, it.cabinet, it.vehicles, it.pedestrians, it.mode, it.counter / 10, it.target / 10,
             it.version)
            for it in self._walked.rows.frames
            if self._is_shown(it.cabinet, it.tick)
        )  # fmt: skip
        return table(
            rows, "time_s", "cabinet", "vehicles", "pedestrians", "mode", "counter_s", "target_s", "version"
        )

    def greens(self) -> "pandas.DataFrame":
        """Returns each green, in the order of their starts.

        Columns: `cabinet`, `phase`, `start_s`, `end_s`, `green_s`, `ending` (gap, maximum, force-off, yield, split
        filled, priority, seek, preempt, ending, not told; `still green` at the end of the trace) and `mode` (the mode
        in which it ended). Why a green ended is computed from the tables by this package, and isn't proved.
        """
        rows = (
            (it.cabinet, it.phase, it.start / 10, it.end / 10, (it.end - it.start) / 10, it.ending, it.mode)
            for it in self._walked.rows.greens
            if self._is_shown(it.cabinet, it.start, it.end)
        )
        return table(rows, "cabinet", "phase", "start_s", "end_s", "green_s", "ending", "mode")

    def splits(self) -> "pandas.DataFrame":
        """Returns how each service of a phase under a pattern used its split: green and clearance together.

        Columns: `cabinet`, `pattern`, `phase`, `start_s`, `green_s`, `yellow_s`, `red_clear_s`, `used_s` (their sum),
        `split_s` (the split of the phase in the pattern; missing if the tables aren't known) and `ending`.
        """
        rows = (
            (it.cabinet, it.pattern, it.phase, it.start / 10, (it.green_end - it.start) / 10,
             (it.yellow_end - it.green_end) / 10, (it.end - it.yellow_end) / 10, (it.end - it.start) / 10,
             None if it.split_ticks is None else it.split_ticks / 10, it.ending)
            for it in self._walked.rows.served
            if self._is_shown(it.cabinet, it.start, it.end)
        )  # fmt: skip
        return table(
            rows, "cabinet", "pattern", "phase", "start_s", "green_s", "yellow_s", "red_clear_s", "used_s", "split_s",
            "ending",
        )  # fmt: skip

    def events(self) -> "pandas.DataFrame":
        """Returns the field's own event log: the codes of the Indiana Traffic Signal Hi Resolution Data Logger
        Enumerations (docs/EVENTS.md).

        Columns: `time_s`, `cabinet`, `event` (the code), `parameter` (a phase, a preempt, ..), `name` (the code in
        words).
        """
        rows = (
            (it.tick / 10, it.cabinet, it.code, it.parameter, EVENTS.get(it.code, ""))
            for it in self._walked.events
            if self._is_shown(it.cabinet, it.tick)
        )
        return table(rows, "time_s", "cabinet", "event", "parameter", "name")

    def notes(self) -> "pandas.DataFrame":
        """Returns the notes of the master.

        Columns: `time_s` (the start of the round), `cabinet`, `round`, `words` (as in docs/TRACE.md: fail, good,
        pattern 1, load 1 done, ..).
        """
        rows = (
            (it.tick / 10, it.cabinet, it.round, it.words)
            for it in self._walked.rows.notes
            if self._is_shown(it.cabinet, it.tick)
        )
        return table(rows, "time_s", "cabinet", "round", "words")

    def downloads(self) -> "pandas.DataFrame":
        """Returns the downloads that ended.

        Columns: `time_s`, `cabinet`, `download` (its number at the cabinet), `accepted`, `version` (that it made),
        `rule` and `row` (that it would break; docs/SCENARIO.md); what doesn't apply is missing.
        """
        rows = (
            (it.tick / 10, it.cabinet, it.number, it.version is not None, it.version, it.rule, it.row)
            for it in self._walked.rows.downloads
            if self._is_shown(it.cabinet, it.tick)
        )
        found = table(rows, "time_s", "cabinet", "download", "accepted", "version", "rule", "row")
        return found.astype({name: "Int64" for name in ("version", "rule", "row")})

    def offsets(self) -> "pandas.DataFrame":
        """Returns each local zero: each cycle of a pattern that begins.

        Columns: `time_s`, `cabinet`, `pattern`, `pickup` (whether the pattern begins here), `error_s` (how late the
        cycle begins; negative if early; missing if the tables aren't known), `on_offset`, `cycle_s` (seconds since the
        local zero before; missing at a pickup).
        """
        rows = (
            (it.tick / 10, it.cabinet, it.pattern, it.is_pickup, seconds(it.error), it.is_met, seconds(it.elapsed))
            for it in self._walked.rows.zeros
            if self._is_shown(it.cabinet, it.tick)
        )
        return table(rows, "time_s", "cabinet", "pattern", "pickup", "error_s", "on_offset", "cycle_s")

    def at(self, time_s: float) -> dict[int, Frame]:
        """Returns what each cabinet of the view shows at a moment, by its number: the frame in force then."""
        if not 0 <= time_s <= self.seconds:
            raise Error(f"the trace has 0 to {self.seconds:g} s, not {time_s!r}")
        rows = self._walked.rows.frames
        shown = [it for it in rows if it.tick <= time_s * 10 + 1e-6 and self._span.cabinet in (None, it.cabinet)]
        return {it.cabinet: it for it in shown}

    # pictures

    def plot(
        self, kind: str = "rings", path: str | os.PathLike[str] | None = None, *,
        travel_s: Sequence[float] | None = None,
    ) -> Picture:  # fmt: skip
        """Returns a picture of the view, as `arterial look` draws it; a notebook shows it. `path` also writes it: .svg,
        .png or .pdf.

        - `rings`: both rings of one cabinet, at most an hour (default: the first cabinet, 180 s);
        - `coordination`: the coordinated greens of all cabinets, at most an hour (default: 300 s). `travel_s` are the
          seconds from each cabinet to the next, which draw the progression bands;
        - `offset`: how one cabinet reached its offset, over the whole view.
        """
        from . import pictures

        with own():
            return pictures.drawn(self.text, kind, self._span, path, travel_s)


def octets_of(path: str | os.PathLike[str]) -> bytes:
    """Returns the content of a file, at most one octet more than a trace may have."""
    with own():
        try:
            with open(path, "rb") as file:
                return file.read(LONGEST + 1)
        except ValueError:
            raise Error(f"{path!r}: not the name of a file") from None


def seconds(ticks: int | None) -> float | None:
    """Returns ticks as seconds."""
    return None if ticks is None else ticks / 10


def table(rows: Iterable[tuple[Any, ...]], *columns: str) -> "pandas.DataFrame":
    """Returns rows as a pandas frame."""
    with own():
        pandas = library()
    return pandas.DataFrame.from_records(list(rows), columns=list(columns))


@functools.cache
def library() -> Any:
    """Returns pandas, which takes a while to import."""
    import pandas

    return pandas


__all__ = ["EVENTS", "Frame", "NotATrace", "Picture", "Trace"]
