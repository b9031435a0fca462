"""Timing plans: sheets, workbooks, scenarios and UTDF files; what is wrong with them in words; downloads and bands."""

import contextlib
import json
import os
import pathlib
from collections.abc import Sequence
from typing import TYPE_CHECKING, Any, NamedTuple

from streettools.shared import program as starting
from streettools.shared.fault import Fault

from .errors import NoProgram, Refused, own
from .pictures import Picture, made
from .programs import path_of
from .runs import died, refused

if TYPE_CHECKING:
    from streettools.plan.names import Names
    from streettools.plan.reading import Street
    from streettools.plan.sources import Source

    from .traces import Trace

Path = str | os.PathLike[str]


class Finding(NamedTuple):
    """What a check finds: `level` is error (the program refuses the plan), warning or note; `where` names the
    intersection or the value; `words` states what is wrong; `rule` is the number of the broken rule of tables, None if
    there is none."""

    level: str
    where: str
    words: str
    rule: int | None

    def __str__(self) -> str:
        rule = f", rule {self.rule}" if self.rule else ""
        return f"{self.where + ': ' if self.where else ''}{self.level}{rule}: {self.words}"


class Band(NamedTuple):
    """A progression band: when it begins at the first cabinet that a vehicle passes, as seconds of the cycle, and its
    width in seconds."""

    start_s: float
    width_s: float


class Bands(NamedTuple):
    """The widest bands of a street in both directions; None if there is none."""

    outbound: Band | None
    inbound: Band | None


class Plan:
    """A timing plan of a street.

    `Plan.read` takes a sheet (.toml, .xlsx), a scenario or a field file (.json); `Plan.utdf` takes files of Synchro;
    `Plan.text` takes the text of a sheet. A plan can be given to `arterial.run` and `arterial.live`.

    >>> import arterial
    >>> plan = arterial.Plan.text('''
    ... [[intersection]]
    ... name = "Main and 3rd"
    ... command = 1
    ... [intersection.pattern.1]
    ... cycle = 80
    ... ''')
    >>> first = plan.check()[0]
    >>> first.level, first.where, first.rule
    ('error', 'Main and 3rd', 17)
    """

    def __init__(self, source: "Source") -> None:
        self._source = source

    @classmethod
    def read(cls, path: Path, names: Path | None = None) -> "Plan":
        """Returns the plan of a file. `names` is the file with the names of a scenario (default: `street.names.json`
        next to `street.json`). A file with wrong names or values can also be read: `check` lists all its faults, and
        all other methods raise `Refused`."""
        from streettools.plan import sources

        with own():
            return cls(sources.load(os.fspath(path), None if names is None else os.fspath(names)))

    @classmethod
    def text(cls, sheet: str, name: str = "sheet.toml") -> "Plan":
        """Returns the plan of the text of a sheet in TOML (docs/PLANS.md)."""
        from streettools.plan import names, sources

        with own():
            return cls(sources.source_of(name, sheet.encode("utf-8", "surrogatepass"), names.Names))

    @classmethod
    def scenario(cls, scenario: Any) -> "Plan":
        """Returns the plan of a scenario: a dict, an `arterial.Scenario`, JSON text or the path of a file."""
        from streettools.plan import names, sources

        from .given import text_of

        with own():
            return cls(sources.source_of("scenario.json", text_of(scenario), names.Names))

    @classmethod
    def utdf(cls, *paths: Path) -> "Plan":
        """Returns the plan of a UTDF file, or of the files of one street (Synchro, version 6 to 8); `notes` lists what
        isn't imported."""
        from streettools.plan import actions, sources, utdf_in, utdf_text
        from streettools.plan.reading import street_of

        with own():
            texts = ((os.fspath(it), actions.utdf_text_of(os.fspath(it))) for it in paths)
            found = utdf_in.imported(utdf_text.read_all(texts))
            street = street_of(found.sheet)
            street.notes[:0] = found.notes
            return cls(sources.Source(os.fspath(paths[0]) if paths else "utdf", street=street))

    def __repr__(self) -> str:
        count = len(self._source.street.scenario["cabinets"]) if self._source.street else 0
        return f"<arterial.Plan {self._source.path} of {count} intersection{'s'[: count != 1]}>"

    # what it holds

    @property
    def street(self) -> "Street":
        """The street of the plan. Raises `Refused` with all faults if its names or values are wrong."""
        source = self._source
        if source.street is None or source.errors:
            first = next((it.line for it in source.errors if it.line), "")
            raise Refused(first or "", tuple(str(it) for it in source.errors) or ("the plan can't be read",))
        return source.street

    def value(self) -> dict[str, Any]:
        """Returns the scenario of the plan, as a dict with the names of its JSON."""
        found: dict[str, Any] = json.loads(json.dumps(self.street.scenario))
        return found

    @property
    def names(self) -> "Names":
        """The names of the street: title, intersections, phases."""
        return self.street.names

    @property
    def notes(self) -> list[str]:
        """Notes in words: values that the import added, and values that it couldn't import."""
        return list(self.street.notes)

    # checks

    def check(self, program: Path | None = None) -> list[Finding]:
        """Returns all that is wrong with the plan: first the errors, which the program would refuse, then warnings,
        then notes. The program itself is only used to compute bands; if no program is found, a note reports it."""
        from streettools.plan import check

        path: str | None = None
        with contextlib.suppress(NoProgram):
            path = str(path_of(program))
        with own():
            found = check.findings(self._source, path)
        return [Finding(it.level.value, it.where, it.words, it.rule) for it in found]

    def is_accepted(self, program: Path | None = None) -> bool:
        """Returns whether the plan has no error."""
        return all(it.level != "error" for it in self.check(program))

    # other forms

    def sheet(self) -> str:
        """Returns the plan as the text of a sheet in TOML."""
        from streettools.plan import toml_text, writing

        with own():
            return str(toml_text.text(writing.sheet_of(self.street)))

    def to_utdf(self, pattern: int = 1) -> str:
        """Returns the plan as UTDF, version 8; a pattern is its timing plan."""
        from streettools.plan import utdf_out

        with own():
            return utdf_out.text(self.street, pattern)

    def save(self, path: Path) -> pathlib.Path:
        """Writes the plan as the file's name says: a sheet (.toml), a workbook (.xlsx), a scenario (.json) or UTDF
        (.csv); returns its path."""
        from streettools.plan import actions

        name = os.fspath(path)
        with own():
            if name.endswith(".csv"):
                pathlib.Path(name).write_text(self.to_utdf(), encoding="utf-8", newline="")
            elif name.endswith((".toml", ".xlsx", ".json")):
                actions.put_fixed(name, self.street)
            else:
                raise Fault(f"{name}: a plan's name ends in .toml, .xlsx, .json or .csv")
        return pathlib.Path(path)

    # what follows from it

    def run(self, workers: int = 0, *, program: Path | None = None) -> "Trace":
        """Returns the trace of the plan: `arterial.run(plan)`."""
        from .runs import run

        return run(self, workers, program=program)

    def loads(self, new: "Plan", round: int = 1, flash: bool = False) -> list[dict[str, Any]]:
        """Returns the downloads that bring the cabinets from this plan to a new one, as the `loads` of a scenario; each
        keeps the rules. `flash` says that the cabinets are in flash then."""
        from streettools.plan import loads

        with own():
            return loads.between(self.street, new.street, round, flash)

    def bands(
        self, travel_s: Sequence[float] | None = None, pattern: int = 1, section: int = 1,
        program: Path | None = None,
    ) -> Bands:  # fmt: skip
        """Returns the widest progression bands of a pattern. `travel_s` are the seconds from each cabinet of the
        section to the next (default: those of the sheet)."""
        from streettools.plan.taking import travels_of
        from streettools.shared.bands import read_bands

        travel = travels_of(self.street) if travel_s is None else [round(10 * it) for it in travel_s]
        if travel is None:
            raise Refused("", ("travel_s: the plan doesn't say the travel times",))
        scenario = {name: self.street.scenario[name] for name in ("version", "rounds", "ticks", "cabinets")}
        question = {"scenario": scenario, "section": section, "pattern": pattern, "travel": travel}
        text = json.dumps(question).encode()
        with own():
            came = starting.ran(path_of(program), "band", given=text)
        if came.status == 2:
            raise refused(text, came.said)
        found = read_bands(came.out.decode())
        if came.status or found is None:
            raise died(came)
        return Bands(*(None if it is None else Band(it.start / 10, it.width / 10) for it in found))

    def plot(self, intersection: int = 1, pattern: int = 1, path: Path | None = None) -> Picture:
        """Returns a picture of a pattern of an intersection: rings, barriers, splits, what each phase needs, what is
        wrong. Pattern 0 is free operation. `path` also writes it: .svg, .png or .pdf."""
        from streettools.plan import picture
        from streettools.shared.cells import tables_of

        cabinets = self.street.scenario["cabinets"]
        if type(intersection) is not int or not 1 <= intersection <= len(cabinets):
            raise Refused("", (f"intersection: expected 1 to {len(cabinets)}, found {intersection!r}",))
        known, called = self.names.intersection(intersection), self.names.called(intersection)
        tables = tables_of(cabinets[intersection - 1])
        with own():
            return made(lambda name: picture.write(tables, known, called, pattern, name), path)
