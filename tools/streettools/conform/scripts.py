"""Test scripts: TOML files of tests in words, scenarios, and the library of tests that this package has."""

import json
import pathlib
from collections.abc import Iterator
from dataclasses import dataclass, field
from typing import Any

from ..shared import given
from ..shared.cells import tables_of, with_cells
from ..shared.fault import Fault
from ..shared.given import Given, Wrong
from ..shared.tables import Tables
from .cell_words import cells_of
from .steps import CLOCK, DISCARD, FORCE, PATTERN, STAGE, VERIFY, Act, acts_of, all_acts, of_scenario
from .objects import FLASH, FREE

LIBRARY = pathlib.Path(__file__).with_name("library")
MOST_BYTES, MOST_TESTS, MOST_LINES = 1 << 20, 500, 500
Lines = tuple[str, ...]


@dataclass(frozen=True)
class Script:
    """A test: its name and subject, what it shows, the cells that are loaded before it, the command with which it
    starts, its acts and how many ticks it takes; its loads by name, each as lines of cells or as cells."""

    name: str
    subject: str
    shows: str
    tables: Lines
    start: Act
    acts: tuple[Act, ...]
    ticks: int
    clock: Act | None = None
    loads: dict[str, Any] = field(default_factory=dict)
    given: dict[str, Any] | None = None
    """The cabinet of a scenario, whose tables the test needs."""

    def cells(self, tables: Tables) -> list[list[Any]]:
        """Returns the cells that are loaded before the test, into the tables of the device."""
        if self.given is not None:
            from ..shared.cells import cells_between

            return cells_between(tables, tables_of(self.given))
        return cells_of(self.tables, tables)

    def load(self, name: str, tables: Tables) -> list[list[Any]]:
        """Returns the cells of a load by its name, into the tables in force."""
        held = self.loads[name]
        return cells_of(held, tables) if isinstance(held, tuple) else list(held)


def started(word: object) -> Act:
    """Returns the command with which a test starts."""
    if not isinstance(word, str):
        raise Wrong('expected the command that starts the test, as "free" or "pattern 1"')
    (act, *_) = acts_of(f"{word} at 0 s")
    if act.kind != PATTERN:
        raise Wrong(f'{word!r} is not a command, as "free" or "pattern 1"')
    return act


def clock_of(word: object) -> Act:
    """Returns the setting of the clock before a test."""
    (act,) = acts_of(f"clock {word} at 0 s")
    return act


def steps_of(table: Given) -> tuple[Act, ...]:
    """Returns the acts of a test; a wrong step is refused with its place."""
    lines = table.texts("steps")
    if len(lines) > MOST_LINES:
        raise table.refuse("steps", f"has more than {MOST_LINES} lines")
    for at, line in enumerate(lines):
        try:
            acts_of(line)
        except Wrong as wrong:
            raise table.refuse(f"steps[{at}]", wrong) from None
    return tuple(all_acts(lines))


def loads_of(table: Given) -> dict[str, Any]:
    """Returns the loads of a test, by name."""
    inner = table.below("loads")
    return {name: cells_checked(inner, name) for name in inner.table}


def cells_checked(table: Given, name: str) -> Lines:
    """Returns lines of cells, each of which must be one."""
    lines = table.texts(name)
    for at, line in enumerate(lines[: MOST_LINES + 1]):
        try:
            cells_of((line,), Tables())
        except Wrong as wrong:
            raise table.refuse(f"{name}[{at}]", wrong) from None
    if len(lines) > MOST_LINES:
        raise table.refuse(name, f"has more than {MOST_LINES} lines")
    return lines


def test_of(subject: str, table: Given) -> Script:
    """Returns a test of a file."""
    name, acts, loads = table.need("name", str), steps_of(table), loads_of(table)
    for act in acts:
        if act.name and act.name not in loads:
            raise table.refuse("loads", f"has no {act.name}, which {act.words!r} asks for")
    known: set[str] = set()
    for act in acts:
        known = set() if act.kind in (STAGE, FORCE) else known | {act.kind}
        if act.kind == DISCARD and VERIFY in known:
            raise table.refuse("steps", "discards a load after its verification: NORMAL puts verified tables in force")
    lasts = table.within("lasts", (int, float), 1, 7200, 60)
    clock, start = table.read("clock", clock_of), table.read("start", started, started("free"))
    if clock is None and any(it.kind == PATTERN and it.number not in (FREE, FLASH) for it in (start, *acts)):
        raise table.refuse("clock", "is missing: a test with a pattern says what time it is, as 07:00:00")
    shows, cells = table.take("shows", str, ""), cells_checked(table, "tables")
    return Script(name, table.take("subject", str, subject), shows, cells, start, acts, round(10 * lasts), clock, loads)


def of_toml(content: bytes, name: str) -> list[Script]:
    """Returns the tests of a file in TOML."""
    whole = Given(given.toml_of(content, name), name)
    subject = whole.take("subject", str, "other")
    found = list(whole.each("test", lambda table: test_of(subject, table)))
    whole.end()
    if not found:
        raise Fault(f"{name}: it has no [[test]]")
    return found


def of_json(content: bytes, name: str) -> list[Script]:
    """Returns the test that a scenario is: its first cabinet, its inputs and downloads."""
    try:
        scenario = json.loads(content)
    except (ValueError, RecursionError) as fault:
        raise Fault(f"{name}: not valid JSON: {fault}") from None
    from ..shared import shapes

    if wrong := next(shapes.scenario_faults(scenario), None):
        raise Fault(f"{name}: {wrong.path} {wrong.words}")
    cabinet = scenario["cabinets"][0]
    start = cabinet.get("pattern", 0) or FREE
    clock = None
    if "clock" in cabinet:
        second = cabinet["clock"] // 10
        clock = Act(0, CLOCK, f"clock at second {second} of the day at 0 s", second)
    loads = {str(number): it["cells"] for number, it in enumerate(scenario.get("loads", ()), 1)}
    begin, length = Act(0, PATTERN, f"pattern {start} at 0 s", start), scenario["rounds"] * scenario["ticks"]
    return [Script(
        pathlib.Path(name).stem, "scenario", f"the inputs of {name}", (), begin, tuple(of_scenario(scenario)),
        min(72_000, length), clock, dict(loads), cabinet,
    )]  # fmt: skip


def of_file(path: str) -> list[Script]:
    """Returns the tests of a file: TOML, or a scenario in JSON."""
    content = given.content_of(path)
    if len(content) > MOST_BYTES:
        raise Fault(f"{path}: more than {MOST_BYTES} bytes")
    return of_json(content, path) if path.endswith(".json") else of_toml(content, path)


def library() -> list[Script]:
    """Returns the tests of the library, in the order of its files."""
    files = sorted(LIBRARY.glob("*.toml"))
    return [test for file in files for test in of_toml(file.read_bytes(), file.name)]


def all_of(paths: list[str]) -> list[Script]:
    """Returns the tests of files; those of the library if no file is named. No two may have one name."""
    found = [test for path in paths for test in of_file(path)] if paths else library()
    names = [it.name for it in found]
    again = next((it for it in names if names.count(it) > 1), None)
    if again is not None:
        raise Fault(f"two tests have the name {again}")
    if len(found) > MOST_TESTS:
        raise Fault(f"more than {MOST_TESTS} tests")
    return found


def chosen(tests: list[Script], only: list[str]) -> list[Script]:
    """Returns the tests with some names or subjects, all if none is given."""
    if not only:
        return tests
    wanted = [it.casefold() for it in only]
    found = [it for it in tests if it.name.casefold() in wanted or it.subject.casefold() in wanted]
    known = {word for it in tests for word in (it.name.casefold(), it.subject.casefold())}
    unknown = [it for it in only if it.casefold() not in known]
    if unknown:
        raise Fault(f"{unknown[0]} is neither a test nor a subject: --list prints both")
    return found


def tables_before(script: Script, tables: Tables) -> Tables:
    """Returns the tables with which a test begins."""
    return with_cells(tables, script.cells(tables))


def listed(tests: list[Script]) -> Iterator[str]:
    """Yields a line for each test."""
    for it in tests:
        yield f"{it.subject}: {it.name}: {it.shows}"
