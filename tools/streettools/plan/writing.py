"""A scenario, or a field file, as a sheet: what differs from the standard table, by its names, and nothing else."""

from collections.abc import Callable, Collection, Iterator
from typing import Any

from ..shared.tables import ALL, Tables
from ..shared import clock
from ..shared.given import Given
from . import drawing, fields, intersection, names, readers
from ..shared.cells import PATTERNS, SEQUENCES, SPLITS, differing, tables_of, value
from .reading import EVERY, LISTS, Street
from .started import Read


def read_back(sheet: dict[str, Any]) -> Read | None:
    """Returns the result of an intersection of a sheet, None if it has faults."""
    it = Given(sheet, faults=[])
    found, _ = intersection.read(it)
    return None if it.faults else found


def drawings(tables: Tables, known: names.Intersection) -> Iterator[drawing.Drawing | None]:
    """Yields the drawings to be tried: without partners, the whole one, none."""
    found = drawing.of_tables(tables)
    if found is not None and known.partners:
        without = found.without(known.partners)
        if all(side[0] or side[1] for side in without.sides):
            yield without
    if found is not None:
        yield found
    yield None


def about(known: names.Intersection) -> dict[str, Any]:
    """Returns what a sheet says of phases and preempts in addition to their times."""
    found: dict[str, Any] = {}
    for number, it in sorted(known.phases.items()):
        row = names.bare(it)
        if row:
            found.setdefault("phase", {})[str(number)] = row
    for number, name in sorted(known.preempts.items()):
        found.setdefault("preempt", {})[str(number)] = {"name": name}
    return found


def say(sheet: dict[str, Any], *path: str) -> dict[str, Any]:
    """Returns the table at a path of a sheet, made if it isn't there."""
    for name in path:
        sheet = sheet.setdefault(name, {})
    return sheet


def named(of: dict[str, fields.Field], column: int) -> tuple[str, fields.Field]:
    """Returns the field of a column, with its name."""
    return next((name, it) for name, it in of.items() if it.column == column)


def say_cell(sheet: dict[str, Any], tables: Tables, cell: tuple) -> None:
    """Writes the value of a cell, other than of splits, patterns and sequences, into a sheet."""
    match cell:
        case ("phase", phase, 21):
            say_options(say(sheet, "phase", str(phase)), value(tables, cell), 0xFFFF)
        case ("phase", phase, column):
            name, each = named(fields.PHASE_FIELDS, column)
            say(sheet, "phase", str(phase))[name] = each.show(value(tables, cell))
        case ("unit", column):
            name, each = named(fields.UNIT_FIELDS, column)
            say(sheet, "coordination")[name] = each.show(value(tables, cell))
        case ("preempt", number, column):
            name, each = named(fields.PREEMPT_FIELDS, column)
            say(sheet, "preempt", str(number))[name] = each.show(value(tables, cell))


def say_options(row: dict[str, Any], options: int, usual: int) -> None:
    """Writes those options of a phase that differ from the usual ones; all of them without usual ones."""
    for name in fields.OPTIONS:
        now = fields.show_option(name, options)
        if now != fields.show_option(name, usual):
            row[name] = now


def say_split(row: dict[str, Any], usual: Tables, tables: Tables, number: int, partners: Collection[int]) -> None:
    """Writes a split: the times of all enabled phases if one differs, the coordinated phases, modes that differ;
    partners are left out."""
    enabled = set(tables.enabled())
    times = {phase: value(tables, ("split", number, phase, 3)) for phase in ALL}
    before = {phase: value(usual, ("split", number, phase, 3)) for phase in ALL}
    said = {
        str(phase): time
        for phase, time in times.items()
        if (time != before[phase] or phase in enabled) and phase not in partners
    }
    if said:
        row["splits"] = said
    row["coordinated"] = [
        phase for phase in ALL if value(tables, ("split", number, phase, 5)) and phase not in partners
    ]
    modes = {
        str(phase): fields.SPLIT_MODES.show(value(tables, ("split", number, phase, 4)))
        for phase in ALL
        if value(tables, ("split", number, phase, 4)) != value(usual, ("split", number, phase, 4))
    }
    if modes:
        row["modes"] = modes


def say_patterns(sheet: dict[str, Any], usual: Tables, tables: Tables, partners: Collection[int]) -> None:
    """Writes the patterns and splits that differ into a sheet. A split that only one defined pattern uses is written
    with it."""
    cells = differing(usual, tables)
    changed, touched = ({cell[1] for cell in cells if cell[0] == table} for table in ("split", "pattern"))
    runs = {it: value(tables, ("pattern", it, 4)) for it in tables.patterns()}
    users = {split: [it for it, run in runs.items() if run == split] for split in SPLITS}
    for number in PATTERNS:
        split = value(tables, ("pattern", number, 4))
        own = split in changed and users[split] == [number]
        if number in touched or own:
            row = say(sheet, "pattern", str(number))
            say_pattern(row, usual, tables, number)
            if own:
                say_split(row, usual, tables, split, partners)
                changed.discard(split)
    for number in sorted(changed):
        say_split(say(sheet, "split", str(number)), usual, tables, number, partners)


def say_pattern(row: dict[str, Any], usual: Tables, tables: Tables, number: int) -> None:
    """Writes what of a pattern differs from the standard and from the defaults into its row."""
    cycle = value(tables, ("pattern", number, 2))
    entered = {"split": number if number in SPLITS else 0, "sequence": 1} if cycle else {}
    for name, each in fields.PATTERN_FIELDS.items():
        cell = ("pattern", number, each.column)
        before = value(usual, cell) or entered.get(name, 0)
        now = value(tables, cell)
        if now != before or (name == "cycle" and now):
            row[name] = now


def say_sequences(sheet: dict[str, Any], usual: Tables, tables: Tables) -> None:
    """Writes the orders of the rings that differ."""
    for number in SEQUENCES:
        rings = [value(tables, ("sequence", number, ring)) for ring in (1, 2)]
        if rings != [value(usual, ("sequence", number, ring)) for ring in (1, 2)]:
            say(sheet, "sequence")[str(number)] = drawing.order_lines(drawing.of_tables(tables), rings)


def said(base: str, tables: Tables, known: names.Intersection, drawn: drawing.Drawing | None) -> dict[str, Any] | None:
    """Returns an intersection as a sheet has it with this drawing, None if that doesn't come back as the same
    tables."""
    sheet: dict[str, Any] = {} if base == "std8" else {"standard": base}
    if drawn is not None and drawn != drawing.STANDARD:
        sheet["rings"] = drawn.lines()
    sheet |= about(known)
    usual = read_back(sheet)
    if usual is None:
        return None
    for cell in differing(usual.tables, tables):
        if cell[0] == "phase" and cell[1] in usual.partners:
            continue
        if cell[0] == "phase" and cell[2] == 21:
            say_options(say(sheet, "phase", str(cell[1])), value(tables, cell), value(usual.tables, cell))
        else:
            say_cell(sheet, tables, cell)
    say_sequences(sheet, usual.tables, tables)
    say_patterns(sheet, usual.tables, tables, usual.partners)
    found = read_back(sheet)
    return sheet if found is not None and not differing(found.tables, tables) else None


def intersection_sheet(cabinet: dict[str, Any], known: names.Intersection) -> dict[str, Any]:
    """Returns a cabinet of a scenario as an intersection of a sheet."""
    tables, base = tables_of(cabinet), cabinet.get("base", "std8")
    about = (
        ("name", known.name), ("note", known.note), ("travel", known.travel), ("distance", known.distance),
        ("conflicts", known.conflicts),
    )  # fmt: skip
    head: dict[str, Any] = {name: it for name, it in about if it}
    shows: tuple[tuple[str, Callable[[int], object]], ...] = (
        ("pattern", readers.command_word), ("clock", clock.day_time), ("section", int), ("gain", int), ("lose", int),
    )  # fmt: skip
    for name, show in shows:
        if cabinet.get(name):
            head["command" if name == "pattern" else name] = show(cabinet[name])
    for drawn in drawings(tables, known):
        for of in (known, names.Intersection(name=known.name)):
            sheet = said(base, tables, of, drawn)
            if sheet is not None:
                return head | sheet
    raise AssertionError("each table can be said cell by cell")


def master_sheet(master: dict[str, Any]) -> dict[str, Any]:
    """Returns what the master does, as a sheet has it."""
    sheet: dict[str, Any] = {}
    settings = {name: master[name] for name in (*EVERY, "retries") if name in master}
    if "clock" in master:
        settings = {"clock": clock.day_time(master["clock"]), **settings}
    if settings:
        sheet["master"] = settings
    if "schedule" in master:
        sheet["schedule"] = [
            {
                "at": clock.day_time(10 * it["second"]),
                "section": it["section"],
                "pattern": readers.command_word(it["pattern"]),
            }
            for it in master["schedule"]
        ]
    return sheet


def detector_row(item: dict[str, Any], ticks: int, called: str | None) -> dict[str, Any]:
    """Returns a detector of a bank as a sheet has it, in seconds."""
    row: dict[str, Any] = {"name": called} if called else {}
    row["phase"] = item["phase"]
    for name in ("delay", "extend", "no_activity", "max_presence"):
        if item[name]:
            tenths = item[name] * ticks
            row[name] = tenths // 10 if tenths % 10 == 0 else tenths / 10
    if item["erratic"]:
        row["erratic"] = item["erratic"]
    return row


def sheet_of(street: Street) -> dict[str, Any]:
    """Returns a scenario with its names, and what a field file has around it, as a sheet."""
    scenario, known = street.scenario, street.names
    sheet: dict[str, Any] = {"title": known.title} if known.title else {}
    if known.units != "us":
        sheet["units"] = known.units
    sheet["run"] = {name: scenario[name] for name in ("version", "rounds", "ticks", "community") if name in scenario}
    if sheet["run"]["version"] == 1:
        del sheet["run"]["version"]
    if known.sections:
        sheet["sections"] = {str(number): name for number, name in known.sections.items()}
    sheet |= master_sheet(scenario.get("master", {}))
    if street.day_plans:
        del sheet["schedule"]
        sheet["day_plan"] = [it.row() for it in street.day_plans]
    sheet["intersection"] = []
    for number, cabinet in enumerate(scenario["cabinets"], 1):
        of = known.intersection(number)
        row = intersection_sheet(cabinet, of)
        for item in (it for it in street.bank if it["cabinet"] == number):
            called = of.detectors.get(item["detector"])
            say(row, "detector")[str(item["detector"])] = detector_row(item, scenario["ticks"], called)
        sheet["intersection"].append(row)
    events = {name: scenario[name] for name in LISTS if name in scenario}
    events |= {} if street.pulses is None else {"pulses": street.pulses}
    sheet |= {} if street.respond is None else {"respond": street.respond}
    return sheet | ({"events": events} if events else {})
