"""Whether the offsets of a plan leave a through band, as `./arterial band` tells: asked where a sheet says how long the
way to the next intersection takes."""

import json
import pathlib
from collections.abc import Callable, Iterator

from ..shared.progress import counted
from ..shared.program import NoProgram, answering, ran
from ..shared.cells import tables_of
from ..shared.tables import Tables
from .findings import Finding, Level, Rank
from .reading import Street

SECONDS = 60


Question = tuple[int, int, list[int], list[int]]


def questions(street: Street) -> Iterator[Question]:
    """Yields each section and pattern of which a band can be asked: the numbers of the cabinets, and the times from
    each to the next."""
    cabinets = street.scenario["cabinets"]
    for section in range(1, 9):
        numbers = [number for number, it in enumerate(cabinets, 1) if it.get("section", 1) == section]
        told = [street.names.intersection(number).travel for number in numbers[:-1]]
        travel = [it for it in told if it is not None]
        if len(numbers) < 2 or len(travel) < len(told):
            continue
        tables = [tables_of(cabinets[number - 1]) for number in numbers]
        for pattern in sorted(set.intersection(*(set(it.patterns()) for it in tables))):
            if len(cycles(tables, pattern)) == 1:
                yield section, pattern, numbers, [round(10 * it) for it in travel]


def cycles(tables: list[Tables], pattern: int) -> dict[int, list[int]]:
    """Returns the cycles of a pattern, in seconds, each with the places of the tables that have it."""
    found: dict[int, list[int]] = {}
    for place, it in enumerate(tables):
        found.setdefault(it.pattern(pattern, 2), []).append(place)
    return found


def unequal(street: Street) -> Iterator[Finding]:
    """Yields a line for each pattern whose cycles differ, as where an intersection runs half the cycle: its bands
    aren't computed."""
    cabinets = street.scenario["cabinets"]
    for section in range(1, 9):
        numbers = [number for number, it in enumerate(cabinets, 1) if it.get("section", 1) == section]
        if len(numbers) < 2 or any(street.names.intersection(it).travel is None for it in numbers[:-1]):
            continue
        tables = [tables_of(cabinets[number - 1]) for number in numbers]
        for pattern in sorted(set.intersection(*(set(it.patterns()) for it in tables))):
            known = cycles(tables, pattern)
            if len(known) > 1:
                most = max(known, key=lambda it: (len(known[it]), it))
                others = [
                    f"{it} s at {', '.join(street.names.called(numbers[place]) for place in known[it])}"
                    for it in sorted(known) if it != most
                ]  # fmt: skip
                words = (
                    f"the bands of pattern {pattern} are not computed, since its cycles differ: {most} s, and "
                    f"{'; '.join(others)}. `./look coordination` draws the bands of a run"
                )
                yield Finding(Level.NOTE, street.names.sections.get(section, f"section {section}"), words)


def findings(street: Street, path: str | None) -> Iterator[Finding]:
    """Yields the plans whose offsets leave no band, one way or both, and those whose bands aren't computed."""
    yield from unequal(street)
    asked = list(questions(street))
    if not asked:
        return
    try:
        program = answering(path, lambda line: None)
    except NoProgram as why:
        yield Finding(Level.NOTE, "", f"bands are not looked at: {why}")
        return
    with counted(len(asked), "band") as shown:
        yield from of_questions(street, program, asked, shown.update if shown else lambda count: None)


def of_questions(
    street: Street, program: pathlib.Path, asked: list[Question], progress: Callable[[int], object]
) -> Iterator[Finding]:
    """Yields what the program answers to questions for bands."""
    scenario = {name: street.scenario[name] for name in ("version", "rounds", "ticks", "cabinets")}
    for section, pattern, numbers, travel in asked:
        question = {"scenario": scenario, "section": section, "pattern": pattern, "travel": travel}
        answer = ran(program, "band", given=json.dumps(question).encode(), seconds=SECONDS)
        lines = answer.out.decode().split("\n")
        progress(1)
        if answer.status == 0 and len(lines) > 1:
            yield from told(street, section, pattern, numbers, lines)


def told(street: Street, section: int, pattern: int, numbers: list[int], lines: list[str]) -> Iterator[Finding]:
    """Yields what two lines of bands say that somebody should know."""
    ways = {line.split()[0]: line.split()[1:] for line in lines if line}
    none = [way for way, it in ways.items() if it == ["none"]]
    name = street.names.sections.get(section, f"section {section}")
    ends = f"{street.names.called(numbers[0])} to {street.names.called(numbers[-1])}"
    if len(none) == 2:
        words = f"the offsets of pattern {pattern} leave no through band, {ends} or back"
        yield Finding(Level.WARNING, name, words, rank=Rank.LOOK)
    elif none:
        way, band = next((way, it) for way, it in ways.items() if way not in none)
        words = (
            f"the offsets of pattern {pattern} leave a through band of {int(band[1]) / 10:g} s {way} ({ends} is "
            f"outbound), and none {none[0]}"
        )
        yield Finding(Level.NOTE, name, words)
