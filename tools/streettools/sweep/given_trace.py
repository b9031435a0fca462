"""`./arterial sweep measure`: the measures of studies, of a trace that is given."""

import argparse
import io
import json
from pathlib import Path
from typing import Any

from ..cosim import records
from ..cosim.movements import Count, counts
from ..cosim.queues.signals import Signals
from ..shared import files
from ..shared.commandline import Parser, add_output, add_program
from ..shared.fault import Fault
from ..shared.given import content_of
from ..shared.program import found, ran
from ..shared.saying import say_replaced
from ..shared.status import Status
from . import choice, table
from .choice import Column
from .counts import RunCounts
from .measures import Scope
from .one_run import Failed, Runner
from .sensed import Stream, streams_of
from .study import Street, street_of

EXAMPLES = """\
examples:
  ./arterial sweep measure session.trace 'wait_mean each cabinet' 'services phase 4'
  ./arterial sweep measure session.trace band_seen_outbound --travel 20,20,20 --from 600
  ./arterial sweep measure out/ 'delay_mean each phase' split_failures -o measures.csv   # a folder of cosim

The table has one row. A folder of `cosim run` or `cosim queues` also has the measures of vehicles; --from excludes
vehicles that start earlier. ./arterial sweep measures lists the measures, docs/SWEEP.md explains them."""
LONGEST = 600.0
"""Seconds that a check of a trace may take."""


class Begun:
    """Replaces a study, of which only the start of what is measured is known, in ticks."""

    def __init__(self, start: int) -> None:
        self.study = self
        self.start = start


class Given:
    """A run that is given: its scenario, and the street of its bands."""

    def __init__(self, scenario: dict[str, Any], street: Street | None) -> None:
        self.scenario, self.street, self.text = scenario, street, b""

    def streams(self) -> list[Stream]:
        """Returns the inputs by cabinet and phase."""
        return list(streams_of(self.scenario.get("inputs", ())))


def parser() -> argparse.ArgumentParser:
    """Returns the reader of the options."""
    words = Parser("sweep measure", description="Measures a trace by the measures of studies.", epilog=EXAMPLES)
    words.add_argument("trace", help="a trace, or a folder of cosim that has one")
    words.add_argument("measures", nargs="+", metavar="MEASURE", help="a measure, as in a study")
    words.add_argument("--from", dest="start", type=float, default=0.0, metavar="S",
                       help="exclude earlier events (default: 0)")  # fmt: skip
    words.add_argument("--travel", metavar="S,S..", help="for bands: seconds from each cabinet to the next")
    add_output(words, "the table to write, .csv or .parquet (default: standard output)", metavar="TABLE")
    add_program(words)
    return words


def street_given(text: str | None) -> Street | None:
    """Returns the street of the bands."""
    if text is None:
        return None
    try:
        return street_of({"travel": [float(it) for it in text.split(",")]})
    except ValueError:
        raise Fault(f"--travel {text}: as in 20,20,20") from None


def checked(path: Path, program: Path) -> bytes:
    """Returns a trace that the program takes."""
    text = content_of(path)
    answer = ran(program, "check", given=text, seconds=LONGEST)
    if answer.status:
        raise Fault(f"{path}: {answer.said}")
    return text


def traffic_of(folder: Path, start: float) -> dict[tuple[int, int], Count]:
    """Returns what is counted of the vehicles of a run of cosim, by cabinet and phase."""
    try:
        study = records.load(folder / "study.json")
    except (OSError, ValueError, KeyError, TypeError):
        raise Fault(f"{folder / 'study.json'}: measures of vehicles need the folder of a run of cosim") from None
    study.warm = max(study.warm, start)
    signals = Signals(study.cabinets)
    with open(study.trace, "rb") as lines:
        signals.shown([line for line in lines if line.startswith(b"F ")])
    signals.close(study.seconds)
    counted, by_phase = counts(study, signals.greens), dict[tuple[int, int], Count]()
    for it in study.movements:
        if it.phase is not None and not it.name.startswith("ped "):
            by_phase.setdefault((it.cabinet, it.phase), Count()).add(counted[it.cabinet, it.name])
    return by_phase


def measured(words: argparse.Namespace) -> tuple[list[str], list[Any]]:
    """Returns the names and the values of the measures that are asked for."""
    asked = choice.columns_of(words.measures)
    path, program = Path(words.trace), found(words.program)
    folder = path if path.is_dir() else path.parent
    text = checked(path / "session.trace" if path.is_dir() else path, program)
    scenario = json.loads(text[2 : text.index(b"\n")])
    if words.start * 10 >= scenario["rounds"] * scenario["ticks"] or words.start < 0:
        raise Fault(f"--from {words.start:g}: the run ends at {scenario['rounds'] * scenario['ticks'] / 10:g} s")
    street = street_given(words.travel)
    if street is None and (needs := choice.needing(asked, Scope.STREET)):
        raise Fault(f"{needs} needs --travel")
    runner = Runner(Begun(round(10 * words.start)), program, asked, (), False, LONGEST)  # type: ignore[arg-type]
    try:
        came = runner.counted(Given(scenario, street), io.BytesIO(text))  # type: ignore[arg-type]
    except Failed as fault:
        raise Fault(f"{path}: {fault}") from None
    columns = spread(asked, came)
    if choice.needing(asked, Scope.TRAFFIC):
        came.traffic = traffic_of(folder, words.start)
    return [it.name() for it in columns], [it.value(came) for it in columns]


def spread(asked: tuple[Column, ...], came: RunCounts) -> tuple[Column, ...]:
    """Returns the columns with each cabinet and each phase named."""
    phases: dict[int, list[int]] = {cabinet: [] for cabinet in came.cabinets}
    for cabinet, phase in came.phases:
        phases[cabinet].append(phase)
    return choice.spread_out(asked, phases)


def main(given: list[str]) -> int:
    """Measures a trace, and returns the exit status."""
    words = parser().parse_args(given)
    if words.output is not None:
        table.check(Path(words.output))
        say_replaced("sweep", Path(words.output))
    names, values = measured(words)
    if words.output is None:
        with files.output(None) as out:
            out.write(",".join(names) + "\n" + ",".join(str(table.cell(it)) for it in values) + "\n")
    else:
        table.write(Path(words.output), names, [values])
    return Status.DONE
