"""Traces that are damaged: `look` shows them or refuses them in one line, whatever is wrong with them."""

import io
import json
import pathlib

from hypothesis import given
from streettools.look import called, coordination, events, offset, report, rings
from streettools.look.page import collect as page
from streettools.look.page import tables
from streettools.shared.fault import Fault
from streettools.shared.trace_reader import TraceReader

from .damage import damaged, damaged_values, tried

HERE = pathlib.Path(__file__).resolve().parents[1] / "look"
NAMED = ("mixed", "link-003", "coord-003", "preempt-002")
TRACES = [(HERE / "traces" / f"{name}.trace").read_bytes() for name in NAMED]
NAMES = called.Called()


class Reader(TraceReader):
    """A reader that isn't checked by the program, as with --no-check."""

    def answered(self) -> None:
        """There is no answer."""

    def finish(self) -> None:
        """A trace may end anywhere."""


def shown(octets: bytes) -> None:
    """Collects what each command of `look` shows of a trace."""
    import datetime

    def reader() -> Reader:
        return Reader(io.BytesIO(octets))

    def all_of(read) -> None:
        try:
            read(reader())
        except Fault as fault:
            assert str(fault) and "\n" not in str(fault)

    start = datetime.datetime(2026, 11, 27, 6)
    all_of(lambda it: report.text(report.collect(it, NAMES), False, NAMES))
    all_of(lambda it: report.text(report.collect(it, NAMES), True, NAMES))
    all_of(lambda it: rings.collect(it, 1, 0, 1800, frozenset()))
    view = coordination.View(0, 3000, 0, None, NAMES)
    all_of(lambda it: coordination.collect(it, list(range(1, it.cabinets + 1)), view))
    all_of(lambda it: offset.collect(it, 1, 0, it.rounds * it.ticks))
    all_of(lambda it: events.write(it, start, io.StringIO(), NAMES))
    all_of(lambda it: tables.packed([cabinet.tables for cabinet in page.collect(it)[0]]))


@tried(250)
@given(damaged(TRACES))
def test_damaged_traces_are_shown_or_refused(octets):
    shown(octets)


SCENARIOS = [json.loads(it.split(b"\n", 1)[0][2:]) for it in TRACES]
LINES = [it.split(b"\n", 1)[1] for it in TRACES]


@tried(250)
@given(damaged_values([list(pair) for pair in zip(SCENARIOS, range(len(LINES)))]))
def test_traces_of_damaged_scenarios_are_shown_or_refused(pair):
    scenario, number = pair if isinstance(pair, list) and len(pair) == 2 else (pair, 0)
    try:
        head = b"S " + json.dumps(scenario).encode() + b"\n"
    except (TypeError, ValueError):
        return
    shown(head + LINES[number if isinstance(number, int) and 0 <= number < len(LINES) else 0])
