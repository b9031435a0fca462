"""The measures: by hand, by the worked rows of scenarios/README.md, and beside the report of `look`."""

import io
import json

import pytest
from streettools.look import called, report
from streettools.shared.trace_reader import TraceReader
from streettools.sweep import measures, trace_rows
from streettools.sweep.bands import StreetTally
from streettools.sweep.choice import Column, column_of
from streettools.sweep.counts import RunCounts
from streettools.sweep.measures import Scope
from streettools.sweep.one_run import Runner
from streettools.sweep.prepared import prepared
from streettools.sweep.sensed import streams_of
from streettools.sweep.study import Street

from ..look.conftest import PAIR, SMALL, VECTORS
from .conftest import TOP


class NoStudy:
    """Stands in for a builder whose study begins to measure at a tick."""

    def __init__(self, start):
        self.study = type("Study", (), {"start": start})


class BuiltSo:
    """Stands in for a variant that was built: a scenario, and the street of its bands."""

    def __init__(self, scenario, street=None):
        self.scenario, self.street, self.text = scenario, street, b""

    def streams(self):
        """Returns the inputs by cabinet and phase."""
        return streams_of(self.scenario.get("inputs", ()))


def counted(trace: str, start: int = 0, street: Street | None = None) -> RunCounts:
    """Returns what is counted of a trace."""
    runner = Runner(NoStudy(start), None, (), (), False, 60)
    runner.street = street is not None
    return runner.counted(BuiltSo(json.loads(trace.split("\n")[0][2:]), street), io.BytesIO(trace.encode()))


def measured(trace: str, words: str, **more):
    """Returns a measure of a trace."""
    return column_of(words).value(counted(trace, **more))


@pytest.mark.parametrize(("words", "value"), {
    "services phase 4": 1, "services phase 2": 2, "services": 6,
    "green_mean phase 4": 10.0, "green_mean phase 2": 10.0, "green_share phase 4": 0.2381,
    "green_share phase 2": 0.3571,
    "wait_mean phase 4": 15.5, "wait_greatest": 15.5, "waiting": 0, "ended_gap phase 2": 1, "walks": 0,
    "walk_wait_mean": None,
    "local_zeros": 0, "on_offset_share": None,
}.items())  # fmt: skip
def test_a_car_on_the_side_street_by_hand(words, value):
    """The car comes after tick 60. 2 and 6 are green from 60 to 159 and again from 370 to 420, 4 and 8 from 215 to
    314."""
    assert measured(SMALL, words) == value


@pytest.mark.parametrize(("words", "value"), {
    "local_zeros": 6, "on_offset_share": 0.8333, "on_offset_share cabinet 2": 0.6667, "pickups": 2,
    "cycles_to_offset_mean": 0.5,
    "cycles_to_offset_greatest": 1, "seconds_to_offset_greatest": 100.0, "seconds_to_offset_least": 0.0,
    "offset_missed": 0,
    "coordinated_share": 0.975,
}.items())  # fmt: skip
def test_two_cabinets_in_step_by_hand(words, value):
    """Local zeros at 60, 960, 1860 and at 60 (on target 800), 1060, 1960; start-up takes 60 ticks of 2400."""
    assert measured(PAIR, words) == value


def test_what_comes_before_the_beginning_is_not_counted():
    assert measured(SMALL, "services phase 4", start=216) == 0
    assert measured(SMALL, "services phase 2", start=216) == 1
    assert measured(SMALL, "green_share phase 4", start=220) == 0.475
    assert measured(SMALL, "wait_mean", start=61) is None
    assert measured(PAIR, "on_offset_share", start=100) == 1.0


class Shown:
    """The greens of a cabinet, both ways alike."""

    def __init__(self, spans: list[tuple[int, int]]) -> None:
        self.pair, self.spans = (2, 6), (spans, spans)

    def show(self, way: int, is_green: bool, tick: int) -> None:
        """Has all greens already."""


def test_bands_that_the_beginning_or_the_end_cuts_are_left_out():
    """Greens of 34.5 s every 80 s; the run is measured from 15 s after the first began to 20 s after the last did."""
    tally = StreetTally(Street(1, 1, ()), {}, {"cabinets": []}, 150)
    tally.greens = {1: Shown([(800 * cycle, 800 * cycle + 345) for cycle in range(39)])}
    counts = tally.close(800 * 38 + 200)
    parts = [counts]
    assert column_of("band_seen_outbound").measure.value(parts) == 34.5
    assert counts.seen[0].count == 37
    due = (195 + 37 * 345 + 200) / (800 * 38 + 200 - 150)
    assert column_of("through_outbound").measure.value(parts) == round(due, 4)


def test_bands_of_the_trace_by_hand():
    """Both cabinets are green from 60 to the end at 2400. 10 s of travel leave the starts 60 to 2300 outbound of
    2300; the end cuts this only band, so its width isn't known."""
    counts = counted(PAIR, street=Street(1, 1, (100,)))
    assert column_of("band_seen_outbound").value(counts) is None
    assert column_of("through_outbound").value(counts) == 0.9739
    assert StreetTally(Street(2, 1, (100,)), {}, {"cabinets": [{}, {}]}, 0).close(2400).starts == 0


@pytest.mark.parametrize("trace", [it for it in VECTORS if it.stem != "mixed"], ids=lambda it: it.stem)
def test_counts_are_those_of_the_report(trace):
    text = trace.read_text()
    counts, told = counted(text), report.collect(TraceReader(io.BytesIO(trace.read_bytes())), called.Called())
    for cabinet in told["cabinets"]:
        number = cabinet["cabinet"]
        for it in cabinet["phases"]:
            mine = counts.phases[number, it["phase"]]
            assert (mine.services, mine.walks, dict(mine.endings)) == (it["services"], it["walks"], it["ended"])
            assert column_of(f"green_mean cabinet {number} phase {it['phase']}").value(counts) == pytest.approx(
                it["green"]["mean"], abs=0.006
            )
        mine = counts.cabinets[number]
        rows = cabinet["patterns"]
        assert (mine.zeros, mine.met, mine.pickups) == tuple(
            sum(it[name] for it in rows) for name in ("local_zeros", "on_the_offset", "pickups")
        )
        assert mine.accepted == sum("version" in it for it in cabinet["downloads"])
        assert mine.notes == sum(it["times"] for it in cabinet["notes"])


def runner_of(columns: tuple[Column, ...]) -> Runner:
    """Returns what counts a run for some columns alone."""
    return Runner(NoStudy(0), None, columns, (), False, 60)


@pytest.mark.parametrize("trace", VECTORS, ids=lambda it: it.stem)
def test_a_measure_that_is_asked_alone_is_the_same_as_beside_all_others(trace):
    text = trace.read_text()
    counts, built = counted(text), BuiltSo(json.loads(text.split("\n")[0][2:]))
    for name, measure in measures.ALL.items():
        if measure.scope is Scope.STREET:
            continue
        for words in (name, f"{name} cabinet 1"):
            column = column_of(words)
            alone = runner_of((column,)).counted(built, io.BytesIO(text.encode()))
            assert (words, column.value(alone)) == (words, column.value(counts))


@pytest.mark.parametrize("trace", VECTORS, ids=lambda it: it.stem)
def test_counts_do_not_depend_on_where_blocks_end(trace, monkeypatch):
    text = trace.read_text()
    whole = counted(text)
    for size in (1, 100, 1000):
        monkeypatch.setattr(trace_rows, "BLOCK", size)
        assert counted(text) == whole


ROWS = {
    "push-button": {"walks": 2, "walk_wait_mean phase 4": 10.5, "walk_wait_mean phase 2": 0.1},
    "lossy-line": {"fails": 1, "failed_rounds_mean": 4.0, "downloads_accepted": 1, "still_failed": 0},
    "night-download": {"downloads_accepted": 1, "downloads_refused": 1},
}
"""By the tables of scenarios/README.md: button of 4 after tick 110, walk at 215; of 2 after 590, walk at 591; a note of
fail in round 24 and of good in round 28."""


@pytest.mark.parametrize("name", ROWS)
def test_worked_rows_of_the_scenarios(name, program):
    rows = ROWS[name]
    text = (TOP / f"scenarios/{name}.json").read_bytes()
    ready = prepared({"scenario": name, "measures": list(rows)}, lambda _: text, program)
    outcome, words, _, *values = ready.runner(True, 60).row(ready.variants.at(0))
    assert (outcome, words) == ("done", None)
    assert dict(zip(rows, values)) == pytest.approx(rows)


def test_a_measure_of_ones_own_gets_the_run(program):
    text = (
        "def greens(run):\n    return sum('G' in str(it) for it in run.reader().happenings())\ndef broken(run):\n    "
        "return 1 / 0\n"
    )
    files = {"a": (TOP / "scenarios/one-cabinet.json").read_bytes(), "mine.py": text.encode()}
    one = prepared({"scenario": "a", "own": [{"name": "greens", "file": "mine.py"}]}, files.__getitem__, program)
    assert one.runner(False, 60).row(one.variants.at(0))[3:] == [1]
    other = prepared({"scenario": "a", "own": [{"name": "broken", "file": "mine.py"}]}, files.__getitem__, program)
    assert other.runner(False, 60).row(other.variants.at(0))[:2] == [
        "failed",
        "broken: ZeroDivisionError: division by zero",
    ]


def test_each_measure_of_the_program_is_in_the_document_with_unit_and_definition():
    """A row that goes on in the next one is one row."""
    page = (TOP / "docs/SWEEP.md").read_text().replace(" |\n| | | ", " ")
    for it in measures.ALL.values():
        assert f"| `{it.name}` | {it.unit} | {it.what} |" in page
