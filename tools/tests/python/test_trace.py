"""The tables of a trace, with values worked by hand; slices; texts that are no traces; pictures."""

import subprocess

import arterial
import matplotlib
import pytest

from .conftest import TOP
from .test_run import CAR

TABLES = ("frames", "greens", "splits", "events", "notes", "downloads", "offsets")
DOWNLOAD = {
    "version": 1, "rounds": 5, "ticks": 60, "cabinets": [{}, {}],
    "inputs": [{"round": 2, "cabinet": 1, "veh": 4, "on": True}],
    "loads": [{"round": 1, "cabinet": 1, "cells": [["phase", 2, 8, 43]]},
              {"round": 1, "cabinet": 2, "cells": [["phase", 2, 8, 20]]}],
}  # fmt: skip
"""The second example of docs/TRACE.md, and a cabinet that refuses a yellow of 2.0 s by rule 10."""


@pytest.fixture(scope="module")
def car(program):
    return arterial.run(CAR, program=program)


@pytest.fixture(scope="module")
def street(program):
    """Four cabinets, with maximum recall so that nobody has to call: patterns are taken up and corrected."""
    cells = [[["unit", 1, 3], ["pattern", 1, 3, it]] for it in (0, 10, 85, 5)]
    cabinets = [{"base": "max8", "pattern": 1, "cells": it} for it in cells]
    return arterial.run({"version": 1, "rounds": 600, "ticks": 10, "cabinets": cabinets}, program=program)


def test_greens_have_the_times_and_reasons_of_the_scenario_page(car):
    """docs/SCENARIO.md: phases 2 and 6 end at 16 s after their minimum, since nobody is near; 4 and 8 after 10 s; then
    2 and 6 are green up to the end at 42 s."""
    rows = car.greens()[["phase", "start_s", "end_s", "green_s", "ending"]].values.tolist()
    assert rows == [
        [2, 6.0, 16.0, 10.0, "gap"], [6, 6.0, 16.0, 10.0, "gap"], [4, 21.5, 31.5, 10.0, "gap"],
        [8, 21.5, 31.5, 10.0, "gap"], [2, 37.0, 42.0, 5.0, "still green"], [6, 37.0, 42.0, 5.0, "still green"],
    ]  # fmt: skip


def test_events_have_the_codes_of_the_events_page(car):
    """At 16 s: gap out (4), green termination (7) and begin yellow (8), of phases 2 and 6."""
    rows = car.between(16, 16.1).events()[["event", "parameter", "name"]].values.tolist()
    assert rows == [
        [4, 2, "gap out"], [7, 2, "green termination"], [8, 2, "begin yellow"],
        [4, 6, "gap out"], [7, 6, "green termination"], [8, 6, "begin yellow"],
    ]  # fmt: skip


def test_splits_add_up_to_the_programmed_ones_in_a_cycle_that_is_on_its_offset(street):
    """Split 1 gives 15 s to odd and 30 s to even phases; yellow 3.5 and 4 s, red clearance 1 and 1.5 s. With maximum
    recall each phase but those that share slack uses its split, once the offset is reached."""
    found = street.between(400, 590).splits()
    side = found[found.phase.isin([3, 4, 7, 8])]
    assert set(side.split_s[side.phase == 4]) == {30.0} and set(side.split_s[side.phase == 3]) == {15.0}
    assert set(side.yellow_s[side.phase == 4]) == {4.0} and set(side.red_clear_s[side.phase == 4]) == {1.5}
    assert (side.used_s - side.split_s).abs().max() < 0.05
    assert ((found.green_s + found.yellow_s + found.red_clear_s - found.used_s).abs() < 1e-9).all()


def test_offsets_end_up_at_their_target(street):
    """Cycles of 90 s, once each cabinet is on its offset; a pickup has no cycle before it."""
    last = street.between(480).offsets()
    assert last.on_offset.all() and set(last.cycle_s) == {90.0} and set(last.error_s) == {0.0}
    first = street.offsets().groupby("cabinet").head(1)
    assert first.pickup.all() and first.cycle_s.isna().all()


def test_downloads_and_notes_have_rule_row_and_words(program):
    """docs/TRACE.md, "A download line by line"; rule 10 wants a yellow of 3.0 s or more."""
    trace = arterial.run(DOWNLOAD, program=program)
    rows = trace.downloads()[["cabinet", "download", "accepted"]].values.tolist()
    assert rows == [[2, 1, False], [1, 1, True]]
    refused = trace.cabinet(2).downloads().iloc[0]
    assert (refused.rule, refused.row) == (10, 2) and trace.cabinet(1).downloads().version.tolist() == [1]
    assert "load 1 done" in trace.cabinet(1).notes().words.tolist()
    assert trace.cabinet(2).notes().words.iloc[-1].startswith("load 1 refused 5")


def test_a_trace_without_events_has_empty_tables_with_columns(car):
    assert car.notes().empty and list(car.notes().columns) == ["time_s", "cabinet", "round", "words"]
    assert car.splits().empty and car.offsets().empty and car.downloads().empty


@pytest.mark.parametrize("name", TABLES)
def test_slices_by_cabinet_are_the_rows_of_the_cabinet(street, name):
    whole, rows = getattr(street, name)(), getattr(street.cabinet(3), name)()
    assert rows.values.tolist() == whole[whole.cabinet == 3].values.tolist() or rows.equals(
        whole[whole.cabinet == 3].reset_index(drop=True)
    )


@pytest.mark.parametrize("name", ["frames", "events", "offsets"])
def test_slices_by_time_are_the_rows_of_that_time(street, name):
    whole, rows = getattr(street, name)(), getattr(street.between(100, 200), name)()
    assert len(rows) == ((whole.time_s >= 100) & (whole.time_s < 200)).sum() > 0


def test_views_share_one_walk_over_the_text(street, monkeypatch):
    trace = arterial.Trace(street.text)
    views = [trace.cabinet(number) for number in (1, 2, 3, 4)]
    assert sum(len(it.greens()) + len(it.events()) for it in views) == len(trace.greens()) + len(trace.events())
    from arterial import walks

    monkeypatch.setattr(walks, "rows_of", None)
    monkeypatch.setattr(walks, "events_of", None)
    assert len(trace.between(0, 60).greens()) and len(views[0].events())


def test_greens_that_overlap_a_slice_are_in_it_uncut(car):
    assert car.between(15, 22).greens().start_s.tolist() == [6.0, 6.0, 21.5, 21.5]
    assert car.between(16, 21).greens().empty


def test_what_is_shown_at_a_moment_is_the_frame_in_force(car):
    """docs/SCENARIO.md: tick 160 turns phases 2 and 6 yellow, tick 200 to red clearance."""
    assert car.at(19.9)[1].vehicles[:8] == "RYRRRYRR" and car.at(20)[1].vehicles[:8] == "RCRRRCRR"
    with pytest.raises(arterial.Error, match="0 to 42 s"):
        car.at(42.1)


@pytest.mark.parametrize("number", [0, 2, -1, "1", 1.0, None, True])
def test_a_cabinet_that_isnt_there_is_refused_in_words(car, number):
    with pytest.raises(arterial.NoCabinet, match="has no cabinet"):
        car.cabinet(number)


@pytest.mark.parametrize("span", [(-1, 5), (5, 5), (6, 5), ("a", 5), (float("nan"), 5)])
def test_a_time_that_isnt_one_is_refused(car, span):
    with pytest.raises(arterial.Refused, match="start_s"):
        car.between(*span)


def test_a_file_comes_back_as_it_was_written(car, tmp_path):
    path = car.save(tmp_path / "car.trace")
    assert arterial.Trace.read(path).text == car.text == path.read_bytes()
    assert car.scenario["rounds"] == 7 and car.seconds == 42.0 and car.cabinets == 1


@pytest.mark.parametrize("text", ["", "hello\n", b"\xff\n", "S {}\n", "S [1]\n", 'S {"rounds":1}\n'])
def test_a_text_that_is_no_trace_is_refused_with_its_line(text):
    with pytest.raises(arterial.NotATrace) as fault:
        arterial.Trace(text)
    assert fault.value.line == 1


def test_a_trace_that_ends_early_has_no_tables(car):
    cut = arterial.Trace(car.text[: car.text.rindex(b"Z")])
    for name in TABLES:
        with pytest.raises(arterial.NotATrace):
            getattr(cut, name)()


def test_all_traces_of_the_examples_have_tables(program):
    """Railroads, buses, lost messages, clocks that drift: no table refuses a trace that a run has written."""
    for name in ("railroad", "bus", "lossy-line", "drifting-clocks", "night-download", "push-button"):
        trace = arterial.run(TOP / f"scenarios/{name}.json", program=program)
        assert not trace.frames().empty
        for table in TABLES:
            getattr(trace, table)()


@pytest.mark.parametrize("seed", [1, 2, 3])
def test_tables_of_generated_scenarios_agree_with_plain_counts_of_lines(program, seed):
    """Polls, downloads, lost messages and all inputs (docs/SCENARIO.md, "A scenario that is generated")."""
    words = [program, "generate", "--seed", str(seed), "--cabinets", "3", "--rounds", "120"]
    trace = arterial.run(subprocess.run(words, capture_output=True, check=True).stdout, program=program)
    lines = [it.split() for it in trace.text.decode().splitlines()]
    counts = {letter: sum(it[0] == letter for it in lines) for letter in "FLM"}
    assert (len(trace.frames()), len(trace.downloads()), len(trace.notes())) == tuple(counts.values())
    begun, before = 0, {str(number): "R" * 16 for number in (1, 2, 3)}
    for _, cabinet, _, shown, *_ in (it for it in lines if it[0] == "F"):
        begun += sum(now == "G" != was for was, now in zip(before[cabinet], shown))
        before[cabinet] = shown
    assert len(trace.greens()) == begun > 10
    events = trace.events()
    assert (events.event == 1).sum() == begun


def test_greens_are_counted_as_the_report_counts_them(street):
    """`arterial look report` reads the same trace by its own collector: services, their mean and how they ended."""
    import io

    from streettools.look import called, report
    from streettools.shared.trace_reader import TraceReader

    found = street.greens()
    ended = found[found.ending != "still green"]
    for row in report.collect(TraceReader(io.BytesIO(street.text)), called.Called())["cabinets"]:
        for it in row["phases"]:
            own = ended[(ended.cabinet == row["cabinet"]) & (ended.phase == it["phase"])]
            assert own.ending.value_counts().to_dict() == it["ended"]
            assert own.green_s.mean().round(2) == it["green"]["mean"] and own.green_s.max() == it["green"]["greatest"]
            everything = found[(found.cabinet == row["cabinet"]) & (found.phase == it["phase"])]
            assert len(everything) == it["services"]


def test_pictures_come_in_one_call_and_leave_the_readers_settings(street, tmp_path):
    from matplotlib import pyplot

    own = pyplot.figure()
    before = dict(matplotlib.rcParams)
    for kind in ("rings", "coordination", "offset"):
        picture = street.plot(kind, tmp_path / f"{kind}.png")
        assert "<svg" in picture._repr_svg_() and (tmp_path / f"{kind}.png").read_bytes()[:4] == b"\x89PNG"
    assert dict(matplotlib.rcParams) == before and pyplot.get_fignums() == [own.number]
    pyplot.close(own)
    picture.save(tmp_path / "offset.svg")
    assert street.plot("coordination", travel_s=[20, 20, 20]).svg != street.plot("coordination").svg


@pytest.mark.parametrize(("given", "words"), [
    ({"kind": "pie"}, "expected one of rings"), ({"path": "a.gif"}, "a picture's name ends in"),
    ({"kind": "coordination", "travel_s": [1]}, "4 cabinets have 3 times"),
    ({"path": "/nowhere/a.svg"}, "/nowhere"),
])  # fmt: skip
def test_a_picture_that_cant_be_drawn_is_refused_in_words(street, given, words):
    with pytest.raises(arterial.Error, match=words):
        street.plot(**given)
