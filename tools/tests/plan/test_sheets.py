"""Sheets and scenarios: what a scenario holds comes back from its sheet, and a sheet says what it says."""

import json
import random
import subprocess

import pytest

from streettools.plan import book, book_reading, names, reading, toml_text, writing
from streettools.shared.cells import differing, tables_of
from streettools.shared.given import Unreadable
from streettools.plan.layout import concurrent
from streettools.shared.tables import Tables

from .conftest import TOP
from .random_tables import cells_of

SCENARIOS = sorted(it for it in (TOP / "scenarios").glob("*.json"))
TABLES = 2_000
AT_ONCE = 50
BOOKS = 12
DEFAULTS = {"base": "std8", "pattern": 0, "clock": 0, "section": 1, "gain": 0, "lose": 0}


def street(path) -> reading.Street:
    """Returns the street of a scenario or a field file."""
    value = json.loads(path.read_text())
    if "scenario" not in value:
        return reading.Street(value, names.Names())
    return reading.Street(
        value["scenario"], names.Names(), [], value["bank"], value.get("pulses"), value.get("respond")
    )


def same(old: reading.Street, new: reading.Street) -> bool:
    """Tells whether two streets hold the same: all tables cell by cell, and all else."""
    cabinets = [it.scenario["cabinets"] for it in (old, new)]
    rest = [
        [DEFAULTS | {name: it for name, it in cabinet.items() if name != "cells"} for cabinet in some]
        for some in cabinets
    ]
    tables = all(not differing(tables_of(a), tables_of(b)) for a, b in zip(*cabinets, strict=True))
    others = [{name: it for name, it in some.scenario.items() if name != "cabinets"} for some in (old, new)]
    around = [(some.bank, some.pulses, some.respond) for some in (old, new)]
    return tables and rest[0] == rest[1] and others[0] == others[1] and around[0] == around[1]


@pytest.mark.parametrize("path", SCENARIOS, ids=lambda it: it.name)
def test_each_scenario_comes_back_whole_from_its_sheet_and_its_workbook(path, tmp_path):
    """Tables, inputs, downloads, schedules, detectors: nothing is lost in either form."""
    old = street(path)
    sheet = writing.sheet_of(old)
    assert same(old, reading.street_of(toml_text.read(toml_text.text(sheet))))
    book.write(sheet, str(tmp_path / "street.xlsx"))
    assert same(old, reading.street_of(book_reading.read((tmp_path / "street.xlsx").read_bytes())[0]))


def test_two_thousand_random_tables_come_back_cell_by_cell():
    """Tables of random rings, sequences, patterns, splits and preempts, fifty intersections to a sheet."""
    for first in range(0, TABLES, AT_ONCE):
        cabinets = [{"cells": cells_of(random.Random(first + it))} for it in range(AT_ONCE)]
        sheet = {"intersection": [writing.intersection_sheet(it, names.Intersection()) for it in cabinets]}
        back = reading.street_of(toml_text.read(toml_text.text(sheet))).scenario["cabinets"]
        for old, new in zip(cabinets, back, strict=True):
            assert not differing(tables_of(old), tables_of(new))


def test_random_tables_come_back_from_workbooks(tmp_path):
    """The same by pages, in one workbook."""
    cabinets = [{"cells": cells_of(random.Random(it))} for it in range(BOOKS)]
    known = [names.Intersection(name=f"= Main [St] / {it}?") for it in range(BOOKS)]
    sheet = {"intersection": [writing.intersection_sheet(*it) for it in zip(cabinets, known, strict=True)]}
    book.write(sheet, str(tmp_path / "all.xlsx"))
    back = reading.street_of(book_reading.read((tmp_path / "all.xlsx").read_bytes())[0])
    assert [it.name for it in back.names.intersections] == [it.name for it in known]
    for old, new in zip(cabinets, back.scenario["cabinets"], strict=True):
        assert not differing(tables_of(old), tables_of(new))


def test_a_sheet_that_says_nothing_is_the_standard_table():
    """Anything that differs is said, nothing else: no cells come of it, and ten minutes are run."""
    found = reading.street_of(toml_text.read("[[intersection]]\n")).scenario
    assert found == {"version": 1, "rounds": 600, "ticks": 10, "cabinets": [{"base": "std8"}]}


T = """
[[intersection]]
name = "Main & Mill"
rings = ["1 2 | 4", "6 | -"]
[intersection.phase]
4 = {yellow = 3.6, recall = ["minimum", "pedestrian"], locking = false}
[intersection.pattern.1]
cycle = 90
offset = 20
splits = {1 = 15, 2 = 45, 4 = 30, 6 = 60}
"""


def test_a_t_intersection_gets_the_partner_that_its_rings_need():
    """Phase 8 stands beside 4 with its times, no walk and no call; it has the side's time, and the names file says that
    it is a partner."""
    found = reading.street_of(toml_text.read(T))
    tables = tables_of(found.scenario["cabinets"][0])
    assert [tables.enabled(), tables.sequence(1, 1), tables.sequence(1, 2)] == [[1, 2, 4, 6, 8], (1, 2, 4), (6, 8)]
    assert [tables.phase(8, column) for column in (2, 3, 4, 5, 6, 8, 9, 20, 21, 22)] == [
        0,
        0,
        10,
        0,
        0,
        36,
        15,
        2,
        1,
        2,
    ]
    assert [concurrent(tables, phase) for phase in (4, 8, 2, 6)] == [{8}, {4}, {6}, {1, 2}]
    assert tables.phase(4, 21) == 1 + 32 + 64 + 256 + 1024
    assert [tables.split(1, phase, 3) for phase in (1, 2, 4, 6, 8)] == [15, 45, 30, 60, 30]
    assert [tables.pattern(1, column) for column in (2, 3, 4, 5)] == [90, 20, 1, 1]
    assert [phase for phase in range(1, 17) if tables.split(1, phase, 5) and phase in tables.enabled()] == [2, 6]
    assert found.names.intersections[0].partners == [8]
    assert len(found.notes) == 1 and "phase 8 is added next to phase 4" in found.notes[0]


def test_partners_are_left_out_again_where_the_names_are_there():
    """With its names a T is drawn as a T again; without them nothing is lost either."""
    found = reading.street_of(toml_text.read(T))
    again = writing.sheet_of(found)["intersection"][0]
    assert again["rings"] == ["1 2 | 4", "6   | -"]
    assert "8" not in again["phase"] and "8" not in again["pattern"]["1"]["splits"]
    plain = writing.sheet_of(reading.Street(found.scenario, names.Names()))
    assert plain["intersection"][0]["rings"] == ["1 2 | 4", "6   | 8"]
    assert same(found, reading.street_of(plain))


def test_two_phases_in_one_ring_are_an_intersection():
    """A crossing of two one-way streets: both partners are entered, that of phase 2 is coordinated beside it."""
    text = '[[intersection]]\nrings = ["2 | 4"]\n[intersection.pattern.1]\ncycle = 60\nsplits = {2 = 35, 4 = 25}\n'
    tables = tables_of(reading.street_of(toml_text.read(text)).scenario["cabinets"][0])
    assert tables.enabled() == [2, 4, 6, 8]
    assert [tables.split(1, phase, 3) for phase in (2, 4, 6, 8)] == [35, 25, 35, 25]
    assert [tables.split(1, phase, 5) for phase in (2, 4, 6, 8)] == [1, 0, 1, 0]


def test_split_phasing_has_one_partner_with_the_time_of_both_approaches():
    """Phases 3 and 4 one after the other, and ring 2 empty beside them."""
    text = '[[intersection]]\nrings = ["1 2 | 3 4", "5 6 | -"]\n[intersection.pattern.1]\ncycle = 90\n'
    text += "splits = {1 = 14, 2 = 31, 3 = 19, 4 = 26, 5 = 14, 6 = 31}\n"
    tables = tables_of(reading.street_of(toml_text.read(text)).scenario["cabinets"][0])
    assert tables.sequence(1, 2) == (5, 6, 8) and concurrent(tables, 8) == {3, 4} and concurrent(tables, 3) == {8}
    assert tables.split(1, 8, 3) == 19 + 26


def test_an_exclusive_pedestrian_phase_has_a_side_of_its_own():
    """No vehicles: it is on for walk and clearance alone, and its yellow is the buffer of 3 s."""
    text = (
        '[[intersection]]\nrings = ["2 | 4 | 9", "6 | 8 | -"]\n[intersection.phase]\n9 = {kind = "pedestrian", '
        'ped_clear = 16}\n'
    )
    tables = tables_of(reading.street_of(toml_text.read(text)).scenario["cabinets"][0])
    assert [tables.phase(9, column) for column in (2, 3, 4, 5, 6, 8, 9, 21, 22)] == [7, 16, 0, 0, 0, 30, 0, 1, 1]
    assert tables.sequence(1, 1) == (2, 4, 9) and len(tables.sequence(1, 2)) == 3


def test_lead_and_lag_are_a_sequence_of_their_own():
    """The left turn of phase 5 lags in sequence 2; bars are for the eye."""
    text = '[[intersection]]\n[intersection.sequence]\n2 = ["1 2 | 3 4", "6 5 | 7 8"]\n'
    tables = tables_of(reading.street_of(toml_text.read(text)).scenario["cabinets"][0])
    assert tables.sequence(2, 1) == (1, 2, 3, 4) and tables.sequence(2, 2) == (6, 5, 7, 8)


def test_detectors_are_timed_in_rounds():
    """With rounds of 2 s a delay of 8 s is 4 rounds; 5 s are none, and are refused."""
    head = "[run]\nticks = 20\n[[intersection]]\n[intersection.detector]\n3 = {phase = 4, delay = "
    found = reading.street_of(toml_text.read(head + "8}\n"))
    row = {
        "cabinet": 1,
        "detector": 3,
        "phase": 4,
        "delay": 4,
        "extend": 0,
        "no_activity": 0,
        "max_presence": 0,
        "erratic": 0,
    }
    assert found.field_file()["bank"] == [row]
    with pytest.raises(Unreadable, match="whole rounds"):
        reading.street_of(toml_text.read(head + "5}\n"))


@pytest.mark.parametrize(
    ("line", "words"),
    [
        ("4 = {yellow = 35}", "35 s is not 0 to 25.5: are tenths meant? The sheet has seconds, so write 3.5"),
        ("4 = {min_green = 7.5}", "7.5 s: a cabinet holds whole seconds here"),
        ("4 = {yelow = 3.5}", "yelow: is unknown; did you mean yellow?"),
        ("4 = {walk_time = 7}", "walk_time: is unknown; did you mean walk?"),
        ('4 = {recall = "often"}', "found 'often'"),
        ("17 = {yellow = 3.5}", "'17' is not a phase from 1 to 16"),
        ("4 = {walk = true}", "expected a number, found True"),
    ],
)
def test_what_a_sheet_can_not_say_is_told_with_its_place(line, words):
    """One line for each fault: the intersection, the phase, the name, and what may stand there."""
    with pytest.raises(Unreadable) as caught:
        reading.street_of(toml_text.read(f'[[intersection]]\nname = "Main"\n[intersection.phase]\n{line}\n'))
    assert words in str(caught.value) and "intersection 1 (Main)" in str(caught.value)


def test_every_fault_of_a_sheet_is_told_at_once():
    """Three faults, three lines."""
    text = '[[intersection]]\nrings = ["1 2 | 3", "5 6"]\nclock = "25:00"\n[intersection.pattern.1]\ncycle = 900\n'
    with pytest.raises(Unreadable) as caught:
        reading.street_of(toml_text.read(text))
    assert len(caught.value.faults) == 3


def test_a_text_that_is_no_toml_has_line_and_column():
    """The quote that is missing is in line 2."""
    with pytest.raises(Unreadable, match="line 2, column"):
        toml_text.read('[[intersection]]\nname = "Main\n')


def test_texts_of_every_kind_come_back():
    """Quotes, backslashes and letters of other languages in names."""
    name = 'Ringstraße "süd" \\ 3 = ✓'
    sheet = {"title": name, "intersection": [{"name": name}]}
    back = reading.street_of(toml_text.read(toml_text.text(sheet))).names
    assert back.title == back.intersections[0].name == name
    assert names.read(names.text(back)) == back


def test_max8_and_unknown_options_come_back():
    """The other standard table, every option bit, and every column that is kept without effect."""
    cells = [["phase", 2, 21, 0xFFFF], *(["phase", 2, column, 7] for column in (7, *range(11, 20)))]
    cabinet = {"base": "max8", "cells": cells}
    sheet = writing.intersection_sheet(cabinet, names.Intersection())
    back = reading.street_of({"intersection": [sheet]}).scenario["cabinets"][0]
    assert back["base"] == "max8" and not differing(tables_of(cabinet), tables_of(back))
    assert differing(tables_of(back), Tables("max8")) == [tuple(it[:-1]) for it in sorted(cells, key=lambda it: it[2])]


def test_a_partner_stays_red_while_the_phase_that_it_faces_is_served(program):
    """On the street: a car comes to phase 4 of the T, in free operation and in step with pattern 1; phase 8 is never
    on."""
    for command in (0, 1):
        scenario = reading.street_of(toml_text.read(T)).scenario | {"rounds": 200}
        scenario["cabinets"][0]["pattern"] = command
        scenario["inputs"] = [{"round": 70, "cabinet": 1, "veh": 4, "on": True}]
        ran = subprocess.run([program, "run"], input=json.dumps(scenario).encode(), capture_output=True, check=True)
        frames = [line.split() for line in ran.stdout.decode().splitlines() if line.startswith("F 1 ")]
        assert {it[3][7] for it in frames} == {"R"} and {it[3][3] for it in frames} >= {"R", "G", "Y", "C"}
        assert any(it[5] == ("C1" if command else "F") for it in frames)
