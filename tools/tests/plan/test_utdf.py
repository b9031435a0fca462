"""Synchro: a UTDF file with eight intersections, worked out by hand; files of version 6; what is named, and what goes
back."""

import re

import pytest

from streettools.plan import reading, utdf_in, utdf_out, utdf_text
from streettools.shared.cells import differing, tables_of
from streettools.shared.given import Unreadable
from streettools.plan.layout import concurrent

from .conftest import TOP

EIGHT = TOP / "scenarios/sheets/main-street.utdf.csv"
CYCLES = [100, 100, 100, 100, 100, 100, 0, 100]
OFFSETS = [
    0, 20, 40,
    76,  # yellow is to begin at 30; it begins 54 s behind the green (60 less 4 and 2): 30 - 54 + 100
    30,  # the first green, of phase 6, is to begin at 10; phase 2 follows its left turn of 20 s: 10 + 20
    60, 0, 80,
]  # fmt: skip
SPLITS = [
    {1: 15, 2: 37, 3: 15, 4: 33, 5: 15, 6: 37, 7: 15, 8: 33},
    {1: 16, 2: 50, 4: 34, 6: 66, 8: 34},
    {1: 15, 2: 40, 3: 22, 4: 23, 5: 15, 6: 40, 8: 45},
    {2: 60, 4: 40, 6: 60, 8: 40},
    {1: 20, 2: 45, 3: 13, 4: 22, 5: 15, 6: 50, 7: 13, 8: 22},
    {2: 60, 4: 40, 6: 60, 8: 40},
    None,
    {2: 46, 4: 25, 6: 46, 8: 25, 9: 29, 13: 29},
]
"""Greatest green, yellow and all red of each phase together; the partners' are those of the phases that they face."""

NAMES = [
    "Main St & 1st Ave",
    "Main St & Mill Rd",
    "Main St & Oak St",
    *(f"Main St & {it}th Ave" for it in range(4, 8)),
    "Main St & Station Sq",
]


@pytest.fixture(scope="module")
def eight() -> tuple[reading.Street, list[str]]:
    """The street of the UTDF file with eight intersections, and what was noted."""
    sheet, notes = utdf_in.sheet_of(utdf_text.read(EIGHT.read_text()))
    return reading.street_of(sheet), notes


def test_eight_intersections_of_synchro_come_in(eight):
    """Names, cycles, splits and offsets as they were worked out by hand; offsets by four different points."""
    street, _ = eight
    tables = [tables_of(it) for it in street.scenario["cabinets"]]
    assert [it.name for it in street.names.intersections] == NAMES
    assert [it.pattern(1, 2) for it in tables] == CYCLES
    assert [it.pattern(1, 3) for it in tables] == OFFSETS
    for it, due in zip(tables, SPLITS, strict=True):
        assert due is None or {phase: it.split(1, phase, 3) for phase in it.enabled()} == due
    assert [it.get("pattern", 0) for it in street.scenario["cabinets"]] == [1, 1, 1, 1, 1, 1, 0, 1]


def test_rings_times_and_recalls_of_synchro_come_in(eight):
    """A T, split phasing, a lagging left turn, an exclusive pedestrian phase; row by row of some phases."""
    street, _ = eight
    tables = [tables_of(it) for it in street.scenario["cabinets"]]
    assert [tables[1].sequence(1, ring) for ring in (1, 2)] == [(1, 2, 4), (6, 8)]
    assert [tables[2].sequence(1, ring) for ring in (1, 2)] == [(1, 2, 3, 4), (5, 6, 8)] and concurrent(
        tables[2], 8
    ) == {3, 4}
    assert tables[4].sequence(1, 2) == (6, 5, 7, 8)
    assert tables[7].sequence(1, 1) == (2, 4, 9)
    # minimum green, passage, greatest green (30.7 rounded up), yellow, all red, walk, don't walk; minimum recall, dual
    # entry
    assert [tables[0].phase(2, column) for column in (4, 5, 6, 8, 9, 2, 3)] == [10, 30, 31, 43, 20, 7, 11]
    assert tables[0].phase(2, 21) == 1 + 64 + 1024 and tables[0].phase(3, 21) == 1
    assert tables[3].phase(2, 21) == 1 + 128 + 1024  # maximum recall
    assert tables[6].phase(4, 21) == 1 + 256 + 1024  # pedestrian recall
    assert tables[7].phase(4, 4) == 8  # 7.5 s, rounded up
    assert [[phase for phase in it.enabled() if it.split(1, phase, 5)] for it in tables if it.pattern(1, 2)] == [
        [2, 6]
    ] * 7


def test_names_and_speeds_of_synchro_come_in(eight):
    """Phases are called by the street and the way of the lanes that they serve."""
    known = eight[0].names.intersections[0]
    assert [known.phases[it].name for it in (1, 2, 4, 5)] == [
        "Main St westbound left", "Main St eastbound", "1st Ave southbound", "Main St eastbound left",
    ]  # fmt: skip
    assert (known.phases[2].speed, known.phases[4].speed, known.phases[1].speed) == (45, 30, None)


def test_detectors_of_synchro_come_in(eight):
    """One for each lane group of the first node, in the order of the lanes: left turns and through lanes by
    approach."""
    street, _ = eight
    assert [it["phase"] for it in street.bank] == [3, 8, 7, 4, 5, 2, 1, 6]
    assert [it["delay"] for it in street.bank] == [0, 5, 0, 0, 0, 0, 0, 0]
    assert [it["extend"] for it in street.bank] == [0, 0, 0, 0, 0, 2, 0, 2]
    assert street.names.intersections[0].detectors[2] == "NBT"


def test_what_is_not_taken_from_synchro_is_named(eight):
    """Records without a place, and times that aren't whole."""
    notes = "\n".join(eight[1])
    for words in (
        "node 6: not taken from [Phases]: InhibitMax", "not taken from [Links]: Distance",
        "not taken from [Lanes]: Lanes",
        "node 8: MinGreen is rounded up for phase 4 (7.5 to 8), phase 8 (7.5 to 8)", "Lock Timings, Master, Yield",
    ):  # fmt: skip
        assert words in notes


def test_the_pages_of_phases_and_timeplans_go_back_to_synchro(eight):
    """What is written is read again as the same tables; partners are left out."""
    street, _ = eight
    text = utdf_out.text(street, 1)
    assert not re.search(r"^MinGreen,2,[^,]*,[^,]*,[^,]*,[^,]*,[^,]*,[^,]*,[^,]*,\d", text, re.MULTILINE)
    again = reading.street_of(utdf_in.sheet_of(utdf_text.read(text))[0])
    for old, new in zip(street.scenario["cabinets"], again.scenario["cabinets"], strict=True):
        changed = {cell[:1] + cell[2:] for cell in differing(tables_of(old), tables_of(new))}
        assert not changed


def test_files_of_version_6_come_in():
    """Phases in one page, and plans by the time of day in another: each plan is a pattern."""
    text = "Phasing Data\nRECORDNAME,INTID,D1,D2,D3,D4,D5,D6,D7,D8\nBRP,7,111,112,211,212,121,122,221,222\n"
    text += "MinGreen,7,,10,,8,,10,,8\nMaxGreen,7,,40,,25,,40,,25\nYellow,7,,4,,3.5,,4,,3.5\nAllRed,7,,1,,1,,1,,1\n"
    text += (
        "Timing Plans\nPLANID,INTID,S1,S2,S3,S4,S5,S6,S7,S8,CL,OFF,LD,REF,CLR\nAM,7,,45,,35,,45,,35,80,12,,,\n"
        "PM,7,,60,,40,,60,,40,100,0,,,\n"
    )
    sheet, notes = utdf_in.sheet_of(utdf_text.read(text))
    tables = tables_of(reading.street_of(sheet).scenario["cabinets"][0])
    assert [[tables.pattern(number, column) for column in (2, 3)] for number in (1, 2)] == [[80, 12], [100, 0]]
    assert [tables.split(2, phase, 3) for phase in (2, 4, 6, 8)] == [60, 40, 60, 40]
    assert "node 7: plan PM is pattern 2" in notes


def test_a_text_that_is_no_utdf_is_refused():
    """A sheet of something else."""
    with pytest.raises(Unreadable, match="no phases in it"):
        utdf_text.read("a,b\n1,2\n")
