"""Synchro's three layouts, by hand: one street in a single file, in a file for each section, and as the older files
LAYOUT, LANES, PHASING, TIMING and VOLUME. What comes in, what goes back, and what is refused with its place."""

import re
import tomllib

import pytest

from streettools.cosim.queues.volumes import volumes_of
from streettools.plan import reading, toml_text, utdf_in, utdf_out, utdf_text, volumes_text, writing
from streettools.shared.given import Unreadable
from streettools.shared.cells import tables_of

from .conftest import TOP, plan, said

NETWORK = "[Network]\nNetwork Settings\nRECORDNAME,DATA\nUTDFVERSION,8\nMetric,0\n"
NODES = """[Nodes]
Node Data
INTID,TYPE,X,Y,Z,DESCRIPTION
1,0,0,0,0,Elm St & 1st Ave
2,2,700,0,0,
3,0,1200,0,0,Elm St & 3rd Ave
"""
LINKS = """[Links]
Link Data
RECORDNAME,INTID,NB,SB,EB,WB,NE,NW,SE,SW
Up ID,1,101,102,103,2,,,,
Name,1,1st Ave,1st Ave,Elm St,Elm St,,,,
Distance,1,400,400,800,700,,,,
Speed,1,30,30,40,40,,,,
Time,1,9.1,9.1,13.6,11.9,,,,
Up ID,2,,,1,3,,,,
Distance,2,,,700,500,,,,
Speed,2,,,40,40,,,,
Time,2,,,11.9,8.5,,,,
Up ID,3,301,,2,302,,,,
Name,3,3rd Ave,,Elm St,Elm St,,,,
Distance,3,400,,500,900,,,,
Speed,3,30,,40,40,,,,
Time,3,9.1,,8.5,15.3,,,,
"""
LANES = """[Lanes]
Lane Group Data
RECORDNAME,INTID,NBL,NBT,NBR,SBL,SBT,SBR,EBL,EBT,EBR,WBL,WBT,WBR
Lanes,1,1,1,0,1,1,0,1,2,0,1,2,0
Shared,1,0,2,0,0,2,0,0,2,0,0,2,0
Volume,1,60,200,40,50,180,20,80,700,100,90,600,30
Phase1,1,,8,,,4,,5,2,,1,6,
PermPhase1,1,8,,,4,,,2,,,6,,
DetectPhase1,1,8,8,,4,4,,5,2,,1,6,
Lanes,3,1,0,1,,,,,2,1,1,2,
Volume,3,120,,80,,,,,650,90,70,620,
Phase1,3,4,,,,,,,2,,1,6,
PermPhase1,3,,,4,,,,,,2,6,,
"""
TIMEPLANS = """[Timeplans]
Timing Plan Settings
RECORDNAME,INTID,DATA
Control Type,1,3
Cycle Length,1,90.0
Referenced To,1,0
Reference Phase,1,206
Offset,1,0.0
Control Type,3,3
Cycle Length,3,90.0
Referenced To,3,1
Reference Phase,3,206
Offset,3,49.5
"""
PHASES = """[Phases]
Phasing Data
RECORDNAME,INTID,D1,D2,D3,D4,D5,D6,D7,D8
BRP,1,111,112,211,212,121,122,221,222
MinGreen,1,5,10,,8,5,10,,8
MaxGreen,1,10.5,39.5,,25.5,10.5,39.5,,25.5
VehExt,1,2,3,,2.5,2,3,,2.5
Yellow,1,3.5,4,,3.5,3.5,4,,3.5
AllRed,1,1,1.5,,1,1,1.5,,1
Recall,1,0,1,,0,0,1,,0
Walk,1,,7,,7,,7,,7
DontWalk,1,,11,,14,,11,,14
PedCalls,1,,5,,20,,,,12
DualEntry,1,0,1,,1,0,1,,1
BRP,3,111,112,211,212,121,122,221,222
MinGreen,3,5,10,,8,,10,,
MaxGreen,3,10.5,39.5,,25.5,,54.5,,
VehExt,3,2,3,,2.5,,3,,
Yellow,3,3.5,4,,3.5,,4,,
AllRed,3,1,1.5,,1,,1.5,,
Recall,3,0,1,,0,,1,,
DualEntry,3,0,1,,1,,1,,
"""
ONE = "".join((NETWORK, NODES, LINKS, LANES, TIMEPLANS, PHASES))

LAYOUT = """Layout Data
INTID,INTNAME,TYPE,X,Y,N_ID,S_ID,E_ID,W_ID,N_NAME,S_NAME,E_NAME,W_NAME
1,Elm St & 1st Ave,0,0,0,102,101,3,103,1st Ave,1st Ave,Elm St,Elm St
3,Elm St & 3rd Ave,0,1200,0,,301,302,1,,3rd Ave,Elm St,Elm St
"""
OLD_LANES = (
    LANES.replace("[Lanes]\n", "").replace("Volume,1,60,200,40,50,180,20,80,700,100,90,600,30\n", "")
    .replace("Volume,3,120,,80,,,,,650,90,70,620,\n", "")
    + """Speed,1,,30,,,30,,,40,,,40,
Distance,1,,400,,,400,,,800,,,1200,
TravelTime,1,,9.1,,,9.1,,,13.6,,,20.4,
Speed,3,30,,,,,,,40,,,40,
Distance,3,400,,,,,,,1200,,,900,
TravelTime,3,9.1,,,,,,,20.4,,,15.3,
"""
)  # fmt: skip
TIMING = """Timing Plans
PLANID,INTID,S1,S2,S3,S4,S5,S6,S7,S8,CL,OFF,LD,REF,CLR
PM,1,15,45,,30,15,45,,30,90,0,,206,
PM,3,15,45,,30,,60,,,90,10,,206,
"""
COUNTS = "DATE,TIME,INTID,NBL,NBT,NBR,SBL,SBT,SBR,EBL,EBT,EBR,WBL,WBT,WBR\n"
FIRST, THIRD = "15,50,10,12.5,45,5,20,175,25,22.5,150,7.5", "30,,20,,,,,162.5,22.5,17.5,155,"
VOLUME = "Turning Movement Count\n15 Minute Counts\n" + COUNTS + "6/2/26,1645,1,1,1,1,1,1,1,1,1,1,1,1,1\n"
VOLUME += "".join(f"6/2/26,{time},1,{FIRST}\n6/2/26,{time},3,{THIRD}\n" for time in (1700, 1715, 1730, 1745))

LAYOUTS = {
    "one file": [("one.csv", ONE)],
    "a file for each section": [
        ("Network.csv", NETWORK), ("Nodes.csv", NODES), ("Links.csv", LINKS), ("Lanes.csv", LANES),
        ("Timeplans.csv", TIMEPLANS), ("Phases.csv", PHASES),
    ],
    "older files": [
        ("LAYOUT.CSV", LAYOUT), ("LANES.CSV", OLD_LANES), ("PHASING.CSV", PHASES.replace("[Phases]\n", "")),
        ("TIMING.CSV", TIMING), ("VOLUME.CSV", VOLUME),
    ],
}  # fmt: skip


def imported(texts):
    """Returns what some files come to."""
    return utdf_in.imported(utdf_text.read_all(texts))


@pytest.fixture(params=LAYOUTS, ids=[it.replace(" ", "-") for it in LAYOUTS])
def elm(request):
    """The street in each layout."""
    return imported(LAYOUTS[request.param])


def test_each_layout_comes_to_the_same_street(elm):
    """Rings, splits, offsets, names, speeds, travel: worked out by hand. Yellow of phases 2 and 6 of node 3 begins 60
    less 4 and 1.5, so 54.5 s after its local cycle begins with phase 6, and phase 2 is green from 15 on:
    49.5 - (54.5 - 15) = 10. The way of 700 and 500 feet takes 11.9 + 8.5 s."""
    street = reading.street_of(elm.sheet)
    one, three = (tables_of(it) for it in street.scenario["cabinets"])
    assert {it: one.split(1, it, 3) for it in one.enabled()} == {1: 15, 2: 45, 4: 30, 5: 15, 6: 45, 8: 30}
    assert {it: three.split(1, it, 3) for it in three.enabled()} == {1: 15, 2: 45, 4: 30, 6: 60, 8: 30}
    assert [(it.pattern(1, 2), it.pattern(1, 3)) for it in (one, three)] == [(90, 0), (90, 10)]
    assert [one.phase(4, column) for column in (2, 3, 4, 5, 8, 9)] == [7, 14, 8, 25, 35, 10]
    first, second = street.names.intersections
    assert (first.name, first.travel, first.distance) == ("Elm St & 1st Ave", 20.4, 1200)
    assert (second.name, second.travel, second.partners) == ("Elm St & 3rd Ave", None, [8])
    assert first.phases[5].name == "Elm St eastbound left" and first.phases[4].name == "1st Ave southbound"
    assert (first.phases[2].speed, first.phases[8].speed, second.phases[6].speed) == (40, 30, 40)


def test_each_layout_has_the_same_volumes(elm):
    """A lane group without lanes drives in those that it shares: 700 straight on and 100 to the right in two lanes, of
    which 700 / 800 drive on. Of 200 straight on and 40 to the right 40 / 240 do. Counts of a quarter hour are those of
    the hour from 17:00, four of each."""
    flows = {(it.cabinet, it.name): it for it in volumes_of(elm.volumes).flows}
    rows = {
        (1, "NBL"): (8, 60, 1, None, (8,)), (1, "NBT"): (8, 240, 1, (2, "EB", 20.4, 0.1667), ()),
        (1, "SBL"): (4, 50, 1, (2, "EB", 20.4, 1), (4,)), (1, "SBT"): (4, 200, 1, None, ()),
        (1, "EBL"): (5, 80, 1, None, (2,)), (1, "EBT"): (2, 800, 2, (2, "EB", 20.4, 0.875), ()),
        (1, "WBL"): (1, 90, 1, None, (6,)), (1, "WBT"): (6, 630, 2, None, ()),
        (2, "NBL"): (4, 120, 1, (1, "WB", 20.4, 1), ()), (2, "NBR"): (4, 80, 1, None, (4,)),
        (2, "EBT"): (2, 650, 2, None, ()), (2, "EBR"): (2, 90, 1, None, (2,)),
        (2, "WBL"): (1, 70, 1, None, (6,)), (2, "WBT"): (6, 620, 2, (1, "WB", 20.4, 1), ()),
    }  # fmt: skip

    def on(it):
        return it.onward and (it.onward.cabinet, it.onward.approach, it.onward.travel, it.onward.share)

    found = {key: (it.phase, it.volume, it.lanes, on(it), it.permitted) for key, it in flows.items()}
    assert found == rows
    assert [(it.cabinet, it.phase, it.persons) for it in volumes_of(elm.volumes).crossings] == [
        (1, 2, 5), (1, 4, 20), (1, 8, 12),
    ]  # fmt: skip
    assert volumes_of(elm.volumes).idle == {(2, 8)}


def test_each_layout_comes_back_as_the_same_sheet_and_the_same_volumes(elm):
    street = reading.street_of(elm.sheet)
    sheet, volumes = toml_text.text(writing.sheet_of(street)), volumes_text.text(elm.volumes)
    text, notes = utdf_out.written(street, 1, volumes_of(tomllib.loads(volumes)))
    again = imported([("back.csv", text)])
    assert notes == []
    assert toml_text.text(writing.sheet_of(reading.street_of(again.sheet))) == sheet
    assert volumes_text.text(again.volumes) == volumes


def test_a_sheet_without_volumes_keeps_its_links_and_names(elm):
    """Times, lengths, names and speeds go out and come in without a file of volumes, by the names of phases."""
    street = reading.street_of(elm.sheet)
    again = imported([("back.csv", utdf_out.written(street, 1)[0])])
    assert again.volumes == {}
    rows = [reading.street_of(it.sheet).names.intersections for it in (elm, again)]
    assert rows[0] == rows[1]


def test_the_command_writes_a_sheet_and_volumes_that_are_run(program, tmp_path):
    """Several files in, a sheet and volumes out, both taken as they are; and back."""
    files = []
    for name, text in LAYOUTS["older files"]:
        (tmp_path / name).write_text(text.replace("\n", "\r\n"))
        files.append(tmp_path / name)
    sheet, volumes = tmp_path / "elm.toml", tmp_path / "elm.volumes.toml"
    ran = plan("from", "utdf", *files, "--volumes", volumes, "-o", sheet)
    assert ran.returncode == 0, ran.stderr
    assert b"counts of the hour from 17:00 are taken: it has the most vehicles" in ran.stderr
    assert said(program, plan("scenario", sheet).stdout) == ""
    back = plan("to", "utdf", sheet, "--volumes", volumes)
    assert back.returncode == 0 and b"\r\nVolume,1,60,200,40,50,200,,80,700,100,90,630,\r\n" in back.stdout


BAD = [
    ("DontWalk,1,,11,", "DontWalk,1,,2x2,", "4 (D2): '2x2' is not a number"),
    ("Yellow,3,3.5,", 'Yellow,3,"4,9",', "3 (D1): '4,9' is not a number: a decimal point, not a comma"),
    ("Yellow,1,3.5,4,,3.5,3.5,4,,3.5", "Yellow,1,3,5,4,,3,5,3.5,4,,3.5",
     "12 (no header): '3.5' is after the last column of the header: a comma too many?"),
    ("Cycle Length,3,90.0", "Cycle Length,3,9O", "3 (DATA): '9O' is not a number"),
    ("Referenced To,3,1", "Referenced To,3,7", "3 (DATA): reference point 7 is not known"),
    ("Control Type,1,3", "Control Type,1,9", "3 (DATA): control type 9 is not known"),
    ("Recall,1,0,1", "Recall,1,0,5", "4 (D2): recall 5 is not known"),
    ("Volume,1,60", "Volume,1,many", "3 (NBL): 'many' is not a number"),
    ("Lanes,1,1,1", "Lanes,1,1,1.5", "4 (NBT): '1.5' is not a whole number"),
    ("Speed,3,30", "Speed,3,nan", "3 (NB): 'nan' is not a number"),
    ("Time,3,9.1,,8.5", "Time,3,9.1,,1e999", "5 (EB): '1e999' is not a number"),
]  # fmt: skip


@pytest.mark.parametrize(("good", "bad", "words"), BAD, ids=[it[1] for it in BAD])
def test_a_value_that_can_not_be_read_is_an_error_with_its_place(good, bad, words):
    """Never a standard value in its place."""
    assert ONE.count(good) == 1
    line = ONE[: ONE.index(good)].count("\n") + 1
    with pytest.raises(Unreadable, match=re.escape(f"syn.csv, line {line}, column {words}")):
        imported([("syn.csv", ONE.replace(good, bad))])


def test_a_record_that_is_repeated_with_other_values_is_an_error():
    row = "Recall,3,0,1,,0,,1,,\n"
    line = ONE[: ONE.index(row)].count("\n") + 1
    words = f"line {line + 1}, column 1 (RECORDNAME): Recall of node 3 is repeated with other values, after line {line}"
    with pytest.raises(Unreadable, match=re.escape(words)):
        imported([("syn.csv", ONE.replace(row, row + "Recall,3,1,1,,0,,1,,\n"))])
    assert imported([("syn.csv", ONE.replace(row, row + row))]).sheet == imported([("syn.csv", ONE)]).sheet


def test_all_values_that_can_not_be_read_are_told_at_once():
    """In files of their own, each with its name."""
    texts = [(name, text.replace("DontWalk,1,,11", "DontWalk,1,,2x2").replace("Speed,3,30", "Speed,3,?"))
             for name, text in LAYOUTS["a file for each section"]]  # fmt: skip
    with pytest.raises(Unreadable) as caught:
        imported(texts)
    assert [it.where for it in caught.value.faults] == [
        "Phases.csv, line 12, column 4 (D2)", "Links.csv, line 16, column 3 (NB)",
    ]  # fmt: skip


def test_each_field_that_is_not_taken_is_named_once():
    """A right turn's second phase, minimum splits, what Synchro computes, widths, a node's place, the group's node."""
    more = "Phase2,1,,,,,,,,,3,,,\nWidth,1,12,12,,,,,,,,,,\nWidth,3,12,,,,,,,,,,,\n"
    text = ONE.replace("DetectPhase1,1", f"{more}DetectPhase1,1")
    text = text.replace("BRP,3", "MinSplit,1,12,20,,20,12,20,,20\nStart,1,0,15,,60,0,15,,60\nBRP,3")
    text = text.replace("Control Type,3", "Lock Timings,1,1\nNode 0,1,1\nNode 1,1,3\nControl Type,3")
    notes = imported([("syn.csv", text)]).notes
    assert {it for it in notes if "not taken" in it} == {
        "node 1: not taken from [Lanes]: Phase2",
        "all nodes: not taken from [Lanes]: Width",
        "node 1: not taken from [Phases]: MinSplit",
        "node 1: not taken from [Phases]: Start (Synchro computes them of the others)",
        "node 1: not taken from [Timeplans]: Lock Timings, Node 1",
        "not taken from [Nodes]: X, Y, Z",
        "not taken from [Links]: Distance and Time of approaches from outside: node 1 (NB, SB, EB), node 3 (NB, WB)",
    }


def test_an_intersection_without_signals_is_named():
    text = ONE.replace("Lanes,3,1,0", "Lanes,2,,,,,,,,1,,,1,\nLanes,3,1,0")
    assert "no phases, so no intersection of the sheet: node 2" in imported([("syn.csv", text)]).notes


def test_a_semi_actuated_intersection_keeps_its_timing_plan_and_runs_free():
    """Control type 2: cycle, offset and splits are pattern 1, which isn't in command; and so it goes back. Where its
    splits don't make a pattern they are named. Control type 1 is named, too."""
    found = imported([("syn.csv", ONE.replace("Control Type,3,3", "Control Type,3,2"))])
    cabinet = reading.street_of(found.sheet).scenario["cabinets"][1]
    assert cabinet.get("pattern", 0) == 0 and tables_of(cabinet).pattern(1, 2) == 90
    note = "node 3: it is semi-actuated and not coordinated (control type 2)"
    assert f"{note}: it runs free; its timing plan is pattern 1" in found.notes
    text, notes = utdf_out.written(reading.street_of(found.sheet), 1)
    assert "Control Type,2,2\r\n" in text and "Control Type,1,3\r\n" in text
    assert notes == ["intersection 2 is commanded no pattern, so it is semi-actuated (control type 2)"]
    assert imported([("back.csv", text)]).sheet["intersection"][1]["pattern"]["1"]["offset"] == 10
    bad = ONE.replace("Control Type,3,3", "Control Type,3,2").replace("MaxGreen,3,10.5", "MaxGreen,3,20.5")
    plain = "no pattern is made of its timing plan (Cycle Length 90.0, Reference Phase 206, Offset 49.5, "
    plain += "and the splits)"
    assert f"{note}, and its splits keep no pattern's rules: {plain}" in imported([("syn.csv", bad)]).notes
    free = imported([("syn.csv", ONE.replace("Control Type,3,3", "Control Type,3,1"))])
    assert f"node 3: it is actuated and not coordinated (control type 1): {plain}" in free.notes


@pytest.mark.parametrize(
    ("point", "offset"),
    [
        ("0", 50), ("begin of walk", 50),  # phase 2, the later one, turns green at 15: 50 - 15 + 15
        ("1", 11), ("Begin of Yellow", 11),  # both turn yellow at 60 - 4 - 1.5 = 54.5: 50.5 - 54.5 + 15
        ("2", 7),  # both turn red at 60 - 1.5 = 58.5: 50.5 - 58.5 + 15
        ("3", 65),  # the first green is phase 6, at 0: 50 - 0 + 15
        ("4", 11),  # no pedestrians: the yield is where yellow begins
    ],
)  # fmt: skip
def test_an_offset_is_taken_by_the_point_that_it_refers_to(point, offset):
    given = "50.5" if point in ("1", "2", "4", "Begin of Yellow") else "50"
    text = ONE.replace("Referenced To,3,1", f"Referenced To,3,{point}").replace("Offset,3,49.5", f"Offset,3,{given}")
    cabinet = reading.street_of(imported([("syn.csv", text)]).sheet).scenario["cabinets"][1]
    assert tables_of(cabinet).pattern(1, 3) == offset


def test_volumes_that_were_not_asked_for_are_named(tmp_path):
    (tmp_path / "one.csv").write_text(ONE)
    ran = plan("from", "utdf", tmp_path / "one.csv")
    assert ran.returncode == 0 and b"its volumes are left out: --volumes FILE writes them" in ran.stderr
    (tmp_path / "none.csv").write_text(re.sub("Volume,.*\n", "", ONE))
    ran = plan("from", "utdf", tmp_path / "none.csv", "--volumes", tmp_path / "x.toml")
    assert ran.returncode == 2 and b"no record Volume in it" in ran.stderr and not (tmp_path / "x.toml").exists()


def test_traffic_without_a_phase_that_serves_it_is_named():
    """A phase without times, none at all, a button without walk, a volume without lanes."""
    text = ONE.replace("Phase1,1,,8,,,4,,5,2,,1,6,", "Phase1,1,,7,,,4,,5,,,1,6,").replace("Walk,1,,7", "Walk,1,,")
    text = text.replace("DontWalk,1,,11", "DontWalk,1,,").replace("Lanes,3,1,0,1", "Lanes,3,,,")
    notes = imported([("syn.csv", text)]).notes
    for words in (
        "node 1: NBT has phase 7, which has no times, and is left out of the volumes",
        "node 1: EBT has no phase, and is left out of the volumes",
        "node 1: PedCalls of phase 2 is left out: the phase has no Walk",
        "node 3: NBL has a volume and no lanes, and is left out of the volumes",
    ):
        assert words in notes


def test_a_way_without_time_is_reckoned_from_length_and_speed():
    """At 40 miles an hour, 58.67 feet a second: 700 feet in 11.9 s and 500 feet in 8.5 s, in tenths."""
    text = re.sub("Time,.*\n", "", ONE)
    assert imported([("syn.csv", text)]).sheet["intersection"][0]["travel"] == 20.4


def test_the_example_of_the_documents_is_the_street_in_one_file():
    assert (TOP / "scenarios/sheets/elm-street.utdf.csv").read_text() == ONE
