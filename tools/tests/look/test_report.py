"""The report against numbers worked out by hand, and against a plain count of lines."""

import json
import sys
from collections import Counter

import pytest
from streettools.look import requests
from streettools.shared.answers import Requested, refused
from streettools.shared.cabinet import Cabinet, Cycle
from streettools.shared.trace_records import Frame

from .conftest import SMALL, STREET, TOP, VECTORS, run


def reported(look, path=None, given=None):
    """Returns the report of a trace as a value."""
    return json.loads(look("report", "--json", *([path] if path else []), given=given))


def test_a_car_on_the_side_street(look):
    (cabinet,) = reported(look, given=SMALL)["cabinets"]
    main = {
        "services": 2,
        "green": {"least": 10.0, "mean": 10.0, "greatest": 10.0},
        "ended": {"gap": 1},
        "still_green": 1,
        "walks": 0,
    }
    side = {**main, "services": 1, "still_green": 0}
    assert cabinet["phases"] == [{"phase": 2, **main}, {"phase": 4, **side}, {"phase": 6, **main}, {"phase": 8, **side}]
    assert cabinet["modes"] == {"free": 36.0, "start-up": 6.0} and cabinet["patterns"] == []


def test_the_command_reads_standard_input_or_a_file(look, tmp_path):
    answer = run("report", "-o", tmp_path / "report.txt", given=SMALL)
    assert (answer.returncode, answer.stdout, answer.stderr) == (0, "", "")
    assert (tmp_path / "report.txt").read_text() == look("report", given=SMALL)


def test_a_street_comes_onto_its_offsets(look):
    cabinets = reported(look, STREET)["cabinets"]
    found = [
        (it["patterns"][0]["cycles_to_the_offset"]["least"], it["patterns"][0]["on_the_offset"]) for it in cabinets
    ]
    assert found == [(0, 11), (2, 9), (4, 7), (6, 4)]
    assert [it["patterns"][0]["local_zeros"] for it in cabinets] == [11, 11, 11, 10]
    first = {it["phase"]: it for it in cabinets[0]["phases"]}
    assert first[2]["green"] == {"least": 24.5, "mean": 24.5, "greatest": 24.5} and first[2]["ended"] == {"yield": 11}
    assert first[3]["green"]["mean"] == 10.5 and first[3]["ended"] == {"force-off": 11}
    phases = {it["phase"]: it for it in cabinets[3]["phases"]}
    assert phases[2]["green"] == {"least": 24.5, "mean": 30.5, "greatest": 34.5}


def test_what_a_master_notes_and_a_cabinet_answers(look):
    first, second = reported(look, VECTORS[2])["cabinets"]
    assert first["notes"] == [{"note": "load 1 done", "times": 1, "first": 36, "last": 36}]
    assert [it["note"] for it in second["notes"]] == ["load 1 refused 3 1", "load 2 refused 3 1"]
    (load,) = first["downloads"]
    assert (load["download"], load["version"], second["downloads"]) == (1, 1, [])


def test_downloads_are_named_with_their_ends(look):
    (cabinet,) = reported(look, VECTORS[3])["cabinets"]
    assert cabinet["downloads"] == [{"download": 1, "seconds": 14.3, "version": 1}]
    refused = VECTORS[3].read_text().replace("L 1 1 accepted 1", "L 1 1 refused 10 2")
    (cabinet,) = reported(look, given=refused)["cabinets"]
    assert cabinet["downloads"] == [{"download": 1, "seconds": 14.3, "rule": 10, "row": 2}]
    assert "refused by rule 10 in row 2" in look("report", given=refused)
    assert "in force as version 1" in look("report", VECTORS[3])
    assert [it["note"] for it in cabinet["notes"]] == ["load 1 done", "pattern 1"]


@pytest.mark.parametrize("path", VECTORS)
def test_counts_are_those_of_the_lines(look, path):
    frames, replies = {}, Counter()
    for line in path.read_text().splitlines():
        kind, *words = line.split(" ", 8)
        if kind == "F":
            frames.setdefault(int(words[0]), []).append(words)
        if kind == "A":
            replies[int(words[0])] += 1
    for cabinet in reported(look, path)["cabinets"]:
        shown = frames[cabinet["cabinet"]]
        pairs = list(zip(shown, shown[1:]))
        for place in range(16):
            begun = sum(one[2][place] != "G" == other[2][place] for one, other in pairs)
            walks = sum(one[3][place] != "W" == other[3][place] for one, other in pairs)
            row = next(
                (it for it in cabinet["phases"] if it["phase"] == place + 1),
                {"services": 0, "walks": 0, "still_green": 0},
            )
            assert (row["services"], row["walks"], row["still_green"]) == (begun, walks, shown[-1][2][place] == "G")
            assert sum(row.get("ended", {}).values()) + row["still_green"] == begun
        assert sum(sum(way.values()) for way in cabinet["replies"].values()) == replies[cabinet["cabinet"]]


@pytest.mark.parametrize("path", [*VECTORS, STREET])
def test_the_table_names_each_cabinet(look, path):
    text = look("report", path)
    scenario = json.loads(path.read_text().split("\n", 1)[0][2:])
    assert text.count("Cabinet ") == len(scenario["cabinets"]) and "mean green (s)" in text


REPLY = "302c02010004067075626c6963a21f02010%d02010%d02010%d30143012060d2b060104018936040201040e0002010%d"
"""A Response of RFC 1157 to the request of a number, with status, index, and systemPatternControl.0 with a value."""


def asked(*replies):
    """Returns a trace of one round in which a cabinet gave these replies on the stream of polls."""
    first = 'S {"cabinets":[{}],"rounds":1,"ticks":10,"version":1}'
    opening = "F 1 0 RRRRRRRRRRRRRRRR DDDDDDDDDDDDDDDD S 0 0 0"
    lines = [first, opening, "R 1", f"J 1 4*3 1*{len(replies)} 4*7", *(f"A 1 1 {it}" for it in replies), "Z 1"]
    return "".join(f"{line}\n" for line in lines)


def test_sets_that_were_refused_are_counted_and_named(look):
    """Pattern 5, which isn't defined, is refused twice (badValue is 3); pattern 1 is taken; a refused Get is no Set."""
    get = (REPLY % (4, 2, 1, 0)).replace("301430", "301330", 1).replace("302c", "302b").replace("a21f", "a21e")
    get = get.replace("3012060d", "3011060d").removesuffix("020100") + "0500"
    text = asked(REPLY % (1, 3, 1, 5), REPLY % (2, 0, 0, 1), REPLY % (3, 3, 1, 5), get)
    (cabinet,) = reported(look, given=text)["cabinets"]
    due = {"object": "systemPatternControl.0", "value": 5, "error": "badValue", "times": 2, "first": 0.3, "last": 0.3}
    assert cabinet["refused_sets"] == [due]
    assert "systemPatternControl.0 = 5 badValue     2" in look("report", given=text)


def test_a_part_of_a_download_that_was_refused_names_the_download():
    """RFC 1157's genErr (5) at index 2: downloadId.0 is 2, downloadTotal.0 is 1; and a name that isn't one of ours."""
    own = "2b0601040181fd590101"
    bindings = f"3011060c{own}030002010{2}3011060c{own}0500020101"
    digits = f"303e02010004067075626c6963a231020103020105020102{'3026'}{bindings}"
    assert refused(digits) == ("genErr", "downloadTotal.0", 1, 2)
    other = "2b06010401893604020101"
    cells = digits.replace(f"3011060c{own}0500", f"3010060b{other}")
    cells = cells.replace("3026", "3025").replace("a231", "a230").replace("303e", "303d")
    assert refused(cells) == ("genErr", "1.3.6.1.4.1.1206.4.2.1.1", 1, 2)
    assert refused(digits.replace("020105020102", "020100020100")) is None


def test_the_bound_stands_beside_the_cycles_to_the_offset(look):
    """By dwell of at most 100 ticks a cycle the offsets are 0, 200, 400 and 600 ticks away: 0, 2, 4 and 6 cycles."""
    rows = [it["patterns"][0] for it in reported(look, STREET)["cabinets"]]
    assert [it["cycles_to_the_offset"]["bound"] for it in rows] == [0, 2, 4, 6]
    assert [it["beyond_the_bound"] for it in rows] == [0, 0, 0, 0]


def test_the_bound_is_that_of_the_correction_mode_and_twice_that_with_drift():
    """A cycle of 900 ticks and the target 200 at local zero: 700 on with the clock, or 200 back. The limits are 100 for
    dwell, 50 for add, 30 for skip."""
    begins = Cycle(0, 1, True, 200, None, None)
    for mode, due in ((2, 7), (3, 7), (4, 14)):
        cells = [["unit", 1, mode]]
        assert Cabinet({"cabinets": [{"cells": cells}]}, 1).needed(begins) == due
        assert Cabinet({"cabinets": [{"cells": cells, "lose": 12000}]}, 1).needed(begins) == 2 * due
    assert Cabinet({"cabinets": [{"cells": [["pattern", 1, 2, 0]]}]}, 1).needed(begins) is None


PRESSES = """{"version":1,"rounds":7,"ticks":60,"cabinets":[{}],
 "inputs":[{"round":2,"cabinet":1,"ped":4},{"round":3,"cabinet":1,"ped":4},{"round":5,"cabinet":1,"ped":4},
           {"round":7,"cabinet":1,"ped":8}]}"""
"""Presses after ticks 60, 120, 240 and 360. Phase 2 is green from tick 60 on, for its minimum green of 10 s and its
clearance of 5.5 s. Phase 4 turns green with walk at tick 215, and shows it for 7 s: the third press calls nothing."""


def test_pedestrians_wait_from_their_first_press_to_the_walk(look, tmp_path):
    sys.path.append(str(TOP))
    from model.commands import answer

    text = answer(["run"], PRESSES.encode()).output.decode()
    phases = {it["phase"]: it for it in reported(look, given=text)["cabinets"][0]["phases"]}
    times = dict.fromkeys(("least", "mean", "greatest"), 15.5)
    wait = {"served": 1, **times, "still_waiting": 0}
    assert phases[4]["walk_wait"] == wait and phases[4]["walks"] == 1
    assert phases[8]["walk_wait"] == {"served": 0, **dict.fromkeys(times), "still_waiting": 1}
    assert "walk_wait" not in phases[2]
    assert "phase walks on a press least wait (s)" in look("report", given=text)


@pytest.mark.parametrize(
    ("cabinet", "has_line"),
    [("", True), ('"base":"max8"', False), ('"cells":[["split",1,4,4,4]],"pattern":1', False)],
)
def test_a_run_without_traffic_says_so_and_names_two_ways_to_get_some(look, cabinet, has_line):
    first = f'S {{"cabinets":[{{{cabinet}}}],"rounds":1,"ticks":10,"version":1}}'
    opening = "F 1 0 RRRRRRRRRRRRRRRR DDDDDDDDDDDDDDDD S 0 0 0"
    said = look("report", given="".join(f"{it}\n" for it in (first, opening, "R 1", "J 1 4*10", "Z 1")))
    assert ("no traffic: " in said and "aximum recall" in said and "`arterial cosim queues`" in said) is has_line


TRAFFIC = ["detectors", "push-button", "street", "bus", "railroad", "two-cabinets"]


@pytest.mark.parametrize("name", TRAFFIC)
def test_a_run_whose_scenario_has_vehicles_or_pedestrians_has_traffic(look, name):
    """Each of these scenarios has such an input; the rounds up to the last of them are enough."""
    scenario = json.loads((TOP / f"scenarios/{name}.json").read_text())
    last = max(it["round"] for it in scenario["inputs"] if "veh" in it or "ped" in it)
    scenario = {"rounds": last, "ticks": scenario["ticks"], "version": 1} | {
        name: scenario[name] for name in ("cabinets", "inputs") if name in scenario
    }
    scenario["inputs"] = [it for it in scenario["inputs"] if it["round"] <= last]
    sys.path.append(str(TOP))
    from model.commands import answer

    assert "no traffic: " not in look("report", given=answer(["run"], json.dumps(scenario).encode()).output.decode())


def test_only_detectors_and_push_buttons_are_traffic(look):
    """A train, and a vehicle that leaves a detector, call no phase."""
    inputs = '[{"cabinet":1,"on":true,"preempt":1,"round":1},{"cabinet":1,"on":false,"round":1,"veh":4}]'
    first = f'S {{"cabinets":[{{}}],"inputs":{inputs},"rounds":1,"ticks":10,"version":1}}'
    opening = "F 1 0 RRRRRRRRRRRRRRRR DDDDDDDDDDDDDDDD S 0 0 0"
    said = look("report", given="".join(f"{it}\n" for it in (first, opening, "R 1", "J 1 0*2 4*10", "Z 1")))
    assert "no traffic: " in said


def bus():
    """Returns a trace of the first cabinet of scenarios/bus.json, by the model."""
    sys.path.append(str(TOP))
    from model.commands import answer

    return answer(["run"], (TOP / "scenarios/bus.json").read_bytes()).output.decode()


def test_requests_tell_how_long_they_held_a_green_or_that_they_did_nothing(look):
    """Pattern 1, counter = tick - 60 or - 960 .., force point of 2 and 6 at counter 245. Request 1 is given after tick
    480: phases 4 and 8 end at tick 481; 8 has had its gap. Request 2 departs at tick 1241, with counter 281: 36 ticks
    past the force point. Request 3 departs before the force point, while phase 6 is green. Phase 4 isn't coordinated.
    The last request is cancelled before tick 2121, with counter 261: 16 ticks past it."""
    text = bus()
    rows = reported(look, given=text)["cabinets"][0]["requests"]
    assert [(it["number"], it["phase"], it["held"], it["ended"]) for it in rows] == [
        (1, 2, 0.0, [4]), (2, 2, 3.6, []), (3, 6, 0.0, []), (4, 4, 0.0, []), (1, 6, 1.6, []),
    ]  # fmt: skip
    said = look("report", given=text)
    assert "request 1, phase 2: ended the green of phase 4\n" in said
    assert "request 2, phase 2: held the green 3.6 s\n" in said
    assert "request 3, phase 6: had no effect: it was green already\n" in said
    assert "request 4, phase 4: had no effect\n" in said


def test_rings_have_a_bar_for_each_request(drawn):
    """From 90 to 120 s requests 2, 3 and 4 are live at some time; request 1 is gone."""
    found = drawn("rings", "--cabinet", 1, "--from", 90, "--to", 120, given=bus())
    assert [found.groups[f"request-{it}"] for it in ("2-2", "3-6", "4-4", "1-2")] == [1, 1, 1, 0]
    assert found.texts["request 2, phase 2"] == 1


@pytest.mark.parametrize("phase", [0, 17, 255])
def test_a_request_for_a_phase_that_there_is_none_of_has_no_effect(phase):
    """A trace that wasn't checked may have a reply with any octets."""
    cabinet = Cabinet({"cabinets": [{}]}, 1)
    cabinet.shown(Frame(1, 60, "G" * 16, "D" * 16, "F", 0, 0, 0))
    asked = requests.Requests(cabinet)
    asked.ordered(Requested(1, 100, 50, phase, 1, 1), 60)
    asked.shown(Frame(1, 90, "Y" * 16, "D" * 16, "F", 0, 0, 0))
    assert [it.effect() for it in asked.all] == ["had no effect"]


def test_requests_that_replace_each_other_take_little_time():
    """Ten thousand in one reply: only those that may be live are kept at hand."""
    asked = requests.Requests(Cabinet({"cabinets": [{}]}, 1))
    for number in range(10_000):
        asked.ordered(Requested(number % 256, 100, 50, 2, 1, 1), 60)
    assert len(asked.all) == 10_000 and len(asked.recent) == 256
