"""A street of five intersections, of the kinds that timing engineers have, from its sheet to an explained wait: eight
phases, a T, split phasing, two phases with half a cycle, lead-lag with a railroad; a bus."""

import io
import json
import re
from contextlib import redirect_stdout

import pytest

from .conftest import TOP
from streettools import words

SHEETS = TOP / "scenarios/harbor"


def said(*given: object) -> tuple[int, str]:
    """Returns the status of a command of the tools, and its output."""
    with redirect_stdout(io.StringIO()) as out:
        status = words.run(list(map(str, given)))
    return status, out.getvalue()


@pytest.fixture(scope="module")
def traffic(program, tmp_path_factory):
    """The folder of a run of ten minutes with traffic, from 6:25 on."""
    out = tmp_path_factory.mktemp("five") / "out"
    run = ("cosim", "queues", SHEETS / "harbor.volumes.toml", "--scenario", SHEETS / "harbor.toml", "--seconds", 600)
    assert said(*run, "-o", out, "--program", program)[0] == 0
    return out


def test_the_sheet_has_nothing_dangerous_and_says_how_long_changes_take(program):
    status, text = said("plan", "check", SHEETS / "harbor.toml", "--program", program)
    assert status == 0 and "no errors" in text and "dangerous" not in text
    assert "at 06:30:00 pattern 1: left undisturbed, every intersection is on its offset by 06:50:00" in text
    assert "the bands of pattern 3 are not computed, since its cycles differ: 120 s, and 60 s at Harbor & Elm" in text


def test_the_report_has_the_names_the_ratios_and_all_kinds_of_phases(traffic):
    """Phase 4 is Grant's southbound approach of the split phasing, 1 the lead and 5 the lag at Depot."""
    value = json.loads((traffic / "report.json").read_text())
    assert [it["name"] for it in value["cabinets"]] == [
        "Harbor & Front", "Harbor & Mill", "Harbor & Grant", "Harbor & Elm", "Harbor & Depot"
    ]  # fmt: skip
    by_place = {(it["cabinet"], it["movement"]): it for it in value["movements"]}
    for place in ((1, "NBL"), (2, "NBL"), (3, "SBT"), (4, "SBT"), (5, "EBL"), (5, "WBL")):
        assert by_place[place]["vehicles"] > 0 and 0 < by_place[place]["v_c"] < 2, place
    assert (traffic / "session.names.json").is_file()


def test_pictures_are_drawn_by_the_times_of_day_and_names_of_the_sheet(traffic, tmp_path):
    for kind, more in (("paths", ()), ("purdue", ("--cabinet", "Grant")), ("splits", ("--cabinet", "Depot"))):
        drawn = tmp_path / f"{kind}.svg"
        asked = ("cosim", "draw", kind, traffic, "--from", "06:28", "--to", "06:33", *more, "-o", drawn)
        assert said(*asked)[0] == 0
        assert "time of day" in drawn.read_text()
    assert "Harbor &amp; Grant (cabinet 3)" in (tmp_path / "purdue.svg").read_text()


def test_a_wait_is_explained_by_the_name_of_the_intersection(traffic):
    asked = ("--cabinet", "mill", "--phase", 4, "--at", "06:31:00")
    status, text = said("why", traffic / "session.trace", *asked)
    assert status == 0
    assert text.startswith("Harbor & Mill (cabinet 2), phase 4 (Mill northbound), 06:31:00 (tick 3600):")
    assert re.search(r"^why: .*\[docs/TICK\.md#\w+\]$", text, re.M)


def test_offsets_are_compared_over_the_same_vehicles(program, tmp_path):
    """The file's own plans, over less time."""
    text = (SHEETS / "harbor.compare.toml").read_text().replace('"harbor', f'"{SHEETS}/harbor')
    text = text.replace("seeds = 5", "seeds = 2").replace("3600", "300").replace("600", "10")
    (tmp_path / "harbor.compare.toml").write_text(text)
    status, table = said("cosim", "compare", tmp_path / "harbor.compare.toml", "--program", program)
    assert status == 0 and "at Harbor & Depot" in table
    assert len(re.findall(r"^'(?:two-way|all zero)' has .* 'outbound' ", table, re.M)) == 2
