"""Volumes that were entered against those that arrive from neighbours; and where turns lead, in every file of volumes
of the repository."""

import re
import tomllib

import pytest

from streettools.cosim.queues import balance, volumes
from streettools.plan.command import main

from .conftest import TOP

FILES = sorted(TOP.glob("scenarios/**/*.volumes.toml"))

TURNS = {"EBL": "NB", "EBR": "SB", "WBL": "SB", "WBR": "NB", "NBL": "WB", "NBR": "EB", "SBL": "EB", "SBR": "WB"}
"""The direction after a turn: whoever drives north and turns left drives west."""

STRAIGHT = {"EBL": 2, "WBL": 6}
"""The phase of the straight movement of a left turn's own approach, in the sheets and documents of this project."""

PAIR = """
[[cabinet]]
number = 1
movements = [
  {{name = "WBT", phase = 6, volume = 500}},
  {{name = "WBL", phase = 1, volume = 50}},
]
[[cabinet]]
number = 2
movements = [
  {{name = "WBT", phase = 6, volume = 300, to = "1 WB", travel = 20, share = 0.8}},
  {{name = "NBL", phase = 7, volume = {left}, to = "1 WB", travel = 20}},
]
"""


def doubts(text: str) -> list[str]:
    """Returns the lines about volumes in TOML."""
    return list(balance.doubts(volumes.volumes_of(tomllib.loads(text))))


def test_an_approach_that_gets_far_fewer_vehicles_than_were_entered_has_a_line():
    """0.8 x 300 + 40 = 280, of 550."""
    said = "cabinet 1 WB: 550 entered, about 280 an hour arrive from cabinet 2; movements need `to`"
    assert doubts(PAIR.format(left=40)) == [said]


@pytest.mark.parametrize(("left", "is_silent"), [(126, False), (127, True), (493, True), (494, False)])
def test_a_third_may_be_missing_or_too_much(left, is_silent):
    """550 less a third are 366.7, which 240 and 127 reach; a third more are 733.3, which 240 and 494 exceed."""
    assert (doubts(PAIR.format(left=left)) == []) is is_silent
    assert left < 494 or "`share` is too large, or volumes are too small" in doubts(PAIR.format(left=left))[0]


@pytest.mark.parametrize("path", FILES, ids=lambda it: it.name)
def test_the_volumes_of_the_repository_balance_and_turn_where_their_names_say(path):
    """Left turns and right turns join the direction that they turn into; the volumes of inner approaches arrive."""
    read = volumes.volumes_of(tomllib.loads(path.read_text()))
    wrong = [(it.cabinet, it.name) for it in read.flows if it.onward and it.name in TURNS
             and it.onward.approach != TURNS[it.name]]  # fmt: skip
    assert wrong == [] and list(balance.doubts(read)) == []


def test_a_left_turn_is_permitted_in_the_green_of_its_own_approach():
    """In every example of the documents, and in every file of volumes."""
    texts = [it.read_text() for it in (*FILES, *TOP.glob("docs/*.md"), *TOP.glob("docs/how-to/*.md"))]
    rows = [it for text in texts for it in re.findall(r'name = "([EW]BL)".*permitted = \[(\d+)\]', text)]
    assert rows and all(int(phase) == STRAIGHT[name] for name, phase in rows)


@pytest.mark.parametrize(
    "kinds", ["eight eight eight eight eight eight", "t leadlag split two", "six t eight", "two t t", "leadlag"]
)
def test_the_volumes_of_a_new_street_balance(kinds, tmp_path):
    """Whatever the kinds: each approach gets what was entered for it, to within a vehicle."""
    sheet, where = tmp_path / "street.toml", tmp_path / "street.volumes.toml"
    names = [f"A & {number}={kind}" for number, kind in enumerate(kinds.split())]
    assert main(["new", *names, "--volumes", str(where), "-o", str(sheet)]) == 0
    text = where.read_text()
    read = volumes.volumes_of(tomllib.loads(text))
    wrong = [it for it in read.flows if it.onward and it.name in TURNS and it.onward.approach != TURNS[it.name]]
    assert wrong == [] and list(balance.doubts(read)) == []
    entered = balance.entered_at(read)
    assert all(abs(entered[it] - found) < 2 for it, found in balance.arriving(read).items())


def test_side_streets_of_a_new_street_join_the_main_street(tmp_path):
    """660 enter from the west: 600 straight on, of which 95 % drive on, 40 left turns from the north and 20 % of 150
    right turns from the south make 640 at the second intersection, 580 of them straight on."""
    sheet, where = tmp_path / "street.toml", tmp_path / "street.volumes.toml"
    assert main(["new", "A & 1", "A & 2", "A & 3=t", "--volumes", str(where), "-o", str(sheet)]) == 0
    rows = {(it["number"], move["name"]): move for it in tomllib.loads(where.read_text())["cabinet"]
            for move in it["movements"]}  # fmt: skip
    assert (rows[1, "SBL"]["to"], rows[1, "NBT"]["to"], rows[1, "NBT"]["share"]) == ("2 EB", "2 EB", 0.2)
    assert "to" not in rows[1, "NBL"] and (rows[2, "NBL"]["to"], rows[2, "SBT"]["to"]) == ("1 WB", "1 WB")
    assert (rows[1, "EBT"]["volume"], rows[2, "EBT"]["volume"]) == (600, 580)
    assert (rows[3, "NBL"]["to"], rows[3, "NBL"]["phase"], rows[3, "NBR"]["phase"]) == ("2 WB", 4, 4)
