"""A sheet to start from: each kind of intersection is accepted by the program, and its numbers are those asked for."""

import itertools
import json
import tomllib

import pytest
from hypothesis import given, settings
from hypothesis import strategies as st

from streettools.plan import rules, starting, toml_text
from streettools.plan.command import main
from streettools.plan.reading import street_of
from streettools.plan.taking import Refused
from streettools.shared.cells import tables_of

from .conftest import said


def asked(names: list[str], travel: list[int], cycles: list[int], speed: int = 40) -> starting.Wish:
    """Returns a wish for an hour from 7:00."""
    return starting.wish(names, None, travel, cycles, speed, 25_200, 60)


@pytest.mark.parametrize("kind", starting.KINDS)
def test_each_kind_keeps_all_rules_and_the_program_accepts_it(kind, tmp_path, program):
    """A sheet of two intersections of a kind breaks no rule, and the program accepts it."""
    where = tmp_path / "street.toml"
    assert main(["new", f"A & B={kind}", f"A & C={kind}", "-o", str(where)]) == 0
    street = street_of(toml_text.read(where.read_text()))
    assert not [it for cabinet in street.scenario["cabinets"] for it in rules.broken(tables_of(cabinet))]
    scenario = tmp_path / "street.json"
    assert main(["scenario", str(where), "-o", str(scenario)]) == 0
    short = json.loads(scenario.read_text()) | {"rounds": 1}
    assert said(program, json.dumps(short).encode()) == ""


@pytest.mark.parametrize("kind", starting.KINDS)
def test_each_ring_fills_the_cycle(kind):
    """On both sides of the barrier the splits of each ring total the same, and the whole is the cycle."""
    for cycle in (90, 97, 120, 255):
        text, _ = starting.sheet(asked([f"A={kind}"], [], [cycle]))
        splits = tomllib.loads(text)["intersection"][0]["pattern"]["1"]["splits"]
        for ring in starting.KINDS[kind].rings:
            sides = [[int(word) for word in side.split() if word.isdecimal()] for side in ring.split("|")]
            if all(sides):
                assert sum(splits[str(it)] for it in itertools.chain(*sides)) == cycle


def test_offsets_follow_the_travel_times():
    """18 s and 22 s from one intersection to the next: the offsets are 0, 18 and 40, in both patterns."""
    text, _ = starting.sheet(asked(["A=two", "B=two", "C=two"], [18, 22], [100, 90]))
    rows = tomllib.loads(text)["intersection"]
    assert [[it["pattern"][n]["offset"] for n in "12"] for it in rows] == [[0, 0], [18, 18], [40, 40]]
    assert [it.get("travel") for it in rows] == [18, 22, None]


def test_the_yellow_change_follows_the_speed():
    """40 mph ask 1 + 40 x 5280/3600 / 20 = 3.9 s, and 30 mph ask 3.2 s."""
    phases = tomllib.loads(starting.sheet(asked(["A=two"], [], [90]))[0])["intersection"][0]["phase"]
    assert [phases[it]["yellow"] for it in "2648"] == [3.9, 3.9, 3.2, 3.2]


def test_a_cycle_that_is_too_short_is_refused_with_the_shortest(tmp_path, capsys):
    """The message has the intersection and the cycle that would be enough; nothing is written."""
    where = tmp_path / "street.toml"
    with pytest.raises(Refused, match="A: pattern 1: no splits keep the rules in a cycle of 40 s; it needs a cycle of"):
        main(["new", "A", "--cycle", "40", "-o", str(where)])
    assert not where.exists()


@pytest.mark.parametrize(
    "words, answer",
    [
        (["A=octagon"], "'octagon' is not a kind of intersection: eight, six, two, t, leadlag, split"),
        (["A", "A"], "two intersections have the same name"),
        ([" =t"], "needs a name of printable characters"),
        (["A\x1b[2J"], "needs a name of printable characters"),
        (["A", "B", "--travel", "1,2,3"], "2 intersections have 1 links, but 3 times are given"),
        (["A", "--start", "23:30"], "ends by midnight"),
        (["A", "--minutes", "1", "--cycle", "90,100"], "each needs a minute of the run"),
        ([f"A{it}" for it in range(65)], "a street has at most 64"),
    ],
)  # fmt: skip
def test_what_cannot_be_made_is_refused_in_words(words, answer, tmp_path):
    """Each refusal says what is wrong, and no file is written."""
    where = tmp_path / "street.toml"
    with pytest.raises(Refused, match=answer):
        main(["new", *words, "-o", str(where)])
    assert not where.exists()


def test_its_volumes_are_read_and_every_link_has_both_directions(tmp_path):
    """Vehicles of the main street go on to the next intersection, in both directions; the queues run them."""
    sheet, volumes = tmp_path / "street.toml", tmp_path / "street.volumes.toml"
    assert main(["new", "A", "B=t", "C=six", "--volumes", str(volumes), "-o", str(sheet)]) == 0
    rows = tomllib.loads(volumes.read_text())["cabinet"]
    ways = {(it["number"], move["name"]): move.get("to") for it in rows for move in it["movements"]}
    assert [ways[n, "EBT"] for n in (1, 2, 3)] == ["2 EB", "3 EB", None]
    assert [ways[n, "WBT"] for n in (1, 2, 3)] == [None, "1 WB", "2 WB"]


@settings(max_examples=60, deadline=None)
@given(
    st.lists(st.tuples(st.text(max_size=12), st.sampled_from([*starting.KINDS, "", "x"])), min_size=1, max_size=4),
    st.lists(st.integers(1, 255), max_size=4),
    st.lists(st.integers(30, 255), min_size=1, max_size=3),
    st.integers(15, 65),
)
def test_any_words_give_an_accepted_sheet_or_one_refusal(names, travel, cycles, speed):
    """Whatever is asked for: a sheet without a broken rule, whose names are those that were given, or a refusal."""
    words = [f"{name}={kind}" for name, kind in names]
    try:
        text, street = starting.sheet(asked(words, travel, cycles, speed))
    except Refused as refused:
        assert str(refused).isprintable() or "'" in str(refused)
        return
    assert [it.name for it in street.names.intersections] == [name.strip() for name, _ in names]
    read = street_of(toml_text.read(text))
    assert not [it for cabinet in read.scenario["cabinets"] for it in rules.broken(tables_of(cabinet))]
