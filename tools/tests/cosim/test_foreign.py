"""Networks that come with SUMO and that nobody here wrote: each gets a map that runs take without editing, for cabinets
of eight phases and of four, or clear questions."""

import json
import pathlib
import subprocess
import tomllib

import pytest

from streettools.cosim import checks, network
from streettools.cosim.map_making import Maker, Said
from streettools.cosim.mapping import read_map
from streettools.shared.tables import Tables

from .conftest import PROGRAM, cosim, needs_sumo

TOOLS = pathlib.Path("/usr/share/sumo/tools")
SCENARIOS = TOOLS / "sumolib/scenario/scenarios"
PLAIN = {
    # the network, and how many signals SUMO's own file has
    SCENARIOS / "RiLSA1/rilsa1.net.xml": 1,
    SCENARIOS / "BasicCorridor/net.net.xml": 5,
    SCENARIOS / "BasicRiLSACorridor3/network.net.xml": 15,
    SCENARIOS / "BasicRiLSANet2x2/network.net.xml": 16,
    SCENARIOS / "BasicCrossL/net.net.xml": 1,
    SCENARIOS / "RealWorld/RiLSA_example2/rilsa2.net.xml": 1,
    SCENARIOS / "RealWorld/RiLSA_example4/rilsa4.net.xml": 1,
    TOOLS / "game/cross/cross.net.xml": 1,
    TOOLS / "game/grid6/grid6.net.xml": 6,
    TOOLS / "game/square/square.net.xml": 12,
}
IRREGULAR = [SCENARIOS / "RealWorld/pasubio/pasubio_buslanes.net.xml", TOOLS / "game/DRT/osm.net.xml"]
needs_networks = pytest.mark.skipif(not SCENARIOS.exists(), reason="SUMO's own networks are missing: sumo-tools")
TWO_PHASES = [
    *(["phase", it, 21, 0] for it in (1, 3, 5, 7)),
    *(["phase", it, 23, f"{other:02}"] for it, other in ((2, 6), (6, 2), (4, 8), (8, 4))),
    ["sequence", 1, 1, "0204"],
    ["sequence", 1, 2, "0608"],
    *(["split", 1, it, 3, 45] for it in (2, 4, 6, 8)),
]
"""A cabinet with two phases in each ring."""


@needs_networks
@pytest.mark.parametrize("cells", [[], TWO_PHASES], ids=["eight phases", "phases 2, 4, 6 and 8"])
@pytest.mark.parametrize("path", PLAIN, ids=lambda it: it.parent.name)
def test_a_network_of_sumo_gets_a_map_that_runs_take_without_editing(path, cells, tmp_path):
    known = network.read(path)
    assert len(known.links) == PLAIN[path]
    scenario = {"cabinets": [{"cells": cells}] * len(known.links)}
    maker = Maker(known, Said(tables=[Tables("std8", cells)] * len(known.links)))
    (tmp_path / "map.toml").write_text(maker.text(path.name))
    assert not maker.questions
    checks.check(read_map(tmp_path / "map.toml"), known, scenario)


def test_the_cabinet_of_two_phases_in_each_ring_is_one_that_the_program_takes():
    scenario = {"version": 1, "rounds": 1, "ticks": 10, "cabinets": [{"cells": TWO_PHASES}]}
    text = json.dumps(scenario).encode()
    assert subprocess.run([PROGRAM, "run"], input=text, capture_output=True).returncode == 0


@needs_networks
@pytest.mark.parametrize("path", IRREGULAR, ids=lambda it: it.parent.name)
def test_an_irregular_network_asks_questions_that_name_a_movement_and_an_option(path):
    maker = Maker(network.read(path))
    assert '"?"' in maker.text(path.name) and maker.questions
    for it in maker.questions:
        assert it.movement in it.words and f"--phase '{it.signal} " in str(it), it


@needs_networks
def test_left_turns_of_a_cabinet_without_left_turn_phases_go_with_the_straight_way_and_yield():
    """The left turns of a street with lanes of their own: here no phase but 2, 4, 6 and 8, so none is idle either."""
    path = SCENARIOS / "RiLSA1/rilsa1.net.xml"
    known = network.read(path)
    made = tomllib.loads(Maker(known, Said(tables=[Tables("std8", TWO_PHASES)])).text(path.name))["signal"][0]
    phases = {it["phase"] for it in made["movement"]}
    assert phases == {2, 4, 6, 8} and "idle" not in made
    lefts = [it for it in made["movement"] if it["name"][2:] == "L"]
    assert len(lefts) == 4 and all(it["yields"] for it in lefts)


FILES = '<net-file value="n.net.xml"/><route-files value="r.rou.xml"/>'
CONFIG = f"<configuration><input>{FILES}</input></configuration>"


@needs_networks
@needs_sumo
def test_the_game_of_sumo_runs_with_two_phases_without_editing(tmp_path):
    path = TOOLS / "game/cross/cross.net.xml"
    (tmp_path / "n.net.xml").write_bytes(path.read_bytes())
    (tmp_path / "n.sumocfg").write_text(CONFIG)
    (links,) = network.read(path).links.values()
    ways = [(it.approach, it.end.rpartition("_")[0]) for it in links if it.turn != network.CROSSING]
    trips = [f'<trip id="{k}" depart="{k}" from="{a}" to="{b}"/>' for k, (a, b) in enumerate(ways)]
    (tmp_path / "r.rou.xml").write_text(f"<routes>{''.join(trips)}</routes>")
    scenario = {"version": 1, "rounds": 200, "ticks": 10, "cabinets": [{"cells": TWO_PHASES}]}
    (tmp_path / "s.json").write_text(json.dumps(scenario))
    words = ["--scenario", tmp_path / "s.json"]
    assert cosim("map", tmp_path / "n.net.xml", *words, "-o", tmp_path / "m.toml").status == 0
    words += ["--sumo", tmp_path / "n.sumocfg", "--map", tmp_path / "m.toml", "--seconds", 120, "--step", 1]
    ran = cosim("run", *words, "-o", tmp_path / "out")
    assert ran.status == 0, ran
    trace = (tmp_path / "out/session.trace").read_bytes()
    assert subprocess.run([PROGRAM, "check"], input=trace, capture_output=True).returncode == 0
