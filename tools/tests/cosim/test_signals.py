"""Signals by what cabinets show: overlaps as `arterial overlaps` has them, the watch over crossing paths, detectors."""

import itertools
import subprocess

import pytest

from streettools.cosim import detectors, network
from streettools.cosim.checks import yielding_in
from streettools.cosim.faults import Conflict
from streettools.cosim.map_making import Maker, Said
from streettools.cosim.mapping import Overlap, read_map
from streettools.cosim.overlaps import OverlapLight
from streettools.cosim.signals import Signals, Watch

from .conftest import STREET, TEE, TOP


def changes_of(light: OverlapLight, trace: str, cabinet: str, ticks: int, step: int) -> list[str]:
    """Returns the changes that an overlap shows, looked at by steps, as `overlaps` writes them."""
    frames = [line.split(" ") for line in trace.splitlines() if line.startswith(f"F {cabinet} ")]
    found, shown = ["O 0 R"], "R"
    for tick in range(step, ticks + 1, step):
        for frame in frames:
            if tick - step < int(frame[2]) <= tick or tick == step and frame[2] == "0":
                light.changed(int(frame[2]), frame[3])
        if light.at(tick) != shown:
            shown = light.at(tick)
            found.append(f"O {tick} {shown}")
    return [*found, f"Z {ticks}"]


@pytest.fixture(scope="module")
def right_turn() -> str:
    """Returns the trace of a scenario with a right-turn arrow."""
    scenario = (TOP / "scenarios/right-turn.json").read_bytes()
    command = [TOP / "model/program", "run"]
    return subprocess.run(command, input=scenario, capture_output=True, check=True).stdout.decode()


@pytest.mark.parametrize(("trail", "yellow", "red"), [(5, 30, 10), (0, 30, 0), (3, 32, 4)])
def test_an_overlap_changes_when_arterial_overlaps_says(right_turn, trail, yellow, red):
    words = ["--cabinet", "1", "--parents", "0203", "--trail", trail, "--yellow", yellow, "--red", red]
    command = [TOP / "model/program", "overlaps", *map(str, words)]
    due = subprocess.run(command, input=right_turn.encode(), capture_output=True, check=True).stdout.decode()
    light = OverlapLight(Overlap((2, 3), trail, yellow, red))
    assert changes_of(light, right_turn, "1", 1000, 1) == due.splitlines()


def test_an_overlap_looked_at_once_a_second_shows_what_it_shows_then(right_turn):
    """The worked times of scenarios/README.md, each at the next whole second."""
    found = changes_of(OverlapLight(Overlap((2, 3), 5, 30, 10)), right_turn, "1", 1000, 10)
    assert found[:6] == ["O 0 R", "O 60 G", "O 210 Y", "O 240 C", "O 250 R", "O 260 G"]


class Shown:
    """A SUMO that has some states in force."""

    def __init__(self, states: dict[str, str]) -> None:
        self.states, self.trafficlight = states, self

    def getRedYellowGreenState(self, name: str) -> str:
        """Returns a state."""
        return self.states[name]

    def setRedYellowGreenState(self, name: str, state: str) -> None:
        """Sets a state."""
        self.states[name] = state


def crossing_pairs():
    """Yields every pair of crossing links of the T-intersection."""
    yield from network.read(TEE / "tee.net.xml").conflicts("t")


@pytest.mark.parametrize(("one", "other"), [("G", "G"), ("G", "y"), ("y", "y")])
def test_the_watch_finds_each_pair_of_crossing_links_that_both_have_way(one, other):
    known = network.read(TEE / "tee.net.xml")
    size = len(known.links["t"])
    for a, b in crossing_pairs():
        state = ["r"] * size
        state[a.index], state[b.index] = one, other
        with pytest.raises(Conflict, match=f"links {a.index} .* and {b.index} .* cross, and both have way"):
            Watch(known, ["t"], lambda a, b: False, Shown({"t": "".join(state)})).look(1.0)


def test_a_link_that_yields_may_be_on_beside_its_foe_only_where_their_phases_may():
    """The right turn out of the stem (g) yields to the crossing beside it, which has its phase; not to the main
    street."""
    known = network.read(TEE / "tee.net.xml")
    street = read_map(TEE / "tee.map.toml")
    may_yield = yielding_in(street, known, {"cabinets": [{}]})
    by_name = {link.name: link.index for link in known.links["t"]}
    places = {it.name: [by_name[name] for name in it.links] for it in street.signals[0].movements}

    def state(**letters: str) -> str:
        shown = ["r"] * len(by_name)
        for name, letter in letters.items():
            for place in places[name.replace("_", " ")]:
                shown[place] = letter
        return "".join(shown)

    Watch(known, ["t"], may_yield, Shown({"t": state(NBR="g", ped_E="G")})).look(1.0)
    for letters in ({"NBR": "G", "ped_E": "G"}, {"NBL": "g", "EBT": "G"}, {"NBL": "g", "WBT": "y"}):
        with pytest.raises(Conflict):
            Watch(known, ["t"], may_yield, Shown({"t": state(**letters)})).look(1.0)


def test_the_watch_lets_links_be_on_that_do_not_cross():
    known = network.read(TEE / "tee.net.xml")
    crossing = {frozenset((a.index, b.index)) for a, b in crossing_pairs()}
    size = len(known.links["t"])
    for i, j in itertools.combinations(range(size), 2):
        if frozenset((i, j)) not in crossing:
            state = "".join("G" if k in (i, j) else "r" for k in range(size))
            Watch(known, ["t"], lambda a, b: False, Shown({"t": state})).look(1.0)


FRAME = b"F 1 %d RGRRRGRRRRRRRRRR DWDDDFDDDDDDDDDD C1 0 0 0"


def test_signals_show_green_with_and_without_way_walk_and_red():
    """Phases 2 and 6 are green, 2 walks, 6 flashes: the crossing of 2 has way; a right turn over it yields."""
    known, street = network.read(STREET / "street.net.xml"), read_map(STREET / "street.map.toml")
    sumo, signals = Shown({}), Signals(street, known)
    signals.show(sumo, [FRAME % 10], 10)
    by_name = {it.name: it.links for it in street.signals[0].movements}
    places = {link.name: link.index for link in known.links["c0"]}
    shown = {name: {sumo.states["c0"][places[it]] for it in links} for name, links in by_name.items()}
    assert shown["EBT"] == shown["WBT"] == shown["ped S"] == {"G"}
    assert shown["EBR"] == shown["WBR"] == {"g"}
    assert shown["ped N"] == shown["NBT"] == shown["EBL"] == shown["ped E"] == {"r"}
    assert signals.walks(1, 2) and not signals.walks(1, 6)


def letters(sumo: Shown, street, known, signal: str = "c0") -> dict[str, str]:
    """Returns the letter that each movement of a signal shows."""
    (own,) = (it for it in street.signals if it.id == signal)
    places = {link.name: link.index for link in known.links[signal]}
    return {it.name: sumo.states[signal][places[it.links[0]]] for it in own.movements}


@pytest.fixture
def permissive(tmp_path):
    """Returns the street with left turns that are protected by their own phase and permissive under the opposite's."""
    known = network.read(STREET / "street.net.xml")
    (tmp_path / "map.toml").write_text(Maker(known, Said(1, is_permissive=True)).text("street.net.xml"))
    return known, read_map(tmp_path / "map.toml")


def test_a_left_turn_is_protected_by_its_own_phase_and_yields_under_the_opposite_one(permissive):
    """Eastbound left turns: phase 5, against the traffic of phase 6."""
    known, street = permissive
    sumo, signals = Shown({}), Signals(street, known)
    own = {"RGRRGRRR": "GGr", "RGRRYRRR": "yGr", "RGRRCRRR": "rGr"}
    opposite = {"RGRRRGRR": "gGG", "RGRRRYRR": "yGy", "RGRRRCRR": "rGr"}
    for tick, (colours, shown) in enumerate((own | opposite).items(), 1):
        signals.show(sumo, [b"F 1 %d %bRRRRRRRR DDDDDDDDDDDDDDDD C1 0 0 0" % (10 * tick, colours.encode())], 10 * tick)
        found = letters(sumo, street, known)
        assert (found["EBL"], found["EBT"], found["WBT"]) == tuple(shown), colours


def test_the_watch_lets_a_permissive_left_turn_yield_and_refuses_one_that_has_way(permissive):
    known, street = permissive
    may_yield = yielding_in(street, known, {"cabinets": [{}] * 4})
    places = {link.name: link.index for link in known.links["c0"]}
    (own,) = (it for it in street.signals if it.id == "c0")
    of = {it.name: [places[name] for name in it.links] for it in own.movements}

    def state(**shown: str) -> Shown:
        row = ["r"] * len(places)
        for name, letter in shown.items():
            for place in of[name]:
                row[place] = letter
        return Shown({"c0": "".join(row)})

    def watch(**shown: str) -> Watch:
        return Watch(known, ["c0"], may_yield, state(**shown))

    watch(EBL="g", WBT="G", EBT="G").look(1.0)
    seen = watch()
    for second, shown in enumerate(({"EBL": "g", "WBT": "G"}, {"EBL": "y", "WBT": "y"}, {"EBL": "r", "WBT": "r"})):
        seen.state_of = state(**shown).getRedYellowGreenState
        seen.look(float(second))
    for crossing in ({"EBL": "G", "WBT": "G"}, {"EBL": "g", "SBT": "G"}):
        with pytest.raises(Conflict, match="cross, and both have way"):
            watch(**crossing).look(1.0)
    seen = watch(EBL="G")
    seen.look(1.0)
    seen.state_of = state(EBL="y", WBT="G").getRedYellowGreenState
    with pytest.raises(Conflict, match="cross, and both have way"):
        seen.look(2.0)


class Loops:
    """A SUMO with one loop, whose vehicles a test sets: for how many seconds nobody is over it, and who stands on its
    lane at which metre."""

    def __init__(self) -> None:
        self.seconds, self.places = 0.0, {}
        self.inductionloop = self.lane = self.vehicle = self
        self.lanearea = Shown({})
        self.lanearea.getIDList = lambda: ()
        self.lanearea.getLastStepVehicleNumber = None

    def getIDList(self):
        """Returns the names of the loops."""
        return ("loop",)

    def getTimeSinceDetection(self, name):
        """Returns for how long nobody is over the loop: 0 while somebody is."""
        return self.seconds

    def getLastStepVehicleIDs(self, lane):
        """Returns who is on the lane."""
        return tuple(self.places)

    def getLanePosition(self, vehicle):
        """Returns at which metre somebody is."""
        return self.places[vehicle]


ON, OFF = b"veh 1 4 on", b"veh 1 4 off"


def looking(tmp_path, which: str, step: float) -> tuple[Loops, detectors.Detectors]:
    """Returns a SUMO with a detector of phase 4, and what looks at it."""
    text = f'network = "x"\n[[signal]]\nid = "t"\ncabinet = 1\n[[signal.detector]]\nphase = 4\n{which}\n'
    (tmp_path / "map.toml").write_text(text)
    street, sumo = read_map(tmp_path / "map.toml"), Loops()
    known = network.Network(tmp_path, lanes={"in_1": 100.0})
    return sumo, detectors.Detectors(street, detectors.Areas(street, known), sumo, step)


def test_a_loop_that_was_crossed_between_two_looks_is_told_as_on_and_off(tmp_path):
    sumo, seen = looking(tmp_path, 'ids = ["loop"]', 1)
    told = []
    for sumo.seconds in (9.0, 0.5, 0, 0, 0.2, 1.2):
        told.append(list(seen.changes()))
    assert told == [[], [ON, OFF], [ON], [], [OFF], []]


def test_who_changes_lanes_within_a_long_loop_and_stands_there_is_seen(tmp_path):
    """The loop of 15 m before the line of a lane of 100 m doesn't see them; who stands behind it doesn't count."""
    sumo, seen = looking(tmp_path, 'lanes = ["in_1"]', 0.1)
    sumo.seconds, sumo.places = 60.0, {"behind": 84.0}
    seen.look_for_strays({"in_1": ["behind"]})
    assert list(seen.changes()) == []
    sumo.places = {"behind": 84.0, "changed": 95.0}
    seen.look_for_strays({"in_1": ["behind", "changed"]})
    assert list(seen.changes()) == [ON] and list(seen.changes()) == []
    del sumo.places["changed"]
    assert list(seen.changes()) == [OFF] and list(seen.changes()) == []
