"""The environment of learners: what it shows, what its actions do, its numbers against a run by hand, and its ends."""

import gc
import json
import os
import shutil
import signal
import subprocess
import sys

import arterial
import arterial.env
import numpy
import pytest

from ..shared.conftest import is_gone
from .conftest import OPENING, TOP

STREET = TOP / "scenarios/street.json", TOP / "scenarios/street.volumes.toml"
RECALL = {"version": 1, "rounds": 300, "ticks": 10, "cabinets": [{"pattern": 1}]}


def volumes(**by_phase):
    """Returns volumes of one cabinet, by phase."""
    rows = [{"name": f"M{it}", "phase": it, "volume": by_phase.get(f"p{it}", 0)} for it in range(1, 9)]
    return {"cabinet": [{"number": 1, "movements": rows}]}


def env(**more):
    given = {"scenario": RECALL, "volumes": volumes(p2=400, p4=300), "seconds": 120.0} | more
    return arterial.env.StreetEnv(given.pop("scenario"), given.pop("volumes"), **given)


def episode(it, act, seed=1):
    """Returns observations, rewards and infos of a whole episode."""
    observation, info = it.reset(seed=seed)
    rows, ended = [(observation, 0.0, info)], False
    while not ended:
        observation, reward, terminated, ended, info = it.step(act(observation))
        assert not terminated
        rows.append((observation, reward, info))
    return rows


def test_an_episode_has_its_steps_and_the_same_traffic_for_the_same_seed():
    with env() as it:
        one, other, third = (episode(it, lambda seen: [0], seed) for seed in (5, 5, 6))
    assert len(one) == 121 and one[-1][2]["time_s"] == 120.0
    assert all((a[0] == b[0]).all() and a[1] == b[1] for a, b in zip(one, other))
    assert any((a[0] != b[0]).any() for a, b in zip(one, third))


def test_an_observation_has_queues_colours_and_seconds():
    """std8 in free operation: phases 2 and 6 turn green at 6 s (docs/SCENARIO.md), with nobody else they stay so."""
    with env(volumes=volumes(p2=1)) as it:
        rows = episode(it, lambda seen: [0])
        assert rows[0][0].shape == (1, 3, 16) and rows[0][0].dtype == numpy.float32
    at_5, at_6, at_20 = (rows[at][0][0] for at in (5, 6, 20))
    assert at_5[1].tolist() == [0.0] * 16 and at_5[2][0] == 5.0
    assert at_6[1].tolist() == [0, 3, 0, 0, 0, 3] + [0.0] * 10 and at_6[2][1] == 0.0
    assert at_20[2][1] == 14.0 and at_20[2][0] == 20.0
    assert all(row[0] in it.observation_space for row in rows)


def test_the_reward_is_the_time_that_the_queue_model_reports():
    """`arterial cosim queues` on the same street and seed: the delays of all who passed add up to what the steps say,
    to within a sample of each vehicle."""
    from streettools.cosim.queues.demand import demand_of
    from streettools.cosim.queues.session import Cabinets
    from streettools.cosim.queues.signals import Signals
    from streettools.cosim.queues.street import Steps, Street

    with env(keep_trace=True) as it:
        rows = episode(it, lambda seen: [0])
        scenario = it.trace.scenario
    street = Street(it.volumes, demand_of(it.volumes, 1, 0.0, 120.0), Steps(120, 10))
    own = {name: scenario[name] for name in ("version", "rounds", "ticks", "cabinets")}
    own["cabinets"] = [{"pattern": 0}]
    with Cabinets(os.environ["ARTERIAL_PROGRAM"], own) as cabinets:
        street.run(cabinets, Signals(1), lambda step: None)
    waited = sum(out - came for told in street.passages for came, out in told)
    waited += sum(120.0 - came for line in street.lines for came, _ in line.queue)
    vehicles = sum(map(len, street.passages)) + sum(len(line.queue) for line in street.lines)
    assert abs(-sum(row[1] for row in rows) - waited) <= vehicles
    assert sum(row[2]["passed"] for row in rows) == sum(map(len, street.passages))


def test_movements_are_those_that_the_command_reports(tmp_path):
    """`arterial cosim queues` over the same scenario, volumes and seed. The environment commands free operation, in
    which the cabinets are."""
    scenario = json.loads(STREET[0].read_text()) | {"cabinets": [{"clock": 252_000}] * 4, "inputs": []}
    (tmp_path / "free.json").write_text(json.dumps(scenario))
    words = [TOP / "tools/streettools", "cosim", "queues", STREET[1], "--scenario", tmp_path / "free.json", "--seconds",
             "300", "--seed", "4", "--json"]  # fmt: skip
    said = subprocess.run([sys.executable, "-B", *map(str, words)], capture_output=True, text=True, timeout=120)
    with arterial.env.StreetEnv(scenario, STREET[1], seconds=300) as it:
        with pytest.raises(arterial.Error, match="no episode"):
            it.movements()
        episode(it, lambda seen: [0] * 4, seed=4)
        found = it.movements()
    for row, own in zip(json.loads(said.stdout)["movements"], found.itertuples(), strict=True):
        assert (row["cabinet"], row["movement"], row["vehicles"]) == (own.cabinet, own.movement, own.vehicles)
        assert row["delay"] == pytest.approx(own.delay_s, nan_ok=True) or row["delay"] is None
        assert row["queue_greatest"] == own.queue_greatest and row["split_failures"] == own.split_failures
    assert found.vehicles.sum() > 200


def test_rewards_weigh_delay_and_stops_or_are_the_callers_own():
    with env() as a, env(reward="stops") as b, env(reward={"delay": 1, "stops": 10}) as c, env(
        reward=lambda info: info["passed"]
    ) as d:
        runs = [episode(it, lambda seen: [0]) for it in (a, b, c, d)]
    for one, stops, both, own in zip(*runs):
        assert both[1] == one[1] + 10 * stops[1] and own[1] == own[2].get("passed", 0)
    assert sum(row[1] for row in runs[1]) < 0


def test_a_pattern_is_commanded_and_the_trace_is_one():
    with env(keep_trace=True, scenario=RECALL | {"cabinets": [{}]}) as it:
        assert it.patterns == [0, 1] and [1] in it.action_space and [2] not in it.action_space
        episode(it, lambda seen: [1])
        assert arterial.check(it.trace)
        modes = it.trace.frames()["mode"].tolist()
    assert "C1" in modes


def test_a_held_call_holds_the_green_up_to_its_maximum():
    """The detector of phase 4 is always on, that of phase 2 too: each gets its maximum of 40 s in free operation, and
    clearance of 5.5 s follows."""
    wanted = numpy.zeros((1, 16), dtype=int)
    wanted[0, [1, 3]] = 1
    with env(actions="calls", keep_trace=True, seconds=300.0, scenario=RECALL | {"cabinets": [{}]}) as it:
        episode(it, lambda seen: wanted)
        greens = it.trace.greens()
    assert set(greens[greens.phase.isin([2, 4]) & (greens.ending == "maximum")].green_s) == {40.0}
    with env(actions="calls", keep_trace=True, scenario=RECALL | {"cabinets": [{}]}) as it:
        episode(it, lambda seen: 0 * wanted)
        assert set(it.trace.greens().phase) == {2, 6}


def test_any_actions_keep_the_greens_apart():
    """Random calls and patterns on a street of four: check accepts the trace, and no two phases of a ring are on."""
    for actions in ("calls", "patterns"):
        with arterial.env.StreetEnv(*STREET, seconds=200, actions=actions, keep_trace=True) as it:
            it.action_space.seed(3)
            episode(it, lambda seen: it.action_space.sample())
            assert arterial.check(it.trace)
            for letters in it.trace.frames().vehicles:
                assert sum(letters[phase] in "GYC" for phase in range(4)) <= 1


def test_a_step_may_have_several_samples():
    with env(step_s=5.0, sample_s=0.5) as it:
        rows = episode(it, lambda seen: [0])
    assert len(rows) == 25 and rows[3][2]["time_s"] == 15.0


GYMNASIUM = """
class Env:
    pass

class spaces:
    class Box:
        def __init__(self, *given):
            self.given = given
    MultiDiscrete = MultiBinary = Box
"""
"""What stands for gymnasium where it isn't installed: its names that the package uses."""


def test_gymnasium_is_used_where_it_is_installed(tmp_path):
    """In a process of its own, since the module is chosen when it is first imported."""
    (tmp_path / "gymnasium.py").write_text(GYMNASIUM)
    asked = (
        "import arterial.env as it, gymnasium; "
        "env = it.StreetEnv('scenarios/street.json', 'scenarios/street.volumes.toml'); "
        "print(isinstance(env, gymnasium.Env), env.action_space.given, env.observation_space.given[2])"
    )
    names = os.environ | {"PYTHONPATH": f"{tmp_path}:{TOP / 'tools'}"}
    words = [sys.executable, "-B", "-c", asked]
    said = subprocess.run(words, cwd=TOP, env=names, capture_output=True, text=True, timeout=60)
    assert said.stdout == "True ([2, 2, 2, 2],) (4, 3, 16)\n", said.stderr


WRONG = [
    {"actions": "colours"}, {"reward": "speed"}, {"reward": {}}, {"sample_s": 0.3}, {"step_s": 0.7}, {"step_s": 0},
    {"seconds": 0.5}, {"patterns": []}, {"patterns": [256]}, {"volumes": 5}, {"volumes": {"cabinet": []}},
    {"volumes": None}, {"sumo": ("a.sumocfg", "b.toml")}, {"volumes": None, "sumo": "a.sumocfg"},
    {"volumes": "/nowhere.toml"}, {"scenario": 7}, {"scenario": {}}, {"volumes": {"cabinet": [{"number": 2}]}},
]  # fmt: skip


@pytest.mark.parametrize("given", WRONG)
def test_an_environment_of_wrong_words_is_refused(given):
    with pytest.raises(arterial.Error) as fault:
        env(**given)
    assert str(fault.value)


def test_an_action_that_isnt_in_the_space_is_refused_and_the_episode_goes_on():
    with env() as it:
        it.reset(seed=1)
        for action in ([5], [0, 0], [-1], 0, [0.5], "a", None):
            with pytest.raises(arterial.Refused):
                it.step(action)
        assert it.step([1])[4]["time_s"] == 1.0


def test_a_step_after_the_end_and_before_the_beginning_is_refused():
    it = env(seconds=2.0)
    with pytest.raises(arterial.Over):
        it.step([0])
    episode(it, lambda seen: [0])
    with pytest.raises(arterial.Over, match="reset"):
        it.step([0])
    with pytest.raises(arterial.Error, match="keep_trace"):
        it.trace
    it.close()
    assert len(episode(it, lambda seen: [0])) == 3


def test_a_program_that_dies_ends_the_episode(script):
    script(OPENING + "read line; read line\nexit 6\n")
    it = env()
    it.reset(seed=1)
    with pytest.raises(arterial.ProgramDied):
        for _ in range(3):
            it.step([0])
    with pytest.raises(arterial.Over):
        it.step([0])


def test_an_environment_that_is_forgotten_leaves_no_process(script):
    script(OPENING + "sleep 60 & wait")
    it = env()
    it.reset(seed=1)
    del it
    gc.collect()


def test_environments_in_processes_give_what_one_gives():
    with arterial.env.VectorEnv(lambda: env(seconds=3.0), 2) as both, env(seconds=3.0) as one, env(seconds=3.0) as two:
        first, _ = both.reset(seed=8)
        assert (first == numpy.stack([one.reset(seed=8)[0], two.reset(seed=9)[0]])).all()
        for _ in range(2):
            seen, rewards, _, ended, infos = both.step([[0], [1]])
            alone = [one.step([0]), two.step([1])]
            assert (seen == numpy.stack([it[0] for it in alone])).all() and rewards.tolist() == [it[1] for it in alone]
        _, _, terminated, ended, infos = both.step([[0], [1]])
        assert ended.all() and not terminated.any() and infos[0]["final_info"]["time_s"] == 3.0
        assert infos[0]["time_s"] == 0.0


def test_an_exception_in_one_process_is_raised_here_and_ends_all():
    both = arterial.env.VectorEnv(lambda: env(seconds=3.0), 2)
    pids = [it.pid for it in both._processes]
    both.reset(seed=1)
    with pytest.raises(arterial.Refused, match="isn't in"):
        both.step([[0], [9]])
    assert not any(os.path.exists(f"/proc/{it}") for it in pids)
    with pytest.raises(arterial.Over):
        both.reset()
    with pytest.raises(arterial.Refused, match="volumes"):
        arterial.env.VectorEnv(lambda: env(volumes=5), 2)
    with pytest.raises(arterial.Refused, match="count"):
        arterial.env.VectorEnv(env, 0)


def test_a_process_that_is_killed_is_reported():
    both = arterial.env.VectorEnv(lambda: env(seconds=3.0), 2)
    pid = both._processes[1].pid
    os.kill(pid, signal.SIGKILL)
    with pytest.raises(arterial.Error, match="has ended"):
        both.reset(seed=1)
        both.step([[0], [0]])
    assert is_gone(pid)


@pytest.mark.skipif(shutil.which("sumo") is None, reason="SUMO is missing: apt-get install -y sumo sumo-tools")
def test_vehicles_of_sumo_wait_and_arrive_under_the_same_interface():
    """The street of scenarios/sumo: vehicles arrive within three minutes, and a second SUMO is refused."""
    street = TOP / "scenarios/sumo/street"
    given = {"sumo": (street / "cars.sumocfg", street / "street.map.toml"), "seconds": 180.0}
    with arterial.env.StreetEnv(street / "free.json", keep_trace=True, **given) as it:
        rows = episode(it, lambda seen: [it.patterns.index(0)] * 4)
        assert rows[0][0].shape == (4, 3, 16) and len(rows) == 181
        assert sum(row[2]["passed"] for row in rows) > 10 and sum(row[1] for row in rows) < -100
        assert max(row[0][:, 0].max() for row in rows) >= 2
        assert arterial.check(it.trace)
        it.reset(seed=2)
        with arterial.env.StreetEnv(street / "free.json", **given) as other:
            with pytest.raises(arterial.Refused, match="SUMO runs once"):
                other.reset(seed=1)
    with pytest.raises(arterial.Error, match="nowhere"):
        arterial.env.StreetEnv(street / "free.json", sumo=("nowhere.sumocfg", street / "street.map.toml"))
