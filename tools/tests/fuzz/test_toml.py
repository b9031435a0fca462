"""Studies, maps, comparisons, volumes and networks that are damaged: `sweep` and `cosim` take them or refuse them in
one line."""

import os
import pathlib
import tomllib

from hypothesis import given
from streettools.cosim import network
from streettools.cosim.comparing import jobs_of, read_comparison
from streettools.cosim.drive import read_config
from streettools.cosim.mapping import read_map
from streettools.cosim.queues.volumes import volumes_of
from streettools.shared.fault import Fault
from streettools.shared.given import content_of, refuse_strange, toml_of
from streettools.plan.names import Names
from streettools.sweep.best.goal import Goal
from streettools.sweep.best.plans import Rules, Unfit
from streettools.sweep.best.space import Space
from streettools.sweep.best.wanted import wanted_of
from streettools.sweep.prepared import prepared
from streettools.sweep.study import study_of

from .conftest import TOP
from .damage import damaged, damaged_values, tried

FOLDER = TOP / "scenarios/studies"
STUDY = """\
scenario = "../street.json"
seeds = [1, 2]
from = 10
measures = ["services", "green_mean each phase", "wait_mean cabinet 2 phase 4", "band_outbound"]
[[vary]]
name = "offset"
cell = ["pattern", 1, 3]
cabinet = [1, 2]
times = 2
plus = 1
range = {from = 0, to = 90, step = 5}
[[vary]]
name = "kind"
[[vary.option]]
name = "one"
scenario = "../two-cabinets.json"
[[vary.option.put]]
path = "cabinets[0].clock"
value = 5
[[vary]]
name = "drift"
random = {from = 12000, to = 13000}
path = "cabinets[0].gain"
[traffic]
factor = 1.5
[[traffic.flow]]
cabinet = [1, 2]
phase = 4
vehicles = 400
[line]
lose = 0.1
ways = ["down"]
[street]
travel = [20, 20.5]
pattern = 1
"""
STUDIES = [STUDY.encode(), *(path.read_bytes() for path in sorted(FOLDER.glob("*.toml")))]
SEARCHES = [(FOLDER / "best.toml").read_bytes()]
VOLUMES = [path.read_bytes() for path in sorted((TOP / "scenarios").glob("*.volumes.toml"))]
SUMO_FOLDER = TOP / "scenarios/sumo"
SUMO = sorted(SUMO_FOLDER.rglob("*.toml"))
MAPS = [path.read_bytes() for path in SUMO if path.name.endswith(".map.toml")]
NETWORKS = [path.read_bytes() for path in SUMO_FOLDER.rglob("tee.net.xml")]
CONFIGS = [path.read_bytes() for path in sorted(SUMO_FOLDER.rglob("*.sumocfg"))]
COMPARISONS = [path.read_bytes() for path in SUMO if not path.name.endswith(".map.toml")]


def fetched(name: str) -> bytes:
    """Returns a file of the examples, which may be named in any way; none of another folder is read."""
    path = os.path.normpath(FOLDER / name.replace("\0", ""))
    if not path.startswith(str(TOP / "scenarios")):
        raise Fault(f"{name}: no such file")
    return content_of(pathlib.Path(path))


def is_toml(document: object) -> bool:
    """Tells whether a value is one that a file in TOML may have."""
    try:
        refuse_strange(document)
    except ValueError:
        return False
    return isinstance(document, dict)


def made_ready(document: dict) -> None:
    """Reads a study, and makes the scenarios of its first and its last variant."""
    try:
        study_of(document, fetched)
        ready = prepared(document, fetched, TOP / "model/program")
    except Fault as fault:
        assert str(fault)
        return
    runner = ready.runner(False, 1)
    for index in {0, ready.variants.count() - 1}:
        try:
            runner.made(ready.variants.at(index))
        except Fault as fault:
            assert str(fault)


def searched(document: dict) -> None:
    """Reads a study with a search, and repairs or refuses its first and its last plan."""
    try:
        wanted, rest = wanted_of(document, fetched)
        ready = prepared(rest, fetched, TOP / "model/program")
        space, rules = Space(ready), Rules(ready.builder, Names())
        Goal(wanted, ready)
        space.moves()
        plans = [tuple(0 for _ in space.counts), tuple(it - 1 for it in space.counts)]
        plans.append(space.nearest(ready.builder.read(wanted.present, None)))
    except Fault as fault:
        assert str(fault)
        return
    for plan in plans:
        try:
            rules.kept(space.variant(plan))
        except Unfit as why:
            assert str(why)


def read_of(read, content: bytes) -> None:
    """Reads a file in TOML."""
    try:
        read(toml_of(content, "x.toml"))
    except Fault as fault:
        assert str(fault)


@tried(400)
@given(damaged(STUDIES))
def test_damaged_studies(content):
    read_of(made_ready, content)


@tried(400)
@given(damaged_values([tomllib.loads(it.decode()) for it in STUDIES]))
def test_studies_with_other_values(document):
    if is_toml(document):
        made_ready(document)


@tried(200)
@given(damaged(SEARCHES))
def test_damaged_studies_with_a_search(content):
    read_of(searched, content)


@tried(200)
@given(damaged_values([tomllib.loads(it.decode()) for it in SEARCHES]))
def test_studies_with_a_search_with_other_values(document):
    if is_toml(document):
        searched(document)


@tried(500)
@given(damaged(VOLUMES))
def test_damaged_volumes(content):
    read_of(volumes_of, content)


@tried(500)
@given(damaged_values([tomllib.loads(it.decode()) for it in VOLUMES]))
def test_volumes_with_other_values(document):
    try:
        if is_toml(document):
            volumes_of(document)
    except Fault as fault:
        assert str(fault)


@tried(500)
@given(damaged(MAPS))
def test_damaged_maps(tmp_path_factory, content):
    path = tmp_path_factory.getbasetemp() / "map.toml"
    path.write_bytes(content)
    try:
        read_map(path)
    except Fault as fault:
        assert str(fault)


@tried(500)
@given(damaged(COMPARISONS))
def test_damaged_comparisons(tmp_path_factory, content):
    folder = tmp_path_factory.getbasetemp()
    (folder / "compare.toml").write_bytes(content)
    try:
        jobs_of(read_comparison(folder / "compare.toml"), None, folder / "out", False)
    except Fault as fault:
        assert str(fault)


@tried(150)
@given(damaged(NETWORKS))
def test_damaged_networks(tmp_path_factory, content):
    path = tmp_path_factory.getbasetemp() / "x.net.xml"
    path.write_bytes(content)
    try:
        network.read.__wrapped__(path)
    except Fault as fault:
        assert str(fault) and "\n" not in str(fault)


@tried(300)
@given(damaged(CONFIGS))
def test_damaged_configurations_of_sumo(tmp_path_factory, content):
    path = tmp_path_factory.getbasetemp() / "x.sumocfg"
    path.write_bytes(content)
    try:
        read_config(path)
    except Fault as fault:
        assert str(fault) and "\n" not in str(fault)
