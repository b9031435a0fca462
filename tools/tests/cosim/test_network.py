"""What is read of a network, beside what SUMO itself says of it: its default programs, which its netconvert makes."""

import gzip
import itertools

import pytest

from streettools.cosim import network
from streettools.shared.fault import Fault

from .conftest import STREET, TEE

NETWORKS = [STREET / "street.net.xml", TEE / "tee.net.xml"]


@pytest.mark.parametrize("path", NETWORKS, ids=lambda it: it.stem)
def test_programs_of_sumo_give_no_two_crossing_paths_way_unless_one_gives_way(path):
    known = network.read(path)
    for signal, program in known.programs.items():
        for stage, (a, b) in itertools.product(program.stages, known.conflicts(signal)):
            if stage.state[a.index] in "Gg" and stage.state[b.index] in "Gg":
                assert known.gives_way(a, b) or known.gives_way(b, a), (signal, stage, a, b)


@pytest.mark.parametrize("path", NETWORKS, ids=lambda it: it.stem)
def test_links_that_are_never_on_together_are_those_that_cross(path):
    """netconvert lets the straight ways of both streets never be green at once; each such pair is found to cross."""
    known = network.read(path)
    for signal, links in known.links.items():
        crossing = {frozenset(pair) for pair in known.conflicts(signal)}
        straight = [it for it in links if it.turn == network.STRAIGHT]
        for a, b in itertools.combinations(straight, 2):
            is_across = round(known.edges[a.approach].heading - known.edges[b.approach].heading) % 180 == 90
            assert (frozenset((a, b)) in crossing) == is_across


def test_a_rail_crossing_is_left_to_sumo():
    assert sorted(network.read(STREET / "street.net.xml").links) == ["c0", "c1", "c2", "c3"]


def test_the_way_over_a_junction_is_that_between_the_stop_lines():
    """The stop lines of e0 and e1 are 280 m apart: an edge and the junction before it."""
    known = network.read(STREET / "street.net.xml")
    assert known.edges["e1"].length + known.inner["e0", "e1"].metres == pytest.approx(280, abs=0.1)


@pytest.mark.parametrize(("before", "after", "line"), [
    (' length="', ' size="', "lane without length"), (' index="', ' place="', "without index"),
    ("<edge id=", "<edge name=", "edge without id"), (' toLane="', ' lane="', "is missing"),
    (' speed="', ' speed="fast', "could not convert"), ("UTF-8", "UTF-99", "unknown encoding"),
])  # fmt: skip
def test_a_network_that_lacks_what_a_network_has_is_refused_in_one_line(tmp_path, before, after, line):
    path = tmp_path / "x.net.xml"
    text = (TEE / "tee.net.xml").read_text()
    assert before in text
    path.write_text(text.replace(before, after))
    with pytest.raises(Fault) as refused:
        network.read(path)
    said = str(refused.value)
    assert said.startswith((f"{path}: no network of SUMO: ", f"{path}: no XML: "))
    assert line in said and "\n" not in said


def test_a_network_that_is_not_compressed_as_its_name_says_is_refused_in_one_line(tmp_path):
    """No file of gzip, one that is cut off, one with a damaged octet."""
    packed = gzip.compress((TEE / "tee.net.xml").read_bytes())
    for octets in (b"<net/>", packed[:-50], packed[:40] + b"\xff\xff" + packed[42:], b""):
        (tmp_path / "x.net.xml.gz").write_bytes(octets)
        with pytest.raises(Fault) as refused:
            network.read.__wrapped__(tmp_path / "x.net.xml.gz")
        assert "\n" not in str(refused.value)
