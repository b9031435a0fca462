"""A device under load: pollers, damaged messages, a bad line. Its answers, and whether its plan stays the same."""

import pytest
from streettools.conform import hostile, load
from streettools.shared import ber, oids, snmp

from .conftest import Device, reported
from .relays import Relay, as_it_is, with_value

PACED = ("--as", "ntcip1202", "--speed", 1, "--ports", 0)
BAD = 'seed = 3\n[[line]]\nloss = 10\ndelay = 20\njitter = 10\nrepeat = 5\ndamage = 5\n'
OWN = '[[test]]\nname = "rest"\nlasts = 1\n'


@pytest.fixture
def own(tmp_path):
    """A short test, and a bad line."""
    (tmp_path / "own.toml").write_text(OWN)
    (tmp_path / "bad.toml").write_text(BAD)
    return tmp_path


def test_the_street_keeps_its_plan_under_load(own):
    words = (own / "own.toml", "--load", 20, "--load-time", 3, "--line", own / "bad.toml")
    with Device(*PACED) as device:
        report, status = reported(device.where, *words, folder=own, speed=1)
    found = report["load"]
    assert status == 0 and found["alive"] and found["changed"] == [] and found["wrong"] == 0
    assert found["hostile"] > 100 and found["polls"] > 100
    # a tenth is lost on each way, and some of the rest is damaged
    assert 0.4 * found["polls"] < found["answers"] < 0.95 * found["polls"]


def test_a_plan_that_changes_without_a_download_is_found(own):
    """After the first polls of the load its minimum green of phase 2 is another."""
    green, polls = oids.object_of(("phase", 2, 4)), []

    def change(number, asked, reply):
        polls.append([it.arcs for it in asked.bindings] == load.POLLED)
        return as_it_is(with_value(reply, green, lambda seconds: seconds + 1) if sum(polls) > 30 else reply)

    with Device(*PACED) as device, Relay(device.port, change) as relay:
        report, status = reported(relay.where, own / "own.toml", "--load", 3, "--load-time", 2, folder=own, speed=1)
    assert (status, report["load"]["changed"]) == (2, ["phaseMinimumGreen.2"])


def test_no_hostile_message_can_be_a_set():
    several = hostile.hostile_messages(b"public", 400)
    assert len(several) > 500
    for octets in several:
        try:
            assert snmp.message_of(octets).kind != snmp.SET
        except ber.Malformed:
            pass
        assert not hostile.may_set(octets)
