"""Devices that don't answer, or answer late, wrongly or twice; that restart, have other phases or refuse a Set: one
line each, and the other tests are done."""

import json
import random

import pytest
from streettools.cabinet.messages import GET, message, reply_of
from streettools.shared import oids, snmp
from streettools.shared.snmp import SET

from .conftest import PROGRAM, STEP, Device, conform, reported
from .relays import UP_TIME, Relay, as_it_is, is_poll, with_value

FIRST, SECOND = "start-up-all-red", "start-up-with-walk"
ONE = ("--only", FIRST)
BOTH = (*ONE, "--only", SECOND)


def result(report, name=FIRST):
    """Returns the result of a test."""
    return next(it for it in report["tests"] if it["name"] == name)


@pytest.fixture
def relayed(device, tmp_path):
    """Reports of a device behind a relay; returns the report, the status and the relay."""

    def run(change, *words):
        with Relay(device.port, change) as relay:
            return *reported(relay.where, *(words or ONE), folder=tmp_path), relay

    return run


def test_a_device_that_does_not_answer_is_one_line(device):
    with Relay(device.port, answers=False) as relay:
        done = conform(relay.where, *ONE)
    assert (done.returncode, done.stderr.count("\n")) == (2, 1)
    assert "no answer in 3 attempts; check the port and the community" in done.stderr


def test_a_device_that_stops_answering_cannot_be_told(relayed):
    def change(number, asked, reply):
        return [] if is_poll(asked) and change.polls > 60 else as_it_is(reply)

    def counted(number, asked, reply):
        change.polls += is_poll(asked)
        return change(number, asked, reply)

    change.polls = 0
    report, status, _ = relayed(counted, *BOTH, "--patience", 0.2)
    assert status == 0
    outcomes = [(it["outcome"], it["words"]) for it in report["tests"]]
    assert all(outcome == "can't tell" and len(words) == 1 for outcome, words in outcomes), outcomes


def test_a_transaction_of_somebody_else_is_left_open(device, tmp_path):
    """Another manager has opened one (state 2) before the tests: no test is done, and the device isn't changed."""

    def state(*pairs):
        reply = device.ask(message(SET if pairs else GET, 7, list(pairs) or [(oids.TRANSACTION, None)]))
        return reply_of(reply).bindings[0][2]

    assert state((oids.TRANSACTION, 2)) == b"\2"
    report, status = reported(device.where, *BOTH, folder=tmp_path)
    assert status == 0 and {it["outcome"] for it in report["tests"]} == {"can't tell"}
    assert all("a transaction is open on the device" in it["words"][0] for it in report["tests"])
    assert state() == b"\2"


def test_answers_that_arrive_late_are_counted(relayed):
    def change(number, asked, reply):
        return [(0.3 if is_poll(asked) and number % 40 == 0 else 0, snmp.octets_of(reply))]

    report, status, _ = relayed(change, *ONE, "--patience", 0.15)
    assert report["answers"]["late"] > 0 and result(report)["outcome"] in ("pass", "can't tell")
    assert status == 0


def test_answers_that_are_not_messages_are_counted_and_ignored(relayed):
    report, status, _ = relayed(lambda number, asked, reply: [(0, b"\x30\x03\x02\x01"), *as_it_is(reply)])
    assert result(report)["outcome"] == "pass" and status == 0
    assert report["answers"]["malformed"] > 100


def test_octets_at_random_are_counted_and_ignored(relayed):
    dice = random.Random(7)

    def change(number, asked, reply):
        octets = bytearray(snmp.octets_of(reply))
        octets[dice.randrange(len(octets))] ^= 1 << dice.randrange(8)
        cut = bytes(octets[: dice.randrange(len(octets))])
        return [(0, dice.randbytes(dice.randrange(1, 200))), (0, cut), *as_it_is(reply)]

    report, status, _ = relayed(change)
    assert result(report)["outcome"] == "pass" and status == 0
    assert report["answers"]["malformed"] > 200


def test_answers_that_lack_an_object_are_no_samples(relayed):
    def change(number, asked, reply):
        return as_it_is(reply._replace(bindings=reply.bindings[:3]) if is_poll(asked) and number > 400 else reply)

    report, _, _ = relayed(change)
    assert result(report)["outcome"] == "can't tell" and len(result(report)["words"]) == 1


def test_a_time_that_jumps_cannot_be_told(relayed):
    polls = []

    def change(number, asked, reply):
        polls.append(is_poll(asked))
        return as_it_is(with_value(reply, UP_TIME, lambda it: it + 20_000) if sum(polls) > 100 else reply)

    report, _, _ = relayed(change)
    assert result(report)["words"] == ["the device's sysUpTime jumps by 200.1 s between two polls"]


def test_second_answers_are_counted_and_ignored(relayed):
    report, status, _ = relayed(lambda number, asked, reply: as_it_is(reply) * 2)
    assert result(report)["outcome"] == "pass" and status == 0
    assert report["answers"]["twice"] > 100


def test_answers_to_other_questions_are_counted_and_ignored(relayed):
    def change(number, asked, reply):
        return as_it_is(reply._replace(number=7)) + as_it_is(reply)

    report, _, _ = relayed(change)
    assert result(report)["outcome"] == "pass" and report["answers"]["stray"] > 100


def test_a_device_that_restarts_cannot_be_told_and_the_next_test_is_done(relayed):
    """Its sysUpTime begins again in the first test."""
    polls = []

    def change(number, asked, reply):
        polls.append(is_poll(asked))
        if sum(polls) > 100:
            reply = with_value(reply, UP_TIME, lambda hundredths: max(0, hundredths - 900))
        return as_it_is(reply)

    report, _, _ = relayed(change, *BOTH)
    assert result(report)["words"] == ["the device restarted: its sysUpTime went back"]
    assert result(report, SECOND)["outcome"] == "pass"


def test_a_colour_that_is_wrong_for_one_poll_is_found(relayed):
    greens = oids.STATUS_GROUP + (4, 1)

    def change(number, asked, reply):
        change.count += is_poll(asked)
        wrong = change.count == 180 and is_poll(asked)
        return as_it_is(with_value(reply, greens, lambda bits: bits | 8) if wrong else reply)

    change.count = 0
    report, status, _ = relayed(change)
    assert (result(report)["outcome"], status) == ("differ", 2)
    assert "phase 4 turns to contradictory bits" in result(report)["words"][0]


def test_a_refused_set_is_one_line_and_the_rest_is_done(relayed):
    """The device has no preempts to call; the preempts of its tables stay."""

    def change(number, asked, reply):
        if asked.kind == SET and asked.bindings[0].arcs[:-1] == oids.PREEMPT_STATE:
            reply = reply._replace(first=2, second=1)
        return as_it_is(reply)

    report, status, _ = relayed(change, "--only", "preempt-delay", *ONE)
    words = result(report, "preempt-delay")
    assert words["outcome"] == "can't tell"
    assert words["words"] == ["the device refuses to set preemptControlState.1 (noSuchName)"]
    assert (result(report)["outcome"], status) == ("pass", 0)


def test_a_pattern_that_is_refused_although_the_tables_define_it_differs(relayed):
    def change(number, asked, reply):
        if asked.kind == SET and asked.bindings[0] == snmp.Binding(oids.CONTROL, asked.bindings[0].value):
            if asked.bindings[0].value.content == b"\x01":
                reply = reply._replace(first=3, second=1)
        return as_it_is(reply)

    report, status, _ = relayed(change, "--only", "coordination-yield")
    it = result(report, "coordination-yield")
    assert (it["outcome"], status) == ("differ", 2)
    assert "the device refuses 'pattern 1 at 0 s' (badValue)" in it["words"]


def test_a_device_with_other_phases_does_the_tests_of_its_phases(tmp_path):
    cells = [
        *(["phase", it, 21, 0] for it in (1, 3, 5, 7)),
        *(["phase", it, 23, f"{other:02}"] for it, other in ((2, 6), (6, 2), (4, 8), (8, 4))),
        ["sequence", 1, 1, "0204"], ["sequence", 1, 2, "0608"],
        *(["split", 1, it, 3, 45] for it in (2, 4, 6, 8)),
    ]  # fmt: skip
    path = tmp_path / "four.json"
    path.write_text(json.dumps({"version": 1, "rounds": 9, "ticks": 10, "cabinets": [{"cells": cells}]}))
    with Device("--scenario", path, *STEP, program=PROGRAM) as device:
        report, status = reported(device.where, "--only", "barrier-order", "--only", "dual-entry", folder=tmp_path)
    assert result(report, "dual-entry")["outcome"] == "pass"
    it = result(report, "barrier-order")
    assert it["outcome"] == "can't tell" and "phase 1 isn't enabled" in it["words"][0]
    assert status == 0


def test_can_t_tell_is_a_failure_where_it_is_asked_for(device, tmp_path):
    script = tmp_path / "own.toml"
    script.write_text('[[test]]\nname = "of-nine"\nsteps = ["call 9 at 8 s"]\nlasts = 10\n')
    done = conform(device.where, script, "--speed", "step", "--strict")
    assert done.returncode == 2
    assert "the device can't do this test: phase 9 isn't enabled" in done.stdout


# what is set


def test_a_dry_run_lists_every_set_and_sends_none(device):
    with Relay(device.port) as relay:
        done = conform(relay.where, "--only", "preempt-delay", "--dry-run")
        assert relay.sets() == []
    lines = [it.strip() for it in done.stdout.splitlines()]
    assert done.returncode == 0
    for line in ("systemPatternControl.0 = 255", "preemptControlState.1 = 1", "preemptDelay.1 = 6",
                 "dbCreateTransaction.0 = 3", "systemPatternControl.0 = 254"):  # fmt: skip
        assert line in lines, line


def test_nothing_is_set_but_what_the_dry_run_lists(device, tmp_path):
    with Relay(device.port) as relay:
        planned = conform(relay.where, "--only", "staged-download-in-force", "--dry-run").stdout
        reported(relay.where, "--only", "staged-download-in-force", folder=tmp_path)
        done = relay.sets()
    from streettools.conform.objects import name_of

    lines = [it.strip() for it in planned.splitlines()]
    assert len(done) > 20
    for name, value in done:
        assert f"{name_of(name)} = {value}" in lines, (name_of(name), value)


def test_the_device_has_its_own_tables_and_command_again(device, tmp_path):
    def walked():
        from streettools.conform.reading import walked as read

        objects = read(("127.0.0.1", device.port), "public")
        return {name: value for name, value in objects.items() if name != oids.CLOCK}

    before = walked()
    reported(device.where, "--only", "staged-download-in-force", "--only", "minimum-green", folder=tmp_path)
    assert walked() == before


def test_a_device_elsewhere_is_refused_without_its_words():
    assert "--anywhere lets other hosts be asked" in conform("192.0.2.7:161").stderr
    done = conform("192.0.2.7:161", "--anywhere")
    assert done.returncode == 2 and "--dry-run lists what would be set, --yes allows it" in done.stderr


@pytest.mark.parametrize("word", ["here", "127.0.0.1", "127.0.0.1:0", "127.0.0.1:70000", ":161"])
def test_an_address_that_is_none_is_one_line(word):
    done = conform(word)
    assert (done.returncode, done.stderr.count("\n")) == (2, 1)
