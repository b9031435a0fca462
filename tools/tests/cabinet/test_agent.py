"""The agent answers what the program answers, whatever comes, until it is told to end or a limit is reached."""

import json
import random
import signal
import socket
import subprocess
import time

import pytest
from streettools.cabinet.messages import GET, GET_NEXT, SET, kind_of, message, reply_of
from streettools.shared import oids
from streettools.shared.program import trace_of

from .conftest import CLOCK, CONTROL, MODEL, PROGRAM, SECONDS, TOP, VERSION

GETS = [
    oids.COUNTER_OF_CYCLE, oids.TARGET, oids.MODE, oids.OUTCOME, (*oids.REQUEST_STATES, 2), CLOCK, VERSION,
    (*oids.STATUS_GROUP, 4, 1), oids.STATUS,
]  # fmt: skip


def set_of(number, *bindings):
    """Returns a Set."""
    return message(SET, number, bindings)


def value_in(reply):
    """Returns the number in a reply's first binding."""
    return int.from_bytes(reply_of(reply).bindings[0][2], "big", signed=True)


def drawn(dice, number, community=b"public"):
    """Returns a message of some kind: a Get, a GetNext, a Set that is good or bad, a step of a download, or a damaged
    one."""
    download = oids.ID, 1 + number // 12
    orders = [
        [(CONTROL, dice.choice([0, 1, 254, 255, 48]))],
        [(CLOCK, dice.randrange(864_500))],
        [(oids.REQUEST, bytes([2, 1, 1, dice.choice([2, 6]), 0, 50, 1, dice.randrange(256)]))],
        [(oids.BEGIN, download[1])],
        [download, (oids.PART, 1), ((*oids.ENTRIES["phase"], 4, 2), dice.randrange(5, 20))],
        [download, (oids.TOTAL, 1)],
        [download, (oids.FINISH, 1)],
    ]
    made = [message(SET, number, order, community) for order in orders]
    made.append(message(GET, number, [(name, None) for name in GETS], community))
    made.append(message(GET_NEXT, number, [(dice.choice(GETS), None)], community))
    octets = bytearray(made[number % 12] if number % 12 < len(made) else dice.choice(made))
    if number % 12 > 9:
        octets[dice.randrange(len(octets))] ^= 1 << dice.randrange(8)
    return bytes(octets)


def replies_due(program, scenario, cabinet, datagrams, ticks):
    """Returns what one run answers to the datagrams: of each round of some ticks the last reply of the third pass."""
    frames = [
        {"round": ticks * at + 1, "cabinet": cabinet, "stream": "priority", "hex": it.hex()}
        for at, it in enumerate(datagrams)
    ]
    rounds = max(scenario["rounds"], frames[-1]["round"])
    whole = scenario | {"rounds": rounds, "frames": scenario.get("frames", []) + frames}
    found, round = {}, 0
    for line in trace_of(program, json.dumps(whole).encode()).decode().splitlines():
        kind, *rest = line.split(" ")
        if kind == "R":
            round = int(rest[0])
        elif kind == "A" and rest[:2] == [str(cabinet), "3"]:
            found[round] = rest[2]
    return [found[frame["round"]] for frame in frames]


@pytest.mark.parametrize("name, cabinet", [("all-014", 1), ("link-003", 2), ("link-021", 1), ("download-004", 2)])
def test_an_answer_is_that_of_the_run_of_all_that_came(program, client, tmp_path, name, cabinet):
    dice = random.Random(name)
    file = TOP / f"vectors/whole/{name}.json"
    scenario = json.loads(file.read_text())
    datagrams = [drawn(dice, number, scenario.get("community", "public").encode()) for number in range(60)]
    due = replies_due(program, scenario, cabinet, datagrams, 2)
    agent = client(
        "--scenario", file, "--cabinet", cabinet, "--ticks-per-message", 2 * scenario["ticks"],
        "--record-scenario", tmp_path / "all.json",
    )
    answers = []
    for datagram, reply in zip(datagrams, due):
        if reply == "-":
            agent.send(datagram)
        else:
            answers.append(agent.ask(datagram).hex())
    assert answers == [reply for reply in due if reply != "-"]
    assert agent.end() == (0, "")
    sets = [reply for datagram, reply in zip(datagrams, due) if reply != "-" and kind_of(datagram) == SET]
    lines = trace_of(program, (tmp_path / "all.json").read_bytes()).decode().splitlines()
    recorded = [line.split(" ")[3] for line in lines if line.startswith(f"A {cabinet} 3 ")]
    assert len(sets) > 20
    assert [reply for reply in recorded if reply in sets] == sets


def test_a_thousand_random_and_damaged_datagrams_leave_it_answering(client):
    dice = random.Random(1)
    agent = client("--ticks-per-message", 0)
    hello = message(GET, 1, [(VERSION, None)])
    for number in range(1000):
        damaged = bytearray(drawn(dice, number))
        for _ in range(dice.randrange(1, 4)):
            damaged[dice.randrange(len(damaged))] = dice.randrange(256)
        agent.send(dice.choice([dice.randbytes(dice.randrange(200)), damaged, damaged[: dice.randrange(len(damaged))]]))
        if number % 50 == 49:
            agent.send(hello)
            while agent.socket.recv(65_536)[-3:] != b"\x02\x01\x00":
                pass
    assert agent.end() == (0, "")


def test_datagrams_without_octets_or_with_too_many_are_met_with_silence(client):
    agent = client("--ticks-per-message", 0)
    agent.send(b"")
    agent.send(message(GET, 1, [(CLOCK, None)]).ljust(1472, b"\0"))
    agent.send(bytes(1473))
    agent.send(bytes(65_507))
    assert reply_of(agent.ask(message(GET, 7, [(CLOCK, None)]))).number == 7
    assert agent.end() == (0, "")


def test_messages_of_one_round_keep_their_order(client):
    agent = client("--ticks-per-message", 0)
    for pattern in (1, 255, 254):
        agent.ask(set_of(pattern, (CONTROL, pattern)))
        assert value_in(agent.ask(message(GET, 9, [(CONTROL, None)]))) == pattern


def test_time_goes_by_the_wall(client, tmp_path):
    scenario = tmp_path / "tenths.json"
    scenario.write_text('{"version":1,"rounds":1,"ticks":1,"cabinets":[{"clock":5000}]}')
    agent = client("--scenario", scenario)
    seen = []
    for wait in (0, 3):
        time.sleep(wait)
        before = time.monotonic()
        tick = value_in(agent.ask(message(GET, 1, [(CLOCK, None)])))
        seen.append((before, tick, time.monotonic()))
    (early, first, _), (_, second, late) = seen
    (_, _, done), (begun, _, _) = seen
    assert first >= 5000
    assert 10 * (begun - done) - 1 <= second - first <= 10 * (late - early) + 1


@pytest.mark.parametrize("number", [signal.SIGINT, signal.SIGTERM])
def test_it_ends_as_it_is_told(client, number):
    agent = client()
    assert agent.said.startswith("cabinet: cabinet 1 answers at 127.0.0.1:")
    assert agent.end(number) == (0, "")


FAILING = """#!/usr/bin/python3
import os, subprocess, sys, time
if sys.argv[1:] != ["live"]:
    os.execv("{program}", ["{program}", *sys.argv[1:]])
ran = subprocess.Popen(["{program}", "live"])
while not os.path.exists("{flag}"):
    time.sleep(0.1)
ran.kill()
ran.wait()
print("out of memory", file=sys.stderr)
sys.exit(6)
"""
"""Stands before the program, and ends as where memory is wanting once the flag is there."""


def test_a_program_that_fails_ends_it_with_its_line_and_its_status(program, client, tmp_path):
    failing, flag = tmp_path / "failing", tmp_path / "flag"
    failing.write_text(FAILING.format(program=program, flag=flag))
    failing.chmod(0o755)
    agent = client("--program", failing)
    agent.ask(set_of(1, (CONTROL, 1)))
    flag.touch()
    assert agent.ended() == (6, "cabinet: out of memory\n")


def test_it_ends_where_time_is_over(client):
    if PROGRAM == MODEL:
        pytest.skip("the model keeps all moments, and a day of them takes 2 GB")
    agent = client("--ticks-per-message", 864_000)
    assert reply_of(agent.ask(message(GET, 1, [(CLOCK, None)]))).status == 0
    agent.send(message(GET, 2, [(CLOCK, None)]))
    words = "the session limit is reached (86400 rounds): restart, or use a scenario with longer rounds"
    assert agent.ended() == (3, f"cabinet: {words}\n")


def refused(program, *words):
    """Returns how the command refuses some words: its exit status and its last line."""
    command = [TOP / "cabinet", "--port", "0", "--program", program, *map(str, words)]
    ran = subprocess.run(command, capture_output=True, text=True, timeout=SECONDS)
    assert ran.stdout == ""
    return ran.returncode, ran.stderr.splitlines()[-1]


def test_what_is_wrong_is_told(program, tmp_path):
    scenario = tmp_path / "given.json"
    scenario.write_text('{"version":1,"rounds":1,"ticks":10,"cabinets":[{}],"speed":45}')
    assert refused(program, "--scenario", scenario) == (2, "cabinet: scenario: field speed")
    assert refused(program, "--scenario", tmp_path / "none.json") == (
        1, f"cabinet: {tmp_path / 'none.json'}: No such file or directory"
    )
    assert refused(program, "--cabinet", 2) == (2, "cabinet: the scenario has no cabinet 2: its cabinets are 1 to 1")
    assert refused(program, "--cabinet", 65)[0] == 2
    assert refused(tmp_path / "none") == (125, f"cabinet: no program at {tmp_path / 'none'}")
    with socket.socket(socket.AF_INET, socket.SOCK_DGRAM) as other:
        other.bind(("127.0.0.1", 0))
        port = other.getsockname()[1]
        assert refused(program, "--port", port) == (1, f"cabinet: port {port}: Address already in use")
