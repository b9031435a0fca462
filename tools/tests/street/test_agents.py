"""Each cabinet of a street answers at its own port what a run answers, whatever comes, until the street is to end."""

import asyncio
import json
import random
import signal
import socket
import subprocess
import sys
import time

import pytest
from streettools.cabinet.messages import GET, SET, message, reply_of
from streettools.shared.program import trace_of
from streettools.street import session
from streettools.street.pace import Pace
from streettools.street.street import Hearer, Street

from .conftest import CLOCK, CONTROL, COUNTER, PROGRAM, SECONDS, TOP, VERSION, free_ports

TWO = {"version": 1, "rounds": 9, "ticks": 5, "cabinets": [{"clock": 100}, {"clock": 200, "pattern": 1}]}


def written(folder, scenario):
    """Returns the file of a scenario, over several lines."""
    file = folder / "given.json"
    file.write_text(json.dumps(scenario, indent=1))
    return file


def get(number, *names):
    """Returns a Get."""
    return message(GET, number, [(name, None) for name in names])


def value_in(reply, place=0):
    """Returns a number in a reply."""
    return int.from_bytes(reply_of(reply).bindings[place][2], "big", signed=True)


def asked(dice, number):
    """Returns a message that is answered."""
    made = [
        get(number, COUNTER, CLOCK, VERSION),
        message(SET, number, [(CONTROL, dice.choice([0, 1, 254, 255, 48]))]),
        message(SET, number, [(CLOCK, dice.randrange(864_500))]),
    ]
    return dice.choice(made)


def drawn(dice, number):
    """Returns a message of some kind, mostly a damaged one or one of another community."""
    octets = bytearray(dice.choice([asked(dice, number), message(GET, number, [(CLOCK, None)], b"private")]))
    if dice.random() < 0.6:
        octets[dice.randrange(len(octets))] ^= 1 << dice.randrange(8)
    return bytes(octets)


def test_an_answer_is_that_of_the_run_of_all_that_came(street, tmp_path):
    dice = random.Random(58)
    came = [(dice.choice([1, 2]), asked(dice, number)) for number in range(60)]
    frames = [
        {"round": 1 + 2 * at, "cabinet": cabinet, "stream": "priority", "hex": octets.hex()}
        for at, (cabinet, octets) in enumerate(came)
    ]
    trace = trace_of(PROGRAM, json.dumps(TWO | {"rounds": 120, "frames": frames}).encode()).decode()
    due = [line.split(" ")[3] for line in trace.splitlines() if line.startswith("A ")]
    words = ("--speed", "step", "--ticks-per-message", 10)
    running = street("--scenario", written(tmp_path, TWO), "--ports", free_ports(2), *words)
    assert [running.ask(octets, cabinet).hex() for cabinet, octets in came] == due
    assert running.end() == 0


def test_time_goes_by_the_wall_ten_times_as_fast(street, tmp_path):
    running = street("--scenario", written(tmp_path, TWO), "--ports", free_ports(2), "--speed", 10)
    seen = []
    for wait in (1, 3):
        time.sleep(wait)
        before = time.monotonic()
        seen.append((before, value_in(running.ask(get(1, CLOCK), 2)), time.monotonic()))
    (early, first, done), (begun, second, late) = seen
    assert 100 * (begun - done) - 100 <= second - first <= 100 * (late - early) + 100


@pytest.mark.parametrize("number", [signal.SIGINT, signal.SIGTERM])
def test_it_ends_as_it_is_told(street, number):
    running = street("--ports", 0)
    assert running.said[0].startswith("street: 1 cabinet answers at 127.0.0.1:")
    assert running.end(number) == 0
    assert len(running.said) == 1


def test_each_cabinet_may_have_an_address_of_its_own(street, tmp_path):
    port = free_ports(1)
    running = street(
        "--scenario",
        written(tmp_path, TWO),
        "--addresses",
        "127.0.1.1+",
        "--ports",
        port,
        "--speed",
        "step",
        "--ticks-per-message",
        0,
    )
    for cabinet, clock in ((1, 100), (2, 200)):
        running.socket.sendto(get(5, CLOCK), (f"127.0.1.{cabinet}", port))
        reply, place = running.socket.recvfrom(65_536)
        assert (value_in(reply), place) == (clock, (f"127.0.1.{cabinet}", port))


def test_random_and_long_datagrams_leave_it_answering(street):
    dice, running = random.Random(2), street("--ports", 0, "--speed", "step", "--ticks-per-message", 0)
    for number in range(300):
        running.send(
            dice.choice([b"", bytes(65_507), bytes(1473), dice.randbytes(dice.randrange(200)), drawn(dice, number)])
        )
        if number % 50 == 49:
            running.send(get(70_000 + number, VERSION))
            while reply_of(running.socket.recv(65_536)).number != 70_000 + number:
                pass
    assert running.end() == 0


def test_messages_that_come_together_are_answered_in_their_order(street):
    running = street("--ports", 0, "--speed", 5)
    for number in range(1, 41):
        running.send(get(number, VERSION))
    assert [reply_of(running.socket.recv(65_536)).number for _ in range(40)] == [*range(1, 41)]


def refused(*words):
    """Returns how the command refuses some words: its exit status and its last line."""
    command = [sys.executable, "-B", TOP / "tools/streettools", "street", "--program", PROGRAM, *map(str, words)]
    ran = subprocess.run(command, capture_output=True, text=True, timeout=SECONDS, cwd=TOP)
    assert ran.stdout == ""
    return ran.returncode, ran.stderr.splitlines()[-1]


@pytest.mark.parametrize("speed", ["-1", "-0.5", "0.009", "1001", "1e400", "1e-400x", "inf", "-inf", "nan", "", "fast"])
def test_a_speed_that_isnt_one_is_refused_in_one_line(speed):
    command = [sys.executable, "-B", TOP / "tools/streettools", "street", f"--speed={speed}"]
    ran = subprocess.run(command, capture_output=True, text=True, timeout=SECONDS, cwd=TOP)
    line = f"argument --speed: {speed!r} is not step, 0, nor from 0.01 to 1000; --help lists the options"
    assert (ran.returncode, ran.stdout, ran.stderr) == (2, "", f"street: {line}\n")


def test_a_street_that_stands_until_its_panel_starts_it_answers(street):
    pytest.importorskip("aiohttp")
    running = street("--ports", 0, "--speed", 0, "--panel", 0)
    first = reply_of(running.ask(get(1, CLOCK))).bindings
    time.sleep(0.4)
    assert reply_of(running.ask(get(2, CLOCK))).bindings == first


def test_what_is_wrong_is_told(tmp_path):
    wrong = written(tmp_path, TWO | {"speed": 45})
    assert refused("--scenario", wrong) == (2, "street: scenario: field speed")
    wrong.write_text("{")
    assert refused("--scenario", wrong) == (2, "street: scenario: not JSON")
    assert refused("--scenario", tmp_path / "none.json") == (
        1,
        f"street: {tmp_path / 'none.json'}: No such file or directory",
    )
    assert refused("--record", tmp_path) == (1, f"street: {tmp_path}: Is a directory")
    assert refused("--addresses", "10.0.0.1+")[0] == 2
    assert refused("--speed", "0") == (2, "street: --speed 0 needs --panel, which starts the time")
    assert refused("--ticks-per-message", 5) == (2, "street: --ticks-per-message needs --speed step")
    assert refused("--resume") == (2, "street: --resume without FILE goes on with the record of --record")
    assert refused("--program", tmp_path / "none") == (125, f"street: no program at {tmp_path / 'none'}")
    with socket.socket(socket.AF_INET, socket.SOCK_DGRAM) as other:
        other.bind(("127.0.0.1", 0))
        port = other.getsockname()[1]
        assert refused("--ports", port) == (1, f"street: port {port}: Address already in use")


def test_an_address_that_others_can_reach_is_warned_of(street):
    running = street("--ports", 0, "--bind", "0.0.0.0")
    assert running.told("warning: anyone who reaches 0.0.0.0 can read and change these cabinets")


def test_a_program_that_dies_ends_it_with_its_status_and_its_line(street, tmp_path):
    failing = tmp_path / "failing"
    failing.write_text(
        "#!/usr/bin/python3\nimport os, subprocess, sys, threading\n"
        f"ran = subprocess.Popen(['{PROGRAM}', *sys.argv[1:]], stdin=0)\n"
        "try:\n    status = ran.wait(2)\nexcept subprocess.TimeoutExpired:\n"
        "    ran.kill()\n    ran.wait()\n    sys.exit('out of memory')\nsys.exit(status)\n"
    )
    failing.chmod(0o755)
    running = street("--ports", 0, "--program", failing, "--record", tmp_path / "kept.trace")
    assert running.ended() == 1
    assert running.said[-1] == "street: out of memory"
    ran = subprocess.run([PROGRAM, "check"], stdin=(tmp_path / "kept.trace").open("rb"), capture_output=True)
    assert (ran.returncode, ran.stderr) == (0, b"")


def test_a_street_whose_time_stands_answers_for_ever(monkeypatch):
    """A round takes 100,000 messages and inputs. Before that it is ended; here at 50, by the 5 ticks of a round."""
    monkeypatch.setattr(session, "MOST_OF_A_ROUND", 50)
    told = []

    class Hears(Hearer):
        def ended_round(self, ticks):
            told.append(ticks)

    async def clocks():
        made = Street(str(PROGRAM), TWO, Pace(0.0), [Hears()])
        await made.open()
        try:
            return [value_in(await made.datagram(1, get(number, CLOCK))) for number in range(120)]
        finally:
            await made.close()

    assert asyncio.run(clocks()) == [100] * 50 + [105] * 50 + [110] * 20
    assert told == [5, 5]
