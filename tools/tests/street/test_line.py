"""A bad line between managers and cabinets, from a file and a seed, and the messages as a file."""

import json
import socket
import struct
import subprocess
import sys

import pytest
from streettools.cabinet.messages import reply_of
from streettools.shared.fault import Fault
from streettools.street.line import IN, OUT, Copy, Line, Rule, line_of

from .conftest import CLOCK, PROGRAM, SECONDS, TOP, free_ports
from .test_agents import TWO, get, written

MANY = 20_000
NEVER = float("inf")


def line(*rules, seed=5, now=lambda: 0.0):
    """Returns a line whose time stands."""
    return Line([Rule(**it) for it in rules], seed, now)


def passed(of, count=MANY, way=IN, cabinet=1, octets=b"abcdefgh"):
    """Returns the copies of each of so many messages."""
    return [of.passed(cabinet, way, octets) for _ in range(count)]


def test_shares_are_kept_over_many_messages():
    """Standard deviation of a share of 10 % in 20,000: 0.21 %."""
    for name, hit in (("loss", lambda it: it[0].seconds == NEVER), ("repeat", lambda it: len(it) == 2),
                      ("damage", lambda it: it[0].octets != b"abcdefgh"), ("cut", lambda it: len(it[0].octets) < 8),
                      ("reorder", lambda it: it[0].seconds == 0.2)):  # fmt: skip
        share = sum(map(hit, passed(line({name: 10.0})))) / MANY
        assert 0.09 < share < 0.11, name
        assert not any(map(hit, passed(line({name: 0.0}), 100))) and all(map(hit, passed(line({name: 100.0}), 100)))


def test_damage_turns_one_bit_over():
    found = {it[0].octets for it in passed(line({"damage": 100.0}))}
    assert found == {bytes(b ^ (1 << bit if at == place else 0) for at, b in enumerate(b"abcdefgh"))
                     for place in range(8) for bit in range(8)}  # fmt: skip


def test_delay_and_jitter_are_within_their_range():
    times = [1000 * it[0].seconds for it in passed(line({"delay": 100.0, "jitter": 30.0}))]
    assert 70 <= min(times) < 71 and 129 < max(times) <= 130 and 99 < sum(times) / MANY < 101


def test_a_seed_gives_the_same_line_again_and_cabinets_have_lines_of_their_own():
    rule = {"loss": 30.0, "jitter": 50.0, "delay": 50.0}
    first, again = passed(line(rule), 100), passed(line(rule), 100)
    assert first == again
    mixed, others = line(rule), []
    for _ in range(100):
        others += [mixed.passed(2, IN, b"x"), mixed.passed(1, OUT, b"y")]
        assert mixed.passed(1, IN, b"abcdefgh") == first.pop(0)
    assert passed(line(rule, seed=6), 100) != again


def test_a_line_that_is_off_does_nothing_and_a_cabinet_that_hangs_gets_nothing():
    bad, whole = line({"loss": 100}), [Copy(0.0, b"abc", ())]
    assert bad.passed(2, IN, b"abc")[0].words == ("lost",) and not bad.is_perfect()
    bad.is_on = False
    assert bad.passed(2, IN, b"abc") == whole and bad.is_perfect()
    bad.hanging.add(2)
    assert [bad.passed(2, way, b"abc") for way in (IN, OUT)] == 2 * [[Copy(NEVER, b"abc", ("hangs",))]]
    assert bad.passed(1, IN, b"abc") == whole and not bad.is_perfect()


def test_rules_name_cabinets_directions_and_times():
    time = [0.0]
    of = line({"loss": 100.0}, {"cabinets": frozenset([2]), "ways": (OUT,), "silence": ((10.0, 20.0),)},
              now=lambda: time[0])  # fmt: skip
    for now, due in ((9.9, False), (10.0, True), (19.9, True), (20.0, False)):
        time[0] = now
        assert [of.passed(2, OUT, b"x")[0].words == ("silence",), of.passed(2, IN, b"x")[0].words] == [due, ("lost",)]


WRONG = {
    "loss = 1": "loss is not known: seed, line",
    "[[line]]\nloss = 101": "line[0].loss is not a number from 0 to 100",
    "[[line]]\n[[line]]\ndelay = -1": "line[1].delay is not a number from 0 to 60000",
    "[[line]]\nloss = nan": "line[0].loss is not a number from 0 to 100",
    "[[line]]\ncabinets = [3]": "line[0].cabinets is not a list of cabinets, 1 to 2",
    '[[line]]\ndirection = "up"': "line[0].direction is not in, out, both",
    "[[line]]\nsilence = [1, 2]": "line[0].silence is not a list of pairs, as [[10, 20]]",
    "seed = -1": "seed is not a whole number from 0 on",
    "line = 3": "line is not a list of tables: [[line]]",
    "line = [3]": "line[0] is not a table",
    "[[line": "not valid TOML",
}


@pytest.mark.parametrize("text", WRONG)
def test_a_file_that_is_wrong_is_refused_with_the_place(tmp_path, text):
    file = tmp_path / "bad.toml"
    file.write_text(text)
    with pytest.raises(Fault) as raised:
        line_of(file, 2)
    assert str(raised.value).startswith(f"{file}: {WRONG[text]}")


def test_a_street_has_a_bad_line_and_writes_what_it_did(street, tmp_path):
    """Cabinet 1 loses every answer, cabinet 2 repeats each of them."""
    file, messages = tmp_path / "bad.toml", tmp_path / "kept.jsonl"
    file.write_text('seed = 7\n[[line]]\ncabinets = [1]\ndirection = "out"\nloss = 100\n'
                    '[[line]]\ncabinets = [2]\ndirection = "out"\nrepeat = 100\n')  # fmt: skip
    words = ("--ports", free_ports(2), "--speed", "step", "--line", file, "--messages", messages)
    running = street("--scenario", written(tmp_path, TWO), *words)
    running.send(get(1, CLOCK), 1)
    first = running.ask(get(2, CLOCK), 2)
    assert running.socket.recv(2000) == first and reply_of(first).number == 2
    running.socket.settimeout(0.2)
    with pytest.raises(TimeoutError):
        running.socket.recv(2000)
    assert running.end() == 0
    rows = [json.loads(it) for it in messages.read_text().splitlines()]
    peer = f"127.0.0.1:{running.socket.getsockname()[1]}"
    seen = sorted((it["cabinet"], it["way"], it["arrives"], it["line"], it["words"]) for it in rows)
    assert {it["peer"] for it in rows} == {peer} and messages.stat().st_mode & 0o777 == 0o600
    assert [it[:4] for it in seen] == [
        (1, "in", True, []), (1, "out", False, ["lost"]), (2, "in", True, []), (2, "out", True, []),
        (2, "out", True, ["repeated"]),
    ]  # fmt: skip
    assert seen[0][4] == "Get cabinetClock.0" and seen[1][4] == "cabinetClock.0 = 100"
    assert bytes.fromhex(rows[0]["octets"]) == get(1, CLOCK)


def test_messages_as_a_capture_have_the_headers_of_ip_and_udp(street, tmp_path):
    """By RFC 791 and 768; the file by the format of libpcap."""
    file = tmp_path / "kept.pcap"
    running = street("--ports", 0, "--speed", "step", "--messages", file)
    reply = running.ask(get(1, CLOCK))
    assert running.end() == 0
    data = file.read_bytes()
    assert struct.unpack("<IHHiIII", data[:24]) == (0xA1B2C3D4, 2, 4, 0, 0, 65_535, 101)
    at, packets = 24, []
    while at < len(data):
        size, whole = struct.unpack("<8xII", data[at : at + 16])
        assert size == whole
        packets.append(data[at + 16 : at + 16 + size])
        at += 16 + size
    ends = [running.socket.getsockname()[1], running.port]
    for packet, octets, (source, target) in zip(packets, (get(1, CLOCK), reply), (ends, ends[::-1]), strict=True):
        assert packet[0] == 0x45 and packet[9] == 17 and int.from_bytes(packet[2:4], "big") == len(packet)
        total = sum(struct.unpack(">10H", packet[:20]))
        assert (total & 0xFFFF) + (total >> 16) == 0xFFFF
        assert packet[12:20] == socket.inet_aton("127.0.0.1") * 2
        assert struct.unpack(">HHH", packet[20:26]) == (source, target, 8 + len(octets)) and packet[28:] == octets


def test_a_scenario_that_generate_writes_is_taken(street, tmp_path):
    words = ("generate", "--seed", "1", "--cabinets", "4", "--rounds", "90")
    made = subprocess.run([PROGRAM, *words], capture_output=True)
    rounds = [it["round"] for it in json.loads(made.stdout)["loads"]]
    assert rounds != sorted(rounds)
    file = tmp_path / "many.json"
    file.write_bytes(made.stdout)
    running = street("--scenario", file, "--ports", 0)
    assert any(it == "street: the items of loads were sorted by round" for it in running.said)
    assert running.end() == 0


def test_another_address_of_loopback_has_no_warning(street):
    running = street("--ports", 0, "--bind", "127.0.0.2")
    assert running.end() == 0
    assert not any("warning" in it for it in running.said)


def test_a_line_that_is_wrong_ends_the_street_with_one_line(tmp_path):
    file = tmp_path / "bad.toml"
    file.write_text("[[line]]\nlos = 1")
    command = [sys.executable, "-B", TOP / "tools/streettools", "street", "--program", PROGRAM, "--line", file]
    ran = subprocess.run([*command, "--ports", "0"], capture_output=True, text=True, timeout=SECONDS)
    assert (ran.returncode, ran.stderr.count("\n")) == (2, 1)
    assert ran.stderr.startswith(f"street: {file}: line[0].los is not known: cabinets, direction, loss")
