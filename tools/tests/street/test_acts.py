"""A cabinet reboots, hangs or alarms as a user asks for by a line, and the record of messages has it."""

import asyncio
import json
import os
import socket
import subprocess
import sys
import time

import pytest
from streettools.cabinet.messages import SET, message, reply_of
from streettools.shared import oids
from streettools.shared.ber import number_of
from streettools.street.acts import ALARMS, Alarm, Hang, Reboot, Wrong, act_of
from streettools.street.ntcip.objects import OBJECTS

from .conftest import CONTROL, PROGRAM, TOP
from .test_agents import get, value_in, written

TWO = {"version": 1, "rounds": 9, "ticks": 10, "cabinets": [{}, {}]}
UNIT_2, UNIT_1, SHORT = ((*oids.ASC, 3, number, 0) for number in (7, 8, 9))
UP_TIME = (*oids.SYSTEM, 3, 0)


@pytest.mark.parametrize("line, due", [
    ("reboot 2", Reboot(2, 10)), ("reboot 1 0", Reboot(1, 0)), ("hang 2 60", Hang(2, 60)),
    ("alarm 1 stopTime on", Alarm(1, "stopTime", True)), (" alarm  2 mmuFlash off ", Alarm(2, "mmuFlash", False)),
])  # fmt: skip
def test_a_line_is_read(line, due):
    assert act_of(line, 2) == due


@pytest.mark.parametrize("line", [
    "", "reboot", "reboot 0", "reboot 3", "reboot -1", "reboot 1 86401", "reboot 1 1.5", "hang 1", "hang 1 ٣",
    "alarm 1 stopTime", "alarm 1 stoptime on", "alarm 1 stopTime yes", "stop 1", "reboot 1 10 10",
])  # fmt: skip
def test_a_line_that_isnt_a_command_is_refused(line):
    with pytest.raises(Wrong):
        act_of(line, 2)


@pytest.fixture
def ordered(street, tmp_path):
    """A street of two cabinets with the front, whose time advances by messages; `say` writes lines for it."""
    os.mkfifo(tmp_path / "lines")
    words = ("--ports", 0, "--addresses", "127.0.3.1+", "--speed", "step", "--ticks-per-message", 10)
    words = (*words, "--as", "ntcip1202", "--commands", tmp_path / "lines", "--messages", tmp_path / "messages")
    made = street("--scenario", written(tmp_path, TWO), *words[:1], 20_000 + os.getpid() % 9000, *words[2:])
    made.socket.settimeout(1.0)

    def say(line):
        (tmp_path / "lines").write_text(line + "\n")
        time.sleep(0.3)

    made.say, made.rows = say, lambda: [json.loads(it) for it in (tmp_path / "messages").read_text().splitlines()]
    return made


def ask(street, octets, cabinet=1):
    """Returns a cabinet's reply, None if it is silent for a second."""
    street.socket.sendto(octets, (f"127.0.3.{cabinet}", street.port))
    try:
        return street.socket.recv(65_536)
    except socket.timeout:
        return None


def values(street, *names):
    """Returns the numbers of objects of cabinet 1."""
    return [value_in(ask(street, get(number, name))) for number, name in enumerate(names, 1)]


@pytest.mark.parametrize("name, due", [
    # NTCIP 1202: the bits of unitAlarmStatus2, unitAlarmStatus1 and shortAlarmStatus; 64: the cabinet runs free
    ("powerRestart", [1, 64, 0]), ("lowBattery", [2, 64, 0]), ("responseFault", [4, 64, 0]),
    ("externalStart", [8, 64, 0]), ("stopTime", [16, 64, 128]), ("cycleFault", [0, 65, 0]),
    ("coordFault", [0, 66, 0]), ("coordFail", [0, 68, 0]), ("cycleFail", [0, 72, 0]), ("mmuFlash", [0, 80, 2]),
    ("localFlash", [0, 96, 2]), ("localCycleZero", [0, 64, 4]), ("localOverride", [0, 64, 8]),
    ("coordinationAlarm", [0, 64, 16]), ("detectorFault", [0, 64, 32]), ("nonCriticalAlarm", [0, 64, 64]),
])  # fmt: skip
def test_each_alarm_sets_its_bits(name, due):
    class Side:
        async def numbers(self, *names):
            return [2 for _ in names]

    class Front:
        street, cabinet, side = type("Street", (), {"alarms": {1: {name}}})(), 1, Side()

    assert name in ALARMS
    assert [number_of(asyncio.run(OBJECTS.read(Front(), it)).content) for it in (UNIT_2, UNIT_1, SHORT)] == due


def test_an_alarm_is_set_and_cleared(ordered):
    for _ in range(7):  # start-up lasts 6 s; then the cabinet runs free
        ask(ordered, get(1, CONTROL))
    ordered.say("alarm 1 stopTime on")
    assert values(ordered, UNIT_2, UNIT_1, SHORT) == [16, 64, 128]
    ordered.say("alarm 1 stopTime off")
    assert values(ordered, UNIT_2, UNIT_1, SHORT) == [0, 64, 0]
    assert [it["act"] for it in ordered.rows() if "act" in it] == ["alarm stopTime on", "alarm stopTime off"]
    assert ordered.end() == 0


def test_a_cabinet_that_hangs_is_silent_for_a_while_and_goes_on(ordered):
    ordered.say("hang 1 4")
    assert ask(ordered, get(1, CONTROL)) is None
    assert ask(ordered, get(2, CONTROL), cabinet=2) is not None
    time.sleep(4)
    assert ask(ordered, get(3, CONTROL)) is not None
    lost = [it for it in ordered.rows() if "hangs" in it.get("line", ())]
    assert [(it["cabinet"], it["way"], it["arrives"]) for it in lost] == [(1, "in", False)]
    assert ordered.end() == 0


def test_a_cabinet_that_reboots_starts_up_again_with_its_pattern(ordered):
    assert reply_of(ask(ordered, message(SET, 1, [(CONTROL, 1)]))).status == 0
    for number in range(2, 12):
        ask(ordered, get(number, CONTROL))
    ordered.say("reboot 1 4")
    assert ask(ordered, get(20, CONTROL)) is None
    time.sleep(4)
    # power restart (1); start-up (0) is neither free nor coordinated; the session is new: less than 11 messages of 1 s
    assert values(ordered, UNIT_2, UNIT_1, CONTROL) == [1, 0, 1]
    assert int.from_bytes(reply_of(ask(ordered, get(30, UP_TIME))).bindings[0][2], "big") < 1000
    assert [it["act"] for it in ordered.rows() if "act" in it] == ["reboot 4"]
    assert any("reboots" in it.get("line", ()) for it in ordered.rows())
    assert ordered.told("a new one begins with start-up")
    assert ordered.end() == 0


def test_a_line_that_isnt_a_command_is_reported(ordered):
    ordered.say("reboot 9")
    assert ordered.told("command: cabinet '9' is not a whole number from 1 to 2")
    ordered.say("x" * 5000)
    assert ordered.told("command: a line of more than 200 bytes")
    ordered.say("alarm 1 lowBattery on")
    assert values(ordered, UNIT_2) == [2]
    assert ordered.end() == 0


def test_a_file_that_isnt_a_pipe_is_refused(tmp_path):
    (tmp_path / "lines").write_text("")
    command = [sys.executable, "-B", TOP / "tools/streettools", "street", "--program", PROGRAM, "--ports", "0"]
    ran = subprocess.run([*command, "--commands", tmp_path / "lines"], capture_output=True, text=True, timeout=60)
    assert (ran.returncode, "not a named pipe" in ran.stderr) == (1, True)
