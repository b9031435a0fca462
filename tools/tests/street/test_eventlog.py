"""The event log of NTCIP 1201: what is watched, what is logged, and what a Set may change."""

import asyncio
import os
import shutil
import subprocess

import pytest
from streettools.shared import ber, oids, snmp
from streettools.street.ntcip.eventlog import Config, EventLog
from streettools.street.ntcip.front import Fronts
from streettools.street.pace import Pace
from streettools.street.street import Street

from .conftest import PROGRAM, SECONDS
from .test_agents import written

CONTROL, DETECTORS = oids.CONTROL, (*oids.DETECTOR_GROUP, 2, 1)
REPORT = oids.dotted((*oids.GLOBAL, 4))
CONFIG, LOG, CLASS = (f"{REPORT}.{it}" for it in ("2.1", "4.1", "6.1"))
SCENARIO = {"version": 1, "rounds": 9, "ticks": 10, "cabinets": [{}]}


def number(value):
    """Returns a number as a value."""
    return ber.Field(ber.INTEGER, ber.number_content(value))


def seconds_of_events(config, numbers):
    """Returns at which seconds a configuration finds an event, if an object has one number after the other."""
    config.compared, config.action = CONTROL, 3
    values = [{CONTROL: None if it is None else number(it)} for it in numbers]
    return [at for at, it in enumerate(values) if config.finds(10 * at, it)]


def test_each_mode_finds_its_events():
    """By hand. onChange, greaterThanValue, smallerThanValue, hysteresisBound, periodic and andedWithValue are 2 to 7;
    the second value is in tenths of a second."""
    assert seconds_of_events(Config(mode=2), [5, 5, 6, 6, 5]) == [2, 4]
    assert seconds_of_events(Config(mode=3, first=5), [5, 6, 7, 5, 6]) == [1, 4]
    assert seconds_of_events(Config(mode=3, first=5, second=20), [6, 6, 6, 6, 5, 6, 6, 5]) == [2]
    assert seconds_of_events(Config(mode=4, first=5), [5, 4, 3, 5, -1]) == [1, 4]
    assert seconds_of_events(Config(mode=5, first=10, second=20), [15, 21, 15, 22, 9, 15, 8, 21]) == [1, 4, 7]
    assert seconds_of_events(Config(mode=6, first=2), [0] * 7) == [2, 4, 6]
    assert seconds_of_events(Config(mode=7, first=6), [0, 1, 2, 4, 8, 6]) == [2, 5]


def test_a_missing_object_is_an_error_and_no_event():
    config = Config(mode=2)
    assert seconds_of_events(config, [1, None, 2, 3]) == [3]
    assert config.status == 3
    assert seconds_of_events(config, [None]) == [] and config.status == 4


def test_a_full_class_loses_its_oldest_event_and_the_rest_move():
    log = EventLog()
    log.configs[1].class_ = 2
    log.classes[2].limit_to(3)
    for second in range(5):
        log.add(1, second, number(second))
    assert [it.seconds for it in log.classes[2].rows] == [2, 3, 4] and log.classes[2].count == 5
    log.classes[2].limit_to(2)
    assert [it.seconds for it in log.classes[2].rows] == [3, 4]
    log.classes[2].clear(3)
    assert [it.seconds for it in log.classes[2].rows] == [4]
    log.classes[2].limit_to(0)
    log.add(1, 9, number(9))
    assert not log.classes[2].rows and log.classes[2].count == 6


def test_events_are_counted_to_65535_and_from_0_again():
    log = EventLog()
    for second in range(65_537):
        log.add(1, second, number(0))
    assert log.classes[1].count == 1 and len(log.classes[1].rows) == 255


def test_a_value_of_more_than_64_octets_is_not_kept():
    log = EventLog()
    for octets in (bytes(64), bytes(65)):
        log.add(1, 0, ber.Field(ber.OCTETS, octets))
    assert [it.value is None for it in log.classes[1].rows] == [False, True]


def test_the_log_follows_the_time_of_the_street():
    """A detector that turns on and off is logged once a second; the log outlives its session."""

    async def run():
        street = Street(str(PROGRAM), SCENARIO, Pace(0.0), [])
        fronts = Fronts(street)
        await street.open()
        number_of_message = 0

        async def asked(kind, arcs, value=ber.Field(ber.NULL, b"")):
            nonlocal number_of_message
            number_of_message += 1
            binds = [snmp.Binding(arcs, value)]
            octets = snmp.octets_of(snmp.Message(snmp.V2C, b"public", kind, number_of_message, 0, 0, binds))
            return snmp.message_of(await fronts.datagram(1, octets))

        try:
            config = (*oids.GLOBAL, 4, 2, 1)
            for column, value in ((6, ber.Field(ber.NAME, ber.name_content(DETECTORS))), (8, number(3))):
                assert (await asked(snmp.SET, (*config, column, 1), value)).first == 0
            await street.take(10)
            await street.input(b"veh 1 4 on")
            await street.take(10)
            await street.input(b"veh 1 4 off")
            await street.take(20)
            rows = (*oids.GLOBAL, 4, 6, 1, 5, 1)
            found = [(await asked(snmp.GET, rows)).bindings[0].value]
            await street.session.close()
            await street.renewed()
            return [*found, (await asked(snmp.GET, rows)).bindings[0].value]
        finally:
            await street.close()

    assert asyncio.run(run()) == [number(2), number(2)]


@pytest.fixture
def tool(street, tmp_path):
    """Runs a tool of net-snmp against a cabinet with the front, whose time advances by a second after each message."""
    if shutil.which("snmpget") is None:
        pytest.skip("no net-snmp here")
    words = ("--ports", 29_000 + os.getpid() % 900, "--speed", "step", "--ticks-per-message", 10, "--as", "ntcip1202")
    its = street("--scenario", written(tmp_path, SCENARIO), *words)
    names = {"MIBS": "", "SNMP_PERSISTENT_DIR": str(tmp_path)}

    def run(name, *words, version="2c"):
        to = [f"-v{version}", "-c", "public", "-OnQ", "-t", "20", "-r", "0", f"127.0.0.1:{its.port}"]
        command = [name, *to, *map(str, words)]
        ran = subprocess.run(command, env=os.environ | names, capture_output=True, text=True, timeout=4 * SECONDS)
        lines = ran.stdout.splitlines() if ran.returncode == 0 else ran.stderr.splitlines()
        return [line.removeprefix(".") for line in lines]

    return run


def test_a_change_of_the_pattern_is_logged(tool):
    """The log has class 2, row 1: configuration 3, and INTEGER 254 with its tag and length (02 02 00 FE)."""
    control = oids.dotted(CONTROL)
    tool("snmpset", f"{CONFIG}.2.3", "i", 2, f"{CONFIG}.6.3", "o", control, f"{CONFIG}.7.3", "o", control,
         f"{CONFIG}.8.3", "i", 3)  # fmt: skip
    assert tool("snmpget", f"{CONFIG}.9.3", f"{CONFIG}.6.3") == [f"{CONFIG}.9.3 = 3", f"{CONFIG}.6.3 = .{control}"]
    tool("snmpset", control, "i", 254)
    tool("snmpget", control)
    walked = tool("snmpwalk", LOG)
    assert [it.split(" = ")[0] for it in walked] == [f"{LOG}.{column}.2.1" for column in (1, 2, 3, 4, 5)]
    assert [it.split(" = ")[1] for it in walked[:3]] == ["2", "1", "3"]
    assert walked[4].endswith("INTEGER: 254") or "02 02 00 FE" in walked[4]
    then = int(walked[3].split(" = ")[1])
    assert tool("snmpget", f"{CLASS}.5.2", f"{CLASS}.6.2") == [f"{CLASS}.5.2 = 1", f"{CLASS}.6.2 = 1"]
    assert tool("snmpset", f"{CLASS}.3.2", "u", then) == [f"{CLASS}.3.2 = {then}"]
    assert tool("snmpget", f"{CLASS}.5.2", f"{CLASS}.6.2") == [f"{CLASS}.5.2 = 0", f"{CLASS}.6.2 = 1"]
    assert "No Such Instance" in tool("snmpget", f"{LOG}.3.2.1")[0]


@pytest.mark.parametrize("words, refusal", [
    ((f"{CONFIG}.2.1", "i", 9), "wrongValue"), ((f"{CONFIG}.2.1", "i", 0), "wrongValue"),
    ((f"{CONFIG}.3.1", "i", 1), "wrongValue"), ((f"{CONFIG}.8.1", "i", 1), "wrongValue"),
    ((f"{CONFIG}.6.1", "o", "1.3" + ".4294967295" * 7), "wrongLength"), ((f"{CONFIG}.6.1", "i", 1), "wrongType"),
    ((f"{CONFIG}.4.1", "s", "x"), "wrongType"),
    ((f"{CONFIG}.9.1", "i", 2), "notWritable"), ((f"{CONFIG}.2.33", "i", 1), "notWritable"),
    ((f"{REPORT}.1.0", "i", 1), "notWritable"), ((f"{CLASS}.2.1", "i", 256), "wrongValue"),
    ((f"{CLASS}.3.1", "i", -1), "wrongValue"), ((f"{CLASS}.4.1", "s", "x" * 256), "wrongLength"),
    ((f"{CLASS}.2.1", "i", 3, f"{CLASS}.5.1", "i", 0), "notWritable"),
])  # fmt: skip
def test_a_wrong_set_is_refused_and_sets_nothing(tool, words, refusal):
    assert refusal in " ".join(tool("snmpset", *words))
    assert tool("snmpget", f"{CLASS}.2.1", f"{CONFIG}.8.1", f"{CONFIG}.2.1") == [
        f"{CLASS}.2.1 = 255", f"{CONFIG}.8.1 = 2", f"{CONFIG}.2.1 = 1"
    ]  # fmt: skip


def test_a_text_and_the_statuses_of_version_1(tool):
    assert tool("snmpset", f"{CLASS}.4.8", "s", "alarms", version="1") == [f'{CLASS}.4.8 = "alarms"']
    assert "badValue" in " ".join(tool("snmpset", f"{CLASS}.2.8", "i", 300, version="1"))
    assert "noSuchName" in " ".join(tool("snmpset", f"{CLASS}.5.8", "i", 0, version="1"))
