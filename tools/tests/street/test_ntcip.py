"""The front for centrals as they are: version 2c, the system group, transactions, calls and preempts as objects."""

import asyncio
import json
import os
import shutil
import socket
import subprocess
from types import SimpleNamespace

import pytest
from streettools.shared import ber, oids, snmp
from streettools.street.inputs import Inputs
from streettools.street.ntcip.front import Cabinet
from streettools.street.ntcip.objects import OBJECTS
from streettools.street.known import Clocks, Downloads
from streettools.street.ntcip.pdus import GEN_ERR, RESOURCE_UNAVAILABLE, WRONG_TYPE, WRONG_VALUE, Fault

from .conftest import SECONDS
from .test_agents import written
from .test_panel import feed_of

ASC, GLOBAL, OWN = map(oids.dotted, (oids.ASC, oids.GLOBAL, oids.OWN))
CREATE, STATUS, ERROR = f"{GLOBAL}.2.1.0", f"{GLOBAL}.2.6.0", f"{GLOBAL}.2.7.0"
SPLITS = f"{ASC}.4.9.1.3.1"
TRAIN = {"version": 1, "rounds": 9, "ticks": 10, "cabinets": [{"cells": [["preempt", 1, 13, "0206"]]}, {}]}


@pytest.fixture
def front(street, tmp_path):
    """A street behind the front, whose time stands."""
    if shutil.which("snmpget") is None:
        pytest.skip("no net-snmp here")
    words = ("--addresses", "127.0.1.1+", "--ports", 20_000 + os.getpid() % 9000, "--speed", "step",
             "--ticks-per-message", 0)  # fmt: skip
    words += ("--as", "ntcip1202", "--record", tmp_path / "kept.trace")
    return street("--scenario", written(tmp_path, TRAIN), *words)


@pytest.fixture
def tool(front, tmp_path):
    """Runs a tool of net-snmp in a version against cabinet 1; returns what it prints."""
    names = {"MIBS": "", "SNMP_PERSISTENT_DIR": str(tmp_path)}

    def run(name, version, *words, cabinet=1):
        options = [it for it in words if str(it).startswith("-C")]
        to = [*options, f"-v{version}", "-c", "public", "-OnQ", "-t", "20", f"127.0.1.{cabinet}:{front.port}"]
        command = [name, *to, *[str(it) for it in words if it not in options]]
        ran = subprocess.run(command, env=os.environ | names, capture_output=True, text=True, timeout=4 * SECONDS)
        lines = ran.stdout.splitlines() if ran.returncode == 0 else ran.stderr.splitlines()
        return [line.removeprefix(".") for line in lines]

    return run


def test_a_central_finds_what_it_asks_first(tool):
    assert tool("snmpget", "2c", "1.3.6.1.2.1.1.1.0") == ['1.3.6.1.2.1.1.1.0 = "arterial, a simulated signal cabinet"']
    names = [f"{ASC}.1.1.0", f"{ASC}.6.1.0", f"{ASC}.3.5.0", f"{GLOBAL}.1.3.1.3.1", f"{ASC}.4.14.0"]
    due = [f"{name} = {value}" for name, value in zip(names, (16, 8, 2, '"arterial"', 0))]
    assert tool("snmpget", "1", *names) == due
    assert tool("snmpget", "2c", *names) == due


def test_a_missing_object_is_told_in_its_place(tool):
    found = tool("snmpget", "2c", "1.3.6.1.2.1.99.0", f"{ASC}.1.2.1.4.17", f"{ASC}.4.14.0")
    assert found == [
        "1.3.6.1.2.1.99.0 = No Such Object available on this agent at this OID",
        f"{ASC}.1.2.1.4.17 = No Such Instance currently exists at this OID",
        f"{ASC}.4.14.0 = 0",
    ]
    assert "noSuchName" in " ".join(tool("snmpget", "1", "1.3.6.1.2.1.99.0"))


class OneReply:
    """A street whose cabinet gives one reply; it keeps what the cabinet was asked."""

    def __init__(self, reply):
        self.reply, self.asked = reply, []

    async def message(self, cabinet, octets):
        self.asked.append(octets)
        return self.reply


def test_a_get_of_the_cabinets_objects_in_version_2c_is_its_reply_with_another_version():
    """By hand: `02 01 00` is version 1 and `02 01 01` version 2c (RFC 1901); all else stays, octet for octet."""
    asked = snmp.Message(snmp.V2C, b"public", snmp.GET, 7, 0, 0, [snmp.Binding(oids.VERSION, ber.Field(ber.NULL, b""))])
    answer = asked._replace(version=snmp.V1, kind=snmp.RESPONSE,
                            bindings=[snmp.Binding(oids.VERSION, ber.Field(ber.INTEGER, b"\x05"))])  # fmt: skip
    street = OneReply(snmp.octets_of(answer))
    front = SimpleNamespace(street=street, number=1, front=None)
    octets = snmp.octets_of(asked)
    found = asyncio.run(Cabinet.got_by_cabinet(front, asked, octets))
    assert street.asked == [octets.replace(b"\x02\x01\x01\x04", b"\x02\x01\x00\x04", 1)]
    assert found == street.reply.replace(b"\x02\x01\x00\x04", b"\x02\x01\x01\x04", 1)
    # an error, another object, a value, silence: the front carries it out itself
    street.reply = snmp.octets_of(answer._replace(first=2, second=1))
    assert asyncio.run(Cabinet.got_by_cabinet(front, asked, octets)) is None
    street.reply = None
    assert asyncio.run(Cabinet.got_by_cabinet(front, asked, octets)) is None
    for name, value in ((oids.GLOBAL_TIME, ber.Field(ber.NULL, b"")), (oids.VERSION, ber.Field(ber.INTEGER, b"\x01"))):
        other = asked._replace(bindings=[snmp.Binding(name, value)])
        street.asked.clear()
        assert asyncio.run(Cabinet.got_by_cabinet(front, other, snmp.octets_of(other))) is None
        assert street.asked == []


def test_a_walk_by_getbulk_meets_each_instance_once_in_order(tool):
    lines = tool("snmpbulkwalk", "2c", "-Cr40", "1.3.6.1")
    names = [tuple(map(int, line.split(" ")[0].split("."))) for line in lines if " = No more" not in line]
    assert names == sorted(set(names))
    assert len(names) == 3417 + len([*OBJECTS.fixed_names()])


def test_tables_are_set_within_a_transaction(tool):
    first, fifth = f"{SPLITS}.1", f"{SPLITS}.5"
    # alone it would break rule 17, so it isn't put in force
    assert "badValue" in " ".join(tool("snmpset", "1", first, "i", 20))
    tool("snmpset", "2c", CREATE, "i", 2)
    assert tool("snmpset", "2c", first, "i", 20, fifth, "i", 20) == [f"{first} = 20", f"{fifth} = 20"]
    assert tool("snmpget", "2c", first, CREATE) == [f"{first} = 15", f"{CREATE} = 2"]
    tool("snmpset", "2c", CREATE, "i", 3)
    # the times of ring 1 come to 95 s in a cycle of 90: rule 17 of docs/SCENARIO.md
    assert tool("snmpget", "2c", CREATE, STATUS, ERROR) == [
        f"{CREATE} = 6",
        f"{STATUS} = 2",
        f'{ERROR} = "rule 17 at row 1"',
    ]
    tool("snmpset", "2c", CREATE, "i", 1)
    assert tool("snmpget", "2c", first, CREATE) == [f"{first} = 15", f"{CREATE} = 1"]
    tool("snmpset", "2c", CREATE, "i", 2)
    more = [it for phase, time in ((1, 20), (4, 25), (5, 20), (8, 25)) for it in (f"{SPLITS}.{phase}", "i", time)]
    tool("snmpset", "1", *more)
    tool("snmpset", "2c", CREATE, "i", 3)
    assert tool("snmpget", "2c", CREATE, STATUS, ERROR) == [f"{CREATE} = 6", f"{STATUS} = 3", f'{ERROR} = ""']
    assert tool("snmpget", "2c", first) == [f"{first} = 15"]
    tool("snmpset", "2c", CREATE, "i", 1)
    assert tool("snmpget", "2c", first, f"{SPLITS}.4", f"{OWN}.1.10.0") == [
        f"{first} = 20",
        f"{SPLITS}.4 = 25",
        f"{OWN}.1.10.0 = 1",
    ]


def test_a_transaction_takes_its_steps_in_order_alone(tool):
    assert "inconsistentValue" in " ".join(tool("snmpset", "2c", CREATE, "i", 3))
    assert "badValue" in " ".join(tool("snmpset", "1", CREATE, "i", 6))
    assert tool("snmpget", "2c", CREATE) == [f"{CREATE} = 1"]


def test_calls_and_preempts_are_inputs_of_the_session(front, tool, tmp_path):
    tool("snmpset", "2c", f"{ASC}.1.5.1.6.1", "i", 0b1000_1000)
    tool("snmpset", "2c", f"{ASC}.1.5.1.6.1", "i", 0b1000)
    tool("snmpset", "2c", f"{ASC}.1.5.1.7.2", "i", 1)
    tool("snmpset", "2c", f"{ASC}.6.3.1.2.1", "i", 1)
    tool("snmpset", "2c", f"{ASC}.6.3.1.2.1", "i", 1)
    # vehicle calls that are kept: locking is told by the tables
    assert tool("snmpget", "2c", f"{ASC}.2.4.1.2.1", f"{ASC}.6.3.1.2.1") == [
        f"{ASC}.2.4.1.2.1 = 8",
        f"{ASC}.6.3.1.2.1 = 1",
    ]
    assert tool("snmpget", "2c", f"{ASC}.2.4.1.2.1", cabinet=2) == [f"{ASC}.2.4.1.2.1 = 0"]
    assert front.end() == 0
    scenario = json.loads((tmp_path / "kept.trace").read_bytes().split(b"\n", 1)[0][2:])
    told = [{name: it for name, it in item.items() if name not in ("round", "cabinet")} for item in scenario["inputs"]]
    assert told == [
        {"veh": 4, "on": True},
        {"veh": 8, "on": True},
        {"veh": 8, "on": False},
        {"ped": 9},
        {"preempt": 1, "on": True},
    ]


def test_the_global_clock_sets_the_cabinets_time_of_day(tool):
    name = f"{GLOBAL}.3.1.0"
    # 2026-11-29 07:00:00, and 25,200 seconds of that day
    tool("snmpset", "2c", name, "u", 1_795_935_600)
    assert tool("snmpget", "2c", name, f"{OWN}.2.1.0") == [f"{name} = 1795935600", f"{OWN}.2.1.0 = 252000"]


def test_another_community_and_another_version_meet_silence(front, tmp_path):
    for words in (["-v2c", "-c", "private"], ["-v3", "-u", "someone"]):
        command = ["snmpget", *words, "-r", "0", "-t", "2", f"127.0.1.1:{front.port}", "1.3.6.1.2.1.1.1.0"]
        ran = subprocess.run(
            command, env=os.environ | {"MIBS": "", "SNMP_PERSISTENT_DIR": str(tmp_path)}, capture_output=True, text=True
        )
        assert "imeout" in ran.stderr


def raw(front, octets, seconds=SECONDS):
    """Returns the answer of cabinet 1 to a datagram; None if it is silent for so long."""
    with socket.socket(socket.AF_INET, socket.SOCK_DGRAM) as made:
        made.settimeout(seconds)
        made.sendto(octets, ("127.0.1.1", front.port))
        try:
            return snmp.message_of(made.recv(65_536))
        except TimeoutError:
            return None


def arcs(name):
    """Returns the arcs of a name with dots."""
    return tuple(map(int, name.split(".")))


def a_set(name, tag, content):
    """Returns a Set of an object in version 2c."""
    bound = snmp.Binding(arcs(name), ber.Field(tag, content))
    return snmp.octets_of(snmp.Message(snmp.V2C, b"public", snmp.SET, 1, 0, 0, [bound]))


def read(front, name):
    """Returns the value of an object."""
    asked = snmp.Message(snmp.V2C, b"public", snmp.GET, 2, 0, 0, [snmp.Binding(arcs(name), ber.Field(ber.NULL, b""))])
    return raw(front, snmp.octets_of(asked)).bindings[0].value


TIME = f"{GLOBAL}.3.1.0"


def test_a_set_that_is_cut_off_is_met_with_silence_and_changes_nothing(front):
    before, octets = read(front, TIME), a_set(TIME, ber.INTEGER, ber.number_content(1000))
    for cut in (1, 2, 5, 9):
        assert raw(front, octets[:-cut], 1) is None
    assert raw(front, octets + b"\0", 1) is None
    assert read(front, TIME) == before
    assert raw(front, octets).first == 0
    assert ber.unsigned_of(read(front, TIME).content) == 1000


@pytest.mark.parametrize(
    ("tag", "content", "status"),
    [
        (ber.NULL, b"", WRONG_TYPE),
        (ber.OCTETS, b"\1\2", WRONG_TYPE),
        (ber.TIME_TICKS, b"\1", WRONG_TYPE),
        (ber.INTEGER, ber.number_content(-1), WRONG_VALUE),
        (ber.INTEGER, b"", None),
        (ber.COUNTER, ber.number_content(1 << 32), None),
        (ber.COUNTER, ber.number_content(2**1000), None),
    ],
)
def test_the_global_clock_takes_numbers_of_32_bits_alone(front, tag, content, status):
    before = read(front, TIME)
    answer = raw(front, a_set(TIME, tag, content), 1)
    assert (answer and answer.first) == status
    assert read(front, TIME) == before


def test_a_transaction_keeps_no_more_cells_than_a_download_may_have(front, tool):
    """768 cells and one more; each Set has 20, and one that is set again counts once."""
    tool("snmpset", "2c", CREATE, "i", 2)
    names = [f"{ASC}.4.9.1.{column}.{split}.{phase}" for column in (3, 4, 5) for split in range(1, 33)
             for phase in range(1, 17)]  # fmt: skip
    assert len(names) > 768
    for first in range(0, 780, 20):
        binds = [snmp.Binding(arcs(name), ber.Field(ber.INTEGER, b"\1")) for name in names[first : first + 20]]
        made = snmp.octets_of(snmp.Message(snmp.V2C, b"public", snmp.SET, 1, 0, 0, binds))
        assert raw(front, made).first == raw(front, made).first == (0 if first + 20 <= 768 else RESOURCE_UNAVAILABLE)
    assert raw(front, made).second == 768 - 760 + 1


def test_inputs_of_the_panel_and_of_management_software_are_the_same(street, tmp_path):
    aiohttp = pytest.importorskip("aiohttp")
    words = ("--addresses", "127.0.1.1+", "--ports", 30_000 + os.getpid() % 9000, "--as", "ntcip1202", "--panel", 0)
    running = street("--scenario", written(tmp_path, TRAIN), *words)
    feed, headers = feed_of(running.told(r"panel at (http://\S+)")[1])
    name = f"{ASC}.6.3.1.2.1"

    async def held():
        async with aiohttp.ClientSession() as session, session.ws_connect(feed, headers=headers) as page:
            await page.send_json({"do": "input", "kind": "preempt", "cabinet": 1, "place": 1, "on": True})
            while "preempt 1 1" not in (await page.receive_json()).get("inputs", ()):
                pass
            told = await asyncio.to_thread(read, running, name)
            await asyncio.to_thread(raw, running, a_set(name, ber.INTEGER, b"\0"))
            while (await page.receive_json()).get("inputs") != []:
                pass
            await asyncio.to_thread(raw, running, a_set(f"{ASC}.1.5.1.6.1", ber.INTEGER, b"\x08"))
            while (await page.receive_json()).get("inputs") != ["veh 1 4"]:
                pass
            return told

    told = asyncio.run(asyncio.wait_for(held(), SECONDS))
    assert ber.number_of(told.content) == 1
    assert ber.number_of(read(running, name).content) == 0


def test_the_panel_shows_the_messages_that_were_sent_and_no_others(street, tmp_path):
    aiohttp = pytest.importorskip("aiohttp")
    words = ("--addresses", "127.0.1.1+", "--ports", 30_000 + os.getpid() % 9000, "--as", "ntcip1202", "--panel", 0)
    running = street("--scenario", written(tmp_path, TRAIN), *words)
    feed, headers = feed_of(running.told(r"panel at (http://\S+)")[1])
    asked = [of(snmp.GET, 1, bound(f"{ASC}.1.1.0")), of(snmp.BULK, 2, bound(f"{ASC}.1.2.1.4"), second=2),
             of(snmp.SET, 3, bound(CREATE, 2, b"\2")), of(snmp.GET, 4, bound(oids.CLOCK), version=snmp.V1)]  # fmt: skip

    async def shown():
        rows = []
        async with aiohttp.ClientSession() as session, session.ws_connect(feed, headers=headers) as page:
            await page.receive_json()
            for it in asked:
                await asyncio.to_thread(raw, running, it)
            while not any("cabinetClock" in row[2] for row in rows):
                rows += (await page.receive_json()).get("messages", ())
        return rows

    rows = asyncio.run(asyncio.wait_for(shown(), SECONDS))
    assert [row[1] for row in rows] == [1] * 4
    assert [row[2].split(" ")[0] for row in rows] == ["Get", "GetBulk", "Set", "Get"]
    assert rows[1][3] == "phaseMinimumGreen.1 = 5, phaseMinimumGreen.2 = 10"


def test_an_input_that_the_street_refuses_is_an_error():
    async def refuses(request):
        return False

    street = SimpleNamespace(input=refuses, inputs=Inputs(), downloads=Downloads(), clocks=Clocks())
    cabinet = Cabinet(street, 1)
    with pytest.raises(Fault) as raised:
        asyncio.run(cabinet.do(3, snmp.Binding(arcs(f"{ASC}.6.3.1.2.1"), ber.Field(ber.INTEGER, b"\1"))))
    assert (raised.value.status, raised.value.index) == (GEN_ERR, 3)


def bound(name, tag=ber.NULL, content=b""):
    """Returns a binding."""
    return snmp.Binding(arcs(name) if isinstance(name, str) else name, ber.Field(tag, content))


def of(kind, number, *binds, version=snmp.V2C, first=0, second=0):
    """Returns a message."""
    return snmp.octets_of(snmp.Message(version, b"public", kind, number, first, second, list(binds)))


def test_a_central_that_reads_up_to_the_sizes_reads_all_rows(tool):
    """The last row that the MIB has, and none after it."""
    rows = [("4.8.0", "4.9.1.3.{}.16", 32), ("4.5.0", "4.7.1.2.{}", 48), ("7.2.0", "7.3.1.3.{}.2", 16)]
    for size, column, most in (*rows, ("6.1.0", "6.2.1.4.{}", 8), ("1.1.0", "1.2.1.4.{}", 16)):
        assert tool("snmpget", "2c", f"{ASC}.{size}") == [f"{ASC}.{size} = {most}"]
        last, after = (f"{ASC}.{column.format(row)}" for row in (most, most + 1))
        found = tool("snmpget", "2c", last, after)
        assert "No Such" not in found[0] and "No Such Instance" in found[1]


def test_statuses_of_version_2c_say_what_is_wrong(front):
    """By RFC 3416, 4.2.5; version 1 by RFC 3584."""
    number, octets = ber.number_content, b"\1\2"
    rows = [
        (f"{ASC}.4.14.0", ber.OCTETS, octets, 7, 3),
        (f"{ASC}.4.14.0", ber.INTEGER, number(300), 10, 3),
        (f"{ASC}.4.10.0", ber.INTEGER, number(1), 17, 2),
        (f"{ASC}.1.2.1.4.2", ber.INTEGER, number(256), 10, 3),
        (f"{ASC}.1.2.1.4.17", ber.INTEGER, number(10), 11, 2),
        ("1.3.6.1.2.1.99.0", ber.INTEGER, number(1), 17, 2),
        (f"{ASC}.6.3.1.2.1", ber.INTEGER, number(2), 10, 3),
        (f"{ASC}.1.5.1.6.1", ber.OCTETS, octets, 7, 3),
        ("1.3.6.1.2.1.1.1.0", ber.OCTETS, octets, 17, 2),
    ]
    for name, tag, content, newer, older in rows:
        found = [raw(front, of(snmp.SET, 1, bound(name, tag, content), version=it)) for it in (snmp.V2C, snmp.V1)]
        assert [(it.first, it.second) for it in found] == [(newer, 1), (older, 1)], name


def test_a_getbulk_that_does_not_fit_is_cut_short(front):
    """32 names of three columns, 40 times: far more than a message holds."""
    names = [bound(f"{ASC}.1.2.1.{column}") for column in (4, 5, 6)] * 20
    reply = raw(front, of(snmp.BULK, 1, *names, second=40))
    assert reply.first == 0 and 60 < len(reply.bindings) < 1472 // 18
    assert reply.bindings[:3] == [bound(f"{ASC}.1.2.1.{column}.1", 2, value) for column, value in
                                  ((4, b"\5"), (5, b"\x14"), (6, b"\x14"))]  # fmt: skip
    assert len(snmp.octets_of(reply)) <= 1472


def test_a_datagram_beyond_the_longest_is_ignored(front):
    name = f"{ASC}.1.2.1.4"
    assert raw(front, of(snmp.BULK, 1, *[bound(name)] * 1000, second=1), 1) is None
    assert raw(front, of(snmp.BULK, 2, bound(name), second=1)).bindings[0].value.content == b"\5"


def test_answers_to_a_manager_keep_its_order(front):
    """A walk step in version 1 takes longer than a Get that the cabinet answers."""
    with socket.socket(socket.AF_INET, socket.SOCK_DGRAM) as made:
        made.settimeout(SECONDS)
        for number in range(1, 40, 2):
            made.sendto(of(snmp.GET_NEXT, number, bound(f"{ASC}.1"), version=snmp.V1), ("127.0.1.1", front.port))
            made.sendto(of(snmp.GET, number + 1, bound(oids.CLOCK), version=snmp.V1), ("127.0.1.1", front.port))
        assert [snmp.message_of(made.recv(2000)).number for _ in range(40)] == list(range(1, 41))


def test_a_message_takes_one_step_whatever_it_asks(street, tmp_path):
    """With steps of 10 ticks the clock tells how many messages came before."""
    words = ("--addresses", "127.0.1.1+", "--ports", 20_000 + os.getpid() % 9000, "--speed", "step")
    words += ("--as", "ntcip1202")
    running = street("--scenario", written(tmp_path, TRAIN), *words)
    own, other = bound(f"{ASC}.1.1.0"), bound(f"{ASC}.4.11.0")
    asked = [of(snmp.BULK, 1, bound(f"{ASC}.1"), second=20), of(snmp.GET_NEXT, 2, bound(f"{ASC}.1")),
             of(snmp.GET, 3, own), of(snmp.GET, 4, own, other), of(snmp.SET, 5, bound(CREATE, 2, b"\2")),
             of(snmp.SET, 6, bound(f"{SPLITS}.1", 2, b"\x0f")), of(snmp.SET, 7, bound(CREATE, 2, b"\3")),
             of(snmp.SET, 8, bound(CREATE, 2, b"\1")), of(snmp.GET, 9, bound(oids.CLOCK))]  # fmt: skip
    answers = [raw(running, it) for it in asked]
    assert [it.first for it in answers] == [0] * 9
    assert ber.number_of(answers[-1].bindings[0].value.content) == 10 * 8


def test_the_global_clock_goes_on_over_midnight_and_a_restart(street, tmp_path):
    """1700000000 is 2023-11-14 22:13:20, and a message takes 6,400 s: at the second one the 15th begins."""
    words = ("--addresses", "127.0.1.1+", "--ports", 20_000 + os.getpid() % 9000, "--as", "ntcip1202",
             "--speed", "step", "--ticks-per-message", 64_000)  # fmt: skip
    record = tmp_path / "kept.trace"
    given = {"version": 1, "rounds": 9, "ticks": 600, "cabinets": [{"clock": 5}]}
    running = street("--scenario", written(tmp_path, given), *words, "--record", record)
    assert raw(running, a_set(TIME, ber.COUNTER, ber.number_content(1_700_000_000))).first == 0
    assert ber.unsigned_of(read(running, TIME).content) == 1_700_006_400
    assert running.end() == 0
    running = street(*words, "--resume", record)
    seen = [ber.unsigned_of(read(running, TIME).content) for _ in range(4)]
    assert seen == [1_700_012_800 + 6_400 * at for at in range(4)]
    # a clock that is set to another time of day stays in its day: 15 November 2023, 1:00
    raw(running, of(snmp.SET, 7, bound(oids.CLOCK, 2, ber.number_content(36_000)), version=snmp.V1))
    assert ber.unsigned_of(read(running, TIME).content) == 1_700_006_400 + 3_600 + 6_400
