"""Orders of pages, requests of records and datagrams of central software that are damaged: a street does them, refuses
them in one line, or ignores them."""

import asyncio
import json
import os
import pathlib

import pytest
from hypothesis import given
from streettools.shared import ber, oids, snmp
from streettools.shared.fault import Fault
from streettools.street.ntcip.front import Fronts
from streettools.street.pace import Pace
from streettools.street.panel import orders
from streettools.street.record import read_requests
from streettools.street.street import Street

from .conftest import TOP
from .damage import damaged, damaged_values, tried

BUILT = pathlib.Path(os.environ.get("ARTERIAL_PROGRAM", TOP / "crates/arterial/out/arterial"))
PROGRAM = BUILT if BUILT.is_file() else TOP / "model/program"
SCENARIO = {"version": 1, "rounds": 1, "ticks": 5, "cabinets": [{"cells": [["preempt", 1, 13, "0206"]]}, {}]}
ORDERS = [
    {"do": "input", "kind": "veh", "cabinet": 1, "place": 4, "on": True},
    {"do": "input", "kind": "ped", "cabinet": 2, "place": 8},
    {"do": "input", "kind": "preempt", "cabinet": 1, "place": 1, "on": False},
    {"do": "pulse", "cabinet": 1, "phase": 4}, {"do": "rate", "cabinet": 2, "phase": 2, "rate": 600},
    {"do": "speed", "speed": 2.5}, {"do": "step", "ticks": 10}, {"do": "view", "cabinet": 0},
]  # fmt: skip


def obeyed(text: str) -> None:
    """Reads an order of a page."""
    try:
        found = orders.order_of(text, 2)
    except orders.Wrong:
        return
    if isinstance(found, orders.Input):
        assert len(found.request) < 40 and found.request.decode("ascii").isprintable()


@tried(300)
@given(damaged([json.dumps(it).encode() for it in ORDERS]))
def test_damaged_orders_of_pages(content):
    obeyed(content.decode(errors="replace"))


@tried(300)
@given(damaged_values(ORDERS))
def test_orders_of_pages_with_other_values(value):
    obeyed(json.dumps(value))


RECORD = json.dumps(SCENARIO).encode() + b"\ntick 5\nveh 1 4 on\nframe 1 priority 3003020100\ntick 3\nped 2 8\ntick 2\n"


@tried(300)
@given(damaged([RECORD]))
def test_damaged_records(tmp_path_factory, content):
    path = tmp_path_factory.getbasetemp() / "kept.dialogue"
    path.write_bytes(content)
    try:
        _, requests = read_requests(path)
    except Fault as fault:
        assert str(fault) and "\n" not in str(fault)
        return
    assert all(int(it[5:]) < 10**9 for it in requests if it.startswith(b"tick "))


def number(value: int) -> ber.Field:
    """Returns a whole number as a value."""
    return ber.Field(ber.INTEGER, ber.number_content(value))


NULL = ber.Field(ber.NULL, b"")
SPLIT = (*oids.ENTRIES["split"], 3, 1, 1)
ASKED = [
    (snmp.V1, snmp.GET, 0, 0, [(oids.CLOCK, NULL), (oids.CONTROL, NULL)]),
    (snmp.V1, snmp.SET, 0, 0, [(oids.CONTROL, number(1))]),
    (snmp.V2C, snmp.GET_NEXT, 0, 0, [((1, 3, 6, 1), NULL), (oids.GLOBAL_TIME, NULL)]),
    (snmp.V2C, snmp.BULK, 1, 5, [(oids.GLOBAL_TIME, NULL), (oids.ASC, NULL)]),
    (snmp.V2C, snmp.SET, 0, 0, [(oids.TRANSACTION, number(2)), (SPLIT, number(20))]),
    (snmp.V1, snmp.SET, 0, 0, [((*oids.VEH_CALL, 1), number(8)), ((*oids.PREEMPT_STATE, 1), number(1))]),
    (snmp.V2C, snmp.SET, 0, 0, [(oids.GLOBAL_TIME, ber.Field(ber.COUNTER, ber.number_content(1000)))]),
]  # fmt: skip
DATAGRAMS = [
    snmp.octets_of(snmp.Message(version, b"public", kind, 7, first, second, [snmp.Binding(*it) for it in pairs]))
    for version, kind, first, second, pairs in ASKED
]


@pytest.fixture(scope="module")
def answer():
    """Returns what a street behind its front answers to a datagram; its time stands."""
    loop = asyncio.new_event_loop()
    street = Street(str(PROGRAM), SCENARIO, Pace(0), [])
    loop.run_until_complete(street.open())
    fronts = Fronts(street)
    yield lambda octets: loop.run_until_complete(asyncio.wait_for(fronts.datagram(1, octets), 60))
    loop.run_until_complete(street.close())
    loop.close()


@tried(500)
@given(damaged(DATAGRAMS))
def test_damaged_datagrams(answer, octets):
    reply = answer(octets)
    try:
        asked = snmp.message_of(octets)
    except ber.Malformed:
        assert reply is None
        return
    if reply is not None:
        found = snmp.message_of(reply)
        assert (found.version, found.number, found.kind) == (asked.version, asked.number, snmp.RESPONSE)
