"""Plans sent to the devices of a street: each intersection's tables reach its own device, or nothing is set."""

import contextlib
import json
import os
import re
import signal
import subprocess

import pytest

from streettools.cabinet.messages import GET
from streettools.plan import addresses, cell_words, live, reading, sending, toml_text
from streettools.shared.cells import tables_of
from streettools.shared.fault import Fault
from streettools.shared.oids import ASC

from .conftest import SECONDS, TOP, plan

HEAD = 'title = "Harbor"\n'
ROW = '[[intersection]]\nname = "{}"\n[intersection.phase]\n2 = {{min_green = {}}}\n'
ROW += "[intersection.pattern.1]\ncycle = 90\noffset = {}\n"
STREETS = ["Harbor & Front", "Harbor & Mill", "Harbor & Grant"]
OLD = [(10, 0), (10, 20), (10, 40)]
NEW = [(10, 0), (11, 20), (10, 42)]
"""Minimum green of phase 2 and offset of pattern 1, by intersection."""


def sheet(folder, name, rows, streets=STREETS):
    """Writes a sheet, and returns its file."""
    path = folder / name
    path.write_text(HEAD + "".join(ROW.format(street, *row) for street, row in zip(streets, rows, strict=True)))
    return path


@pytest.fixture
def plans(tmp_path):
    """An old and a new plan of three intersections; the first one stays as it is."""
    return sheet(tmp_path, "old.toml", OLD), sheet(tmp_path, "new.toml", NEW)


@contextlib.contextmanager
def live_street(program, sheet_file, *words):
    """A street of live cabinets from a sheet, one behind the other from the port that it gives."""
    for first in range(30_000 + os.getpid() % 5000, 60_000, 16):
        command = ["/usr/bin/python3", "-B", TOP / "tools/streettools", "street", "--program", program]
        command += ["--speed", "step", "--ticks-per-message", 1, "--scenario", sheet_file]
        command += ["--ports", f"{first}+", *words]
        street = subprocess.Popen(list(map(str, command)), stderr=subprocess.PIPE, text=True)
        if re.search(r"answer", street.stderr.readline()):
            break
        street.communicate(timeout=SECONDS)
    try:
        yield first
    finally:
        street.send_signal(signal.SIGINT)
        street.communicate(timeout=SECONDS)


def held(first):
    """Returns what the devices hold: minimum green of phase 2 and offset of pattern 1."""
    found = []
    for port in (first, first + 1, first + 2):
        asked = [((*ASC, 1, 2, 1, 4, 2), None), ((*ASC, 4, 7, 1, 3, 1), None)]
        reply = live.Agent("127.0.0.1", port, "public").ask(GET, asked)
        found.append(tuple(int.from_bytes(content, "big") for _, __, content in reply.bindings))
    return found


def test_each_intersection_gets_its_own_tables(program, plans):
    """Ports are counted up as the street counts them: the intersections that change hold the new plan, the other one
    the old one. Sent once more, nothing is left to set; and back again with the next id."""
    with live_street(program, plans[0]) as first:
        ran = plan("loads", *plans, "--sets", f"127.0.0.1:{first}+", "--send")
        assert ran.returncode == 0, ran.stderr
        said = ran.stdout.decode().splitlines()
        assert said[:4] == [
            f"intersection 2 (Harbor & Mill) at 127.0.0.1:{first + 1}: 1 download, 1 value to change",
            "  phase 2, min_green: 10 to 11",
            f"intersection 3 (Harbor & Grant) at 127.0.0.1:{first + 2}: 1 download, 1 value to change",
            "  pattern 1, offset: 40 to 42",
        ]
        assert held(first) == NEW
        again = plan("loads", *plans, "--sets", f"127.0.0.1:{first}+", "--send")
        assert again.returncode == 0 and again.stdout.count(b"it has the new plan already") == 2
        back = plan("loads", *reversed(plans), "--sets", f"127.0.0.1:{first}+", "--send")
        assert back.returncode == 0 and held(first) == OLD


def test_a_device_of_another_intersection_is_refused_and_nothing_is_set(program, plans):
    """The addresses of two intersections are exchanged: their tables tell. Then the first one's device is given."""
    with live_street(program, plans[0]) as first:
        words = [f"--sets=3=127.0.0.1:{first + 1}", f"--sets=2=127.0.0.1:{first + 2}", "--send"]
        ran = plan("loads", *plans, *words)
        assert ran.returncode == 2 and ran.stderr.count(b"its tables aren't those of the old plan") == 2
        assert b"pattern 1, offset is 40, not 20; they are those of intersection 3 (Harbor & Grant)" in ran.stderr
        assert b"nothing was set" in ran.stderr
        ran = plan("loads", *plans, f"--sets=3=127.0.0.1:{first}", "--only", "3", "--send")
        assert ran.returncode == 2 and b"pattern 1, offset is 0, not 40" in ran.stderr
        assert held(first) == OLD


def test_a_device_with_another_name_is_refused(program, tmp_path):
    """Tables that are the same everywhere: sysName tells the devices apart, and without it only --by-address does."""
    old, new = [(10, 0)] * 3, [(10, 0), (10, 0), (10, 7)]
    files = sheet(tmp_path, "old.toml", old), sheet(tmp_path, "new.toml", new)
    with live_street(program, files[0], "--as", "ntcip1202") as first:
        ran = plan("loads", *files, f"--sets=3=127.0.0.1:{first + 1}", "--send")
        assert ran.returncode == 2 and b"the device there is called 'Harbor & Mill' (sysName)" in ran.stderr
        assert plan("loads", *files, f"--sets=127.0.0.1:{first}+", "--send").returncode == 0
        assert held(first) == new
    with live_street(program, files[0]) as first:
        ran = plan("loads", *files, f"--sets=127.0.0.1:{first}+", "--send")
        assert ran.returncode == 2 and b"its tables are also those of intersection 1 (Harbor & Front), " in ran.stderr
        assert held(first) == old
        assert plan("loads", *files, f"--sets=127.0.0.1:{first}+", "--send", "--by-address").returncode == 0
        assert held(first) == new


def test_one_address_for_several_intersections_is_refused(plans):
    """As it was taken for all of them before; the line says what to write."""
    ran = plan("loads", *plans, "--sets", "127.0.0.1:23161")
    assert ran.returncode == 2 and ran.stdout == b""
    assert b"one address, 127.0.0.1:23161, for 3 intersections: write 127.0.0.1:23161+ (" in ran.stderr


def test_an_intersection_that_changes_needs_an_address_or_is_left_out_in_words(plans):
    ran = plan("loads", *plans, "--sets", "3=127.0.0.1:23163")
    assert ran.returncode == 2 and b"intersection 2 (Harbor & Mill) also changes, and has no address" in ran.stderr
    ran = plan("loads", *plans, "--sets", "3=127.0.0.1:23163", "--only", "3")
    assert ran.returncode == 0 and b"Harbor & Mill" not in ran.stdout and b"offset: 40 to 42" in ran.stdout


def test_a_plan_that_does_not_differ_sets_nothing(plans):
    ran = plan("loads", plans[0], plans[0], "--sets", "127.0.0.1:1+", "--send")
    assert (ran.returncode, ran.stdout) == (0, b"no value differs: nothing is set\n")


def test_other_machines_are_set_only_where_that_is_said(plans):
    ran = plan("loads", *plans, "--sets", "192.0.2.1:161+", "--send")
    assert ran.returncode == 2 and b"not on this machine" in ran.stderr


@pytest.mark.parametrize(
    ("words", "said"),
    [
        (["h:1", "h:2"], "several addresses"),
        (["2=h:7", "3=h:7"], "intersections 2 and 3 have one address, h:7"),
        (["2=h:7", "2=h:8"], "intersection 2 has two addresses, h:7 and h:8"),
        (["4=h:7"], "there is no intersection 4; there are 3"),
        (["0=h:7"], "there is no intersection 0"),
        (["h:65534+"], "leaves no ports for 3 intersections"),
        (["h:0"], "is not an address"),
        (["h:70000"], "is not an address"),
        (["2=h:7+"], "is not an address"),
        (["a b:7"], "is not an address"),
        ([""], "is not an address"),
        (["h:7\n"], "is not an address"),
    ],
)
def test_addresses_that_can_not_be_meant_are_refused(words, said):
    with pytest.raises(Fault, match=re.escape(said)):
        addresses.places_of(words, 3)


def test_addresses_are_counted_up_or_named_one_by_one():
    place = addresses.Place
    assert addresses.places_of(["h:10161+"], 3) == {1: place("h", 10161), 2: place("h", 10162), 3: place("h", 10163)}
    assert addresses.places_of(["3=h:7", "1=h:8"], 3) == {3: place("h", 7), 1: place("h", 8)}
    assert addresses.places_of(["h"], 1) == {1: place("h", 161)}


@pytest.mark.parametrize("sign", ["\n", "\r", "\x1b", "\t", "\0", "\u2028", "\x9b"])
def test_a_name_with_a_control_character_does_not_reach_the_terminal(tmp_path, sign):
    old, new = tmp_path / "old.json", tmp_path / "new.json"
    old.write_text('{"version":1,"rounds":9,"ticks":10,"cabinets":[{}]}')
    new.write_text('{"version":1,"rounds":9,"ticks":10,"cabinets":[{"cells":[["phase",2,8,43]]}]}')
    names = {"intersections": [{"name": f"Main & 3rd{sign}second line"}]}
    (tmp_path / "new.names.json").write_text(json.dumps(names))
    made = plan("loads", old, new, "--sets", "127.0.0.1:10161")
    text = made.stdout.decode() + made.stderr.decode()
    assert len(text.splitlines()) <= 3 and all(it.isprintable() for it in text.splitlines())


def test_values_of_a_device_are_shown_whatever_they_are():
    """As a sheet has them, in seconds and words; what can't be in a cell as it came."""
    values = {
        ("phase", 2, 20): [(4, "green"), (99, "99"), ((1, 2), "1 2")], ("phase", 2, 8): [(43, "4.3"), (-7, "-7")],
        ("phase", 2, 23): [((5, 6), "5 6"), ((), "none"), (7, "7")], ("split", 1, 2, 4): [(7, "omitted"), (8, "8")],
        ("split", 1, 2, 5): [(1, "yes"), (2, "2")], ("unit", 7): [(2, "floating"), (3, "3")],
    }  # fmt: skip
    assert all(cell_words.shown(cell, value) == said for cell, rows in values.items() for value, said in rows)


def test_tables_that_another_intersection_has_before_or_after_tell_nothing():
    """Intersection 2 gets the tables that 3 had, 4 has those of 1 all along; 5 is like none."""
    made = {name: tables_of(reading.street_of(toml_text.read(HEAD + ROW.format("x", 10, at))).scenario["cabinets"][0])
            for at, name in enumerate("abcde")}  # fmt: skip
    pairs = [("a", "a"), ("b", "c"), ("c", "d"), ("a", "a"), ("e", "e")]
    assert sending.alike([(made[one], made[other]) for one, other in pairs]) == [[4], [3], [2], [1], []]


def test_a_sheet_in_the_tests_is_what_it_says():
    """The rows above, as tables."""
    text = HEAD + ROW.format("x", 11, 42)
    tables = tables_of(reading.street_of(toml_text.read(text)).scenario["cabinets"][0])
    assert (tables.phase(2, 4), tables.pattern(1, 3), tables.pattern(1, 2)) == (11, 42, 90)
