"""The pages that are made from sources are current: commands and options, manual pages, definitions."""

import argparse
import importlib
import re
import shutil
import subprocess
import sys

import pytest
from pages import TOP

sys.path.insert(0, str(TOP / "tools"))

from streettools import words  # noqa: E402
from streettools.reference import definitions, front_objects, main, manual, mib, program, tree  # noqa: E402
from streettools.shared import short_help  # noqa: E402
from streettools.shared.status import MEANINGS, Status  # noqa: E402
from streettools.street.ntcip.objects import OBJECTS  # noqa: E402

MANUAL = sorted(TOP.glob("docs/man/*.1"))


def parsers(reader: argparse.ArgumentParser):
    """Yields a parser, and all below it."""
    yield reader
    for action in reader._actions:
        if isinstance(action, argparse._SubParsersAction):
            for it in action.choices.values():
                yield from parsers(it)


READERS = [
    reader
    for modules in tree.MODULES.values()
    for name in modules
    for reader in parsers(importlib.import_module(f"streettools.{name}").parser())
]


def test_each_page_is_the_one_that_the_command_writes():
    """If this fails: tools/reference --write."""
    assert sorted(main.stale(TOP)) == []


def test_each_command_of_the_launcher_is_in_the_reference():
    assert sorted(tree.MODULES) == sorted(it.name for it in (*words.TOOLS, words.PROVE, words.TAKE))
    help_of_program = program.read(TOP)
    assert [it.name for it in help_of_program.parts if it.name[0] != "-"] != []
    assert {it.name for it in help_of_program.parts if it.name[0] != "-"} == set(words.PROGRAM)


def test_the_statuses_of_the_program_are_those_of_its_help():
    """0 to 8, as the help text lists them."""
    found = program.read(TOP)
    assert [number for number, _ in found.statuses] == list(range(9)) and found.statuses[7][1].startswith("the overlap")
    assert found.after.startswith("After 4") and found.more.startswith("docs/SCENARIO.md")
    assert list(MEANINGS) == list(Status)


@pytest.mark.parametrize("reader", READERS, ids=lambda it: it.prog)
def test_the_short_help_has_at_most_20_lines_of_100_columns(reader):
    lines = short_help.text(reader).splitlines()
    assert len(lines) <= 20 and max(map(len, lines)) <= 100, lines
    assert lines[0].startswith(f"usage: {reader.prog}") and lines[-1] == f"`{reader.prog} --help` shows all."


@pytest.mark.parametrize("reader", READERS, ids=lambda it: it.prog)
def test_each_option_has_a_meaning_and_the_default_that_the_parser_has(reader):
    """A default that is a number or a text is given in the help as (default: ..)."""
    for action in filter(short_help.is_shown, reader._actions):
        if isinstance(action, argparse._SubParsersAction):
            continue
        assert action.help, action
        if action.default not in (None, False, argparse.SUPPRESS, []):
            found = tree.DEFAULT.search(action.help)
            default = action.default
            shown = f"{default:g}" if isinstance(default, float) else str(default)
            assert found and shown in found[1], (action.option_strings, action.help)


def test_an_option_is_read_with_its_range_unit_and_default():
    """Worked by hand from one parser."""
    reader = importlib.import_module("streettools.sweep.words").parser()
    found = {it.name: it for it in tree.command_of(reader).options}
    assert found["--timeout S"] == tree.Option("--timeout S", "time limit of a run", "1 to 86,400 seconds", "600")
    assert found["--count"].default == "one is required" and found["study"].default == "required"


def test_a_definition_is_read_with_its_comment_its_arguments_and_what_it_has():
    """A clause with names gives the names of the arguments; what has no comment belongs to the one before."""
    text = (
        "-- What it is\n-- about.\nuse Rattle.x.{y}\n\n-- it is even\nabbrev pub even : Nat\n    -> Bool\n"
        "even n = go n\n\n"
        "abbrev pub go : Nat -> Bool\ngo zero = true\ngo one = false\n\n"
        "-- two facts\npub record Both (n : Nat) : Type 0 where\n  pub first : A\n  pub second : B\n\n"
        "-- either\npub data Either : Type 0 where\n  Left : Either\n"
    )
    file = definitions.read("crates/a/specs/B.antt", text)
    assert file.about == "What it is about."
    assert [(it.comment, [str(one) for one in it.definitions]) for it in file.entries] == [
        ("it is even", ["`even n : Nat -> Bool`", "`go : Nat -> Bool`"]),
        ("two facts", ["`record Both (n : Nat)` (`first`, `second`)"]),
        ("either", ["`data Either` (`Left`)"]),
    ]


def test_each_file_of_definitions_that_the_contract_reaches_is_in_one_area():
    known = definitions.files(TOP)
    listed = [file.place for _, _, files in definitions.areas(known) for file in files]
    assert sorted(listed) == sorted(it.place for it in known.values()) and len(known) > 150


def test_text_that_roff_would_read_is_escaped():
    assert manual.escaped(".B a-b\\c 'd'") == "\\&.B a\\-b\\ec \\(aqd\\(aq"


@pytest.mark.skipif(shutil.which("groff") is None, reason="groff is missing")
@pytest.mark.parametrize("page", MANUAL, ids=lambda it: it.name)
def test_groff_has_no_warning_for_a_manual_page(page):
    ran = subprocess.run(["groff", "-ww", "-man", "-Tutf8", page], capture_output=True, text=True, timeout=60)
    assert (ran.returncode, ran.stderr) == (0, "")
    assert re.search(r"EXIT STATUS", re.sub(r".\x08", "", ran.stdout))


def test_no_manual_page_has_an_old_name():
    assert [it.name for it in MANUAL] == sorted(["arterial.1", *(f"arterial-{it.name}.1" for it in words.TOOLS)])


@pytest.mark.parametrize(
    "row",
    [
        "| `downloadBegin` | 1.3.6.1.4.1.32473.1.1.2 | Set |",
        "| `downloadOutcome` | 1.3.6.1.4.1.32473.1.1.7 | read |",
        "| `cabinetClock` | 1.3.6.1.4.1.32473.1.2.1 | read, Set |",
        "| `backupTime` | 1.3.6.1.4.1.32473.1.3.4 | read, download |",
        "| `systemPatternControl` | 1.3.6.1.4.1.1206.4.2.1.4.14 | read, Set |",
        "| `coordCorrectionMode` | 1.3.6.1.4.1.1206.4.2.1.4.2 | read, download |",
        "| `phaseMinimumGreen` | 1.3.6.1.4.1.1206.4.2.1.1.2.1.4 | read, download |",
        "| `sysName` | 1.3.6.1.2.1.1.5.0 | read |",
        "| `preemptControlState` | 1.3.6.1.4.1.1206.4.2.1.6.3.1.2.n, n from 1 to 8 | read, Set |",
    ],
)
def test_an_object_has_its_identifier_and_by_what_it_changes(row):
    """By mibs/ARTERIAL-PROFILE-MIB and docs/SNMP-CONFORMANCE.md, written down by hand."""
    assert mib.page(TOP).count(row) == 1


def test_each_object_of_the_front_end_has_one_name():
    found = [[base for base in front_objects.NAMED if arcs[: len(base)] == base] for arcs in OBJECTS.types]
    assert [it for it in found if len(it) != 1] == []
    assert {it[0] for it in found} == {*front_objects.NAMED}


def test_each_identifier_in_the_page_of_conformance_is_that_of_its_object():
    """By the page that is made from the MIB."""
    rows = re.findall(r"^\| `(\w+)` \| ([\d.]+)", mib.page(TOP), re.M)
    listed = dict(rows)
    text = (TOP / "docs/SNMP-CONFORMANCE.md").read_text(encoding="utf-8")
    shown = re.findall(r"`(\w+)` \| ([\d.]+) \|", text)
    assert len(shown) > 10 and [it for it in shown if listed[it[0]] != it[1]] == []
