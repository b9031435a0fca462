"""The 22 rules in words: a broken sheet for each, with its numbers, and the program refuses the same rule."""

import json
import random
import re
import subprocess
import sys

import pytest

from streettools.plan import check, jsontext, reading, rules, sources, toml_text
from streettools.shared import shapes
from streettools.shared.cells import tables_of
from streettools.plan.findings import Level

from .conftest import TOP, said

sys.path.insert(0, str(TOP / "vectors"))

from damage import damaged  # noqa: E402
from first_fault import first_fault  # noqa: E402

from .random_tables import cells_of, wrong_cell  # noqa: E402

CASES = {
    1: (3, "[intersection.phase]\n3 = {ring = 4}", "phase 3 is enabled, but its ring is 4"),
    2: (2, "[intersection.phase]\n2 = {concurrent = [5, 6, 17]}", "phase 2 may be on with 17, which is not a phase"),
    3: (
        1,
        "[intersection.phase]\n5 = {concurrent = [2]}",
        "phase 1 may be on with phase 5, but not the other way round: 5 lists 2",
    ),
    4: (
        1, "[intersection.phase]\n1 = {concurrent = [5, 6, 2]}\n2 = {concurrent = [5, 6, 1]}",
        "phase 1 and phase 2 are both in ring 1, which shows one phase at a time",
    ),
    5: (
        3,
        "[intersection.phase]\n\"7 8\" = {enabled = false}",
        "no enabled phase may be on with phase 3 (its list is 7 and 8)",
    ),
    6: (
        1, "[intersection.phase]\n1 = {concurrent = [6]}\n5 = {concurrent = [2]}",
        "phase 1 may be on with 6, and phase 2 of the same ring with 5 and 6",
    ),
    7: (0, 'rings = ["1 2", "5 6"]', "phases 1, 2, 5 and 6 are all in one barrier group"),
    8: (
        1,
        '[intersection.sequence]\n1 = ["1 2 3", "5 6 7 8"]',
        "sequence 1 has 1 2 3 in ring 1, whose enabled phases are 1, 2, 3 and 4: 4 is missing",
    ),
    9: (
        2, '[intersection.sequence]\n2 = ["1 2 | 3 4", "7 8 | 5 6"]',
        "sequence 2 takes the sides of the barrier as 1, 2, 5 and 6 | 3, 4, 7 and 8 in ring 1, and as 3, 4, 7 and 8 | "
        "1, 2, 5 and 6 in ring 2",
    ),
    10: (4, "[intersection.phase]\n4 = {yellow = 2.9}", "phase 4 has a yellow change of 2.9 s; it must be 3 s or more"),
    11: (
        2, "[intersection.phase]\n2 = {red_revert = 9.6}",
        "phase 2 has a red revert of 9.6 s, but phase 1 may have ended after 9.5 s "
        "(minimum green 5 + yellow 3.5 + red 1)",
    ),
    12: (2, '[intersection.phase]\n4 = {startup = "green"}', "phase 2 starts up green, and so does phase 4"),
    13: (0, "[intersection.coordination]\nskip_limit = 0", "skip_limit is 0; it must be 0.1 s or more"),
    14: (
        5,
        "[intersection.pattern.5]\ncycle = 90\nsplit = 33",
        "pattern 5 has a cycle of 90 s, but it runs split 33, and splits are 1 to 32",
    ),
    15: (
        1,
        "[intersection.pattern.1]\noffset = 95",
        "pattern 1 has an offset of 95 s in a cycle of 90 s; it must be less: 5 s is the same moment",
    ),
    16: (
        1,
        "[intersection.split.1]\ncoordinated = [2, 8]",
        "pattern 1 (split 1) coordinates 2 and 8, which may not be on together",
    ),
    17: (
        1, "[intersection.pattern.1]\ncycle = 80",
        "the splits of ring 1, phases 1, 2, 3 and 4, come to 15 + 30 + 15 + 30 = 90 s, but the cycle is 80 s; take 10 "
        "s off",
    ),
    18: (
        2,
        "[intersection.phase]\n3 = {walk = 7, ped_clear = 17}\n[intersection.pattern.1]\ncycle = 0\n"
        "[intersection.pattern.2]\ncycle = 110\n"
        "splits = {1 = 15, 2 = 30, 3 = 18, 4 = 47, 5 = 15, 6 = 30, 7 = 18, 8 = 47}",
        "pattern 2 gives phase 3 a split of 18 s, but walk 7 + flashing don't walk 17 + yellow 3.5 + red 1 need 28.5 "
        "s; give it 11 s more, "
        "e.g. from phase 4, which has 22 s to spare",
    ),
    19: (
        1, "[intersection.coordination]\nadd_limit = 25",
        "pattern 1 coordinates phase 2 and phase 6: from local zero, the later of their starts, both are green for "
        "24.5 s, but while coordination corrects its offset, a cycle may be lengthened by add_limit, 25 s (the rule "
        "asks it in every mode of correction), which this green must have room for; make add_limit 24.5 s or less, or "
        "the splits of 2 and 6 so long that this green has 1 s more (as --fix does)",
    ),
    20: (
        3,
        "[intersection.preempt.3]\ndwell = [2, 4]",
        "preempt 3 is to show phase 2 and phase 4 together (dwell), which may not be on together",
    ),
    22: (1, "[intersection.phase]\n1 = {ped_clear = 9}", "phase 1 has a pedestrian clearance of 9 s without a walk"),
}  # fmt: skip
REFUSED = re.compile(r"scenario: cabinet (\d+) breaks rule (\d+) at row (\d+)")


def source_of(text: str) -> sources.Source:
    """Returns a sheet as `plan check` has read it."""
    street, faults = reading.read_sheet(toml_text.read(text))
    assert not faults
    return sources.Source("street.toml", street=street)


def errors_of(source: sources.Source) -> list:
    """Returns the errors that a check finds."""
    return [it for it in check.findings(source) if it.level is Level.ERROR]


@pytest.mark.parametrize("rule", CASES)
def test_a_broken_sheet_has_its_sentence_with_the_numbers(rule):
    """The rule is told with its row, in the words of the sheet."""
    row, text, words = CASES[rule]
    found = errors_of(source_of(f'[[intersection]]\nname = "Main & 3rd"\n{text}\n'))
    assert (found[0].rule, found[0].line) == (rule, f"scenario: cabinet 1 breaks rule {rule} at row {row}")
    assert found[0].where == "Main & 3rd" and words in found[0].words


@pytest.mark.parametrize("rule", CASES)
def test_the_program_refuses_the_same_rule(rule, program):
    """What the program says of the scenario is the first of what a check finds."""
    street = reading.street_of(toml_text.read(f"[[intersection]]\n{CASES[rule][1]}\n"))
    assert (
        said(program, json.dumps(street.scenario).encode())
        == f"scenario: cabinet 1 breaks rule {rule} at row {CASES[rule][0]}"
    )


LAYOUT = {
    "version": 1,
    "rounds": 6,
    "ticks": 10,
    "cabinets": [{}],
    "loads": [{"round": 1, "cabinet": 1, "cells": [["phase", 3, 22, 2]]}],
}


def test_a_download_that_moves_a_phase_is_told_with_rule_21():
    """Of a download alone: phase 3 goes to the other ring. Other rules are broken besides, and the first is told."""
    before, after = tables_of({}), tables_of({"cells": [["phase", 8, 21, 0], ["phase", 8, 23, "03"]]})
    assert rules.Broken(21, 8) in rules.broken(after, before)
    moved = [
        ["phase", 1, 21, 0],
        ["phase", 5, 21, 0],
        ["sequence", 1, 1, "020304"],
        ["sequence", 1, 2, "060708"],
        ["pattern", 1, 2, 0],
    ]
    scenario = {**LAYOUT, "loads": [{"round": 1, "cabinet": 1, "cells": moved}]}
    found = check.findings(sources.Source("street.json", street=reading.Street(scenario, reading.names.Names())))
    assert [(it.level, it.rule) for it in found if it.level is not Level.NOTE] == [(Level.WARNING, 21)]
    assert (
        "download 1, sent in round 1, will be refused: the download turns phase 1 off; a cabinet accepts that only in "
        "flash"
        in found[0].words
    )


def test_the_cabinet_refuses_that_download_with_rule_21(program):
    """Verify is answered with the refusal that the check foretells."""
    moved = [
        ["phase", 1, 21, 0],
        ["phase", 5, 21, 0],
        ["sequence", 1, 1, "020304"],
        ["sequence", 1, 2, "060708"],
        ["pattern", 1, 2, 0],
    ]
    text = json.dumps({**LAYOUT, "loads": [{"round": 1, "cabinet": 1, "cells": moved}]}).encode()
    trace = subprocess.run([program, "run"], input=text, capture_output=True, check=True).stdout
    assert b"\nL 1 1 refused 21 1\n" in trace


def test_each_rule_is_among_the_cases():
    """All 22: 21 of tables, and the one of downloads."""
    assert sorted([*CASES, 21]) == list(range(1, 23))


def refusals() -> list[dict]:
    """Returns the texts that are refused, with the lines due, that independent programs wrote."""
    return [json.loads(line) for line in (TOP / "vectors/refusals.jsonl").read_text().splitlines()]


def first_line(content: bytes) -> str:
    """Returns what the program says of a text, by the first that a check finds."""
    try:
        value = jsontext.read(content)
    except jsontext.NoJson:
        return "scenario: not JSON"
    for fault in shapes.scenario_faults(value):
        return fault.line
    for number, cabinet in enumerate(value["cabinets"], 1):
        for broken in rules.broken(tables_of(cabinet)):
            return f"scenario: cabinet {number} breaks rule {broken.rule} at row {broken.row}"
    return ""


def test_every_refusal_of_the_vectors_is_the_first_that_a_check_finds():
    """952 texts with the lines of independent programs, and fifty by hand or a further program."""
    for it in refusals():
        assert first_line(it["text"].encode("utf-8", "surrogatepass")) == it["line"]


def test_accepted_scenarios_have_no_error():
    """Texts that are taken, sixty of an independent program and eleven worked by hand."""
    for line in (TOP / "vectors/accepted.jsonl").read_text().splitlines():
        assert first_line(json.loads(line)["text"].encode()) == ""


def test_the_program_agrees_on_random_tables_with_wrong_cells(program):
    """What it says of nearly consistent tables is the first rule that is found, and it takes those without any."""
    for seed in range(25):
        dice = random.Random(7_000_000 + seed)
        cells = cells_of(dice) + [wrong_cell(dice) for _ in range(dice.randint(0, 3))]
        text = json.dumps({"version": 1, "rounds": 1, "ticks": 1, "cabinets": [{"cells": cells}]}).encode()
        assert said(program, text) == first_line(text)


OTHERS = (
    b"0",
    b"-1",
    b"-0",
    b"1.0",
    b"1e999",
    b"17",
    b"256",
    b"864000",
    b"18446744073709551616",
    b"null",
    b"true",
    b"[]",
    b'"x"',
    b'"\\ud800"',
    b"NaN",
)
VALUE = re.compile(rb'"(?:[^"\\]|\\.)*"|-?\d+|true|false')


def other_value(dice: random.Random, text: bytes) -> bytes:
    """Returns a text with one of its values or names another one."""
    found = dice.choice(list(VALUE.finditer(text)))
    return text[: found.start()] + dice.choice(OTHERS) + text[found.end() :]


def test_damaged_texts_have_the_fault_that_another_reader_finds():
    """Scenarios with octets and values changed: the first fault is that of the reader of the vectors, which shares
    nothing with this one."""
    texts = [
        it.read_bytes() for name in ("free", "whole") for it in sorted((TOP / "vectors" / name).glob("*.json"))[:8]
    ]
    texts = [it for it in texts if len(it) < 20_000]
    dice, count = random.Random(5), 0
    for number in range(250):
        text = texts[number % len(texts)]
        text = damaged(dice, text) if number % 2 else other_value(dice, text)
        due, _ = first_fault(text)
        if due is not None:
            count += 1
            assert first_line(text) == f"scenario: {due}"
    assert count > 125
