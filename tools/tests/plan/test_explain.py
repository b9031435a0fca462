"""What lines of the program say of a plan: refusals, downloads, traces, overlaps."""

import json

import pytest

from streettools.plan import explain, sources

SCENARIO = {"version": 1, "rounds": 10, "ticks": 10, "cabinets": [{}]}


def explained(tmp_path, scenario, line: str) -> str:
    """Returns what a line says of a scenario."""
    path = tmp_path / "street.json"
    path.write_text(scenario if isinstance(scenario, str) else json.dumps(scenario))
    return "\n".join(explain.explained(sources.load(str(path)), line))


def test_a_refusal_by_a_rule_is_explained(tmp_path):
    """The rule, and the numbers of its row."""
    words = explained(
        tmp_path,
        {**SCENARIO, "cabinets": [{}, {"cells": [["pattern", 1, 2, 80]]}]},
        "scenario: cabinet 2 breaks rule 17 at row 1",
    )
    assert "rule 17 requires: the splits of each ring total the cycle" in words
    assert (
        "cabinet 2: pattern 1 (split 1): the splits of ring 1" in words
        and "but the cycle is 80 s; take 10 s off" in words
    )


def test_a_refusal_of_a_value_is_explained_with_its_place(tmp_path):
    """The line and the column of the number, and what may stand there."""
    words = explained(tmp_path, '{"version":1,"rounds":10,\n"ticks":601,"cabinets":[{}]}', "scenario: limit ticks")
    assert words == "line 2, column 9, ticks: error: expected 1 to 600, found 601"
    words = explained(tmp_path, '{"version":1,"rounds":10,,\n"ticks":601}', "scenario: not JSON")
    assert "line 1, column 26" in words


def test_a_refused_download_is_explained(tmp_path):
    """By the tables that were in force then."""
    loads = [
        {"round": it, "cabinet": 1, "cells": cells}
        for it, cells in ((1, [["pattern", 1, 3, 10]]), (5, [["phase", 4, 8, 20]]))
    ]
    words = explained(tmp_path, {**SCENARIO, "loads": loads}, "L 1 2 refused 10 4")
    assert "phase 4 has a yellow change of 2 s" in words


@pytest.mark.parametrize(
    ("line", "words"),
    [
        ("trace: line 214 breaks rule 6", "a different F line is expected here"),
        ("overlap: rule 4 at row 3", "longer than this parent may clear in"),
        ("write fault", "a full disk"),
        ("usage: arterial run", "unknown command or wrong arguments"),
    ],
)
def test_other_lines_of_the_program_are_explained(tmp_path, line, words):
    """Those that speak of no table."""
    assert words in explained(tmp_path, SCENARIO, line)


@pytest.mark.parametrize(
    "line",
    ["what is this", "scenario: cabinet 1 breaks rule 10 at row 2", "scenario: cabinet 3 breaks rule 1 at row 2"],
)
def test_a_line_that_does_not_fit_the_file_is_said_to(tmp_path, line):
    """No line of the program, a rule that is kept, a cabinet that isn't there."""
    with pytest.raises(explain.NotKnown):
        explained(tmp_path, SCENARIO, line)
