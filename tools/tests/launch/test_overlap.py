"""What is added to the program's line about an overlap that it refuses: by the parents' clearances, worked by hand."""

import io
import json

import pytest

from streettools.launch import overlap

TABLES = {"cells": [["phase", 2, 8, 40], ["phase", 2, 9, 10], ["phase", 3, 8, 35], ["phase", 3, 9, 10]]}
"""Phase 2 clears in 4.0 + 1.0 s, phase 3 in 3.5 + 1.0 s. Of the standard table 1 to 8 are enabled."""


def said(line: str, cabinet=1, parents="0203", trail=0, yellow=30, red=10) -> list[str]:
    """Returns what is added to a line."""
    trace = b"S " + json.dumps({"cabinets": [TABLES, {}]}).encode() + b"\nF 1 0\n"
    words = f"--cabinet {cabinet} --parents {parents} --trail {trail} --yellow {yellow} --red {red}".split()
    return list(overlap.lines(line, words, io.BytesIO(trace)))


def test_an_overlap_that_clears_too_late_is_added_up_and_times_that_fit_are_named():
    """2.0 + 3.5 + 1.0 s against 4.5 s: of the trail nothing is left."""
    first, second = said("overlap: rule 4 at row 3", trail=20, yellow=35)
    assert first == (
        "trail 2 s + yellow change 3.5 s + red clearance 1 s are 6.5 s, but phase 3 clears in 4.5 s (yellow change "
        "3.5 s, red clearance 1 s): the overlap has to be red by then, so there is no trail beyond it"
    )
    assert second == "these times fit all parents: --trail 0 --yellow 35 --red 10"
    assert said("overlap: rule 4 at row 3", trail=9, yellow=30, red=10)[1].endswith("--trail 5 --yellow 30 --red 10")


@pytest.mark.parametrize(
    ("line", "given", "words"),
    [
        ("overlap: rule 1 at row 0", {"cabinet": 5}, "the trace has no cabinet 5: its cabinets are 1 to 2"),
        ("overlap: rule 2 at row 9", {"parents": "0209"},
         "phase 9 is not enabled at the start; enabled are 1, 2, 3, 4, 5, 6, 7, 8"),
        ("overlap: rule 2 at row 2", {"parents": "0202"}, "--parents names phase 2 twice"),
        ("overlap: rule 2 at row 32", {"parents": "0220"},
         "32 in --parents is not a phase: two digits for each phase, 01 to 10 in hexadecimal"),
        ("overlap: rule 3 at row 0", {"yellow": 29},
         "--yellow 29 is 2.9 s: the yellow change of an overlap is 3 s or more"),
    ],
)  # fmt: skip
def test_each_other_rule_has_its_sentence(line, given, words):
    assert said(line, **given) == [words]


def test_another_line_and_a_text_that_has_changed_add_nothing(capsys):
    assert said("trace: line 3 breaks rule 2") == []
    overlap.show("overlap: rule 4 at row 2", ["--cabinet", "1"], io.BytesIO(b"no trace"))
    assert capsys.readouterr().err == ""
