"""What stands behind the program's line where `check` refuses a text: the line read, and the line due. The lines due
are those of traces that an independent program wrote."""

import os
import pathlib
import shutil
import sys

import pytest

from .conftest import TOP

sys.path.insert(0, str(TOP / "tools"))
from streettools.launch import due  # noqa: E402

TRACES = TOP / "tools/tests/look/traces"
MIXED = (TRACES / "mixed.trace").read_bytes()
"""A trace whose journals have another order than `run` writes."""

SERIAL = (TRACES / "coord-003.trace").read_bytes()
"""A trace whose journals are those that `run` writes."""

PROGRAM = pathlib.Path(os.environ.get("ARTERIAL_PROGRAM", TOP / "crates/arterial/out/arterial"))
NONE = ""


def with_line(text: bytes, number: int, line: bytes) -> bytes:
    """Returns a text with another line in the place of one."""
    lines = text.split(b"\n")
    lines[number - 1] = line
    return b"\n".join(lines)


def first_of(text: bytes, kind: bytes, behind: int = 1) -> int:
    """Returns the number of the first line of a kind behind the line of a number."""
    lines = text.split(b"\n")
    return next(it for it in range(behind + 1, len(lines) + 1) if lines[it - 1].startswith(kind))


@pytest.mark.parametrize(("kind", "rule"), [(b"F", 6), (b"A", 7), (b"L", 8), (b"M", 9), (b"R", 4), (b"Z", 4)])
def test_of_a_changed_line_the_one_that_stood_there_is_due(kind, rule):
    number = first_of(MIXED, kind + b" ", 10)
    stood = MIXED.split(b"\n")[number - 1]
    text = with_line(MIXED, number, stood + b"7")
    read, shown = due.told(NONE, text, f"trace: line {number} breaks rule {rule}\n")
    assert read.startswith("read      ") and shown.startswith("expected  ")
    assert shown.removeprefix("expected  ") == stood.decode() or len(stood) > due.WIDEST and " .." in shown + read


def test_of_a_journal_the_items_are_due_in_any_order():
    """Cabinet 1 has a message on the stream of downloads, one of polls, and 40 ticks in round 1 (`4*14 2*1 4*11 1*1
    4*15`)."""
    text = with_line(MIXED, 4, b"J 1 4*1")
    assert due.told(NONE, text, "trace: line 4 breaks rule 5") == [
        "read      J 1 4*1",
        "expected  J 1 1*1 2*1 4*40   (these items in any order)",
    ]


def test_a_text_that_ends_and_one_that_goes_on():
    lines = MIXED.split(b"\n")
    cut = b"\n".join(lines[:2]) + b"\n"
    assert due.told(NONE, cut, "trace: line 3 breaks rule 10") == [due.ENDED, "expected  R 1"]
    number = len(lines)
    assert due.told(NONE, MIXED + b"R 9\n", f"trace: line {number} breaks rule 11") == [
        "read      R 9",
        f"expected  nothing: the trace ends with line {number - 1}",
    ]


def test_a_last_line_without_its_newline_lacks_that():
    number = MIXED.count(b"\n")
    read, shown = due.told(NONE, MIXED[:-1], f"trace: line {number} breaks rule 2")
    assert (read, shown) == ("read      Z 6", "expected  Z 6   (with a newline after it)")


def test_bytes_that_are_no_line_are_shown_as_they_are():
    read, shown = due.told(NONE, with_line(MIXED, 3, b"R\t\xff\x01"), "trace: line 3 breaks rule 2")
    assert read == "read      R\\x09\\xff\\x01" and shown == "expected  R 1"


def test_of_long_lines_the_part_around_the_difference_is_shown():
    read, shown = due.shown(b"A" * 300 + b"x" + b"A" * 300, b"A" * 300 + b"y" + b"A" * 300)
    assert len(read) < 180 and read.startswith("read      .. A") and read.endswith(" ..")
    assert read[10:].index("x") == shown[10:].index("y")


def test_nothing_is_said_of_a_text_that_is_too_long_or_of_another_answer():
    assert due.told(NONE, b"", "trace: line 0 breaks rule 1") == []
    assert due.told(NONE, b"", "read fault") == []


@pytest.mark.skipif(not PROGRAM.is_file(), reason=f"no program at {PROGRAM}")
@pytest.mark.parametrize("number", [2, 40, 100])
def test_the_program_tells_the_line_where_journals_are_those_that_it_writes(number, monkeypatch):
    """The model is out of reach here."""
    monkeypatch.setattr(due, "by_model", None)
    stood = SERIAL.split(b"\n")[number - 1]
    text = with_line(SERIAL, number, b"F 1 9 R")
    assert due.told(str(PROGRAM), text, f"trace: line {number} breaks rule 2")[1].startswith(
        f"expected  {stood[: due.WIDEST].decode()}"
    )


@pytest.mark.skipif(not PROGRAM.is_file(), reason=f"no program at {PROGRAM}")
def test_of_a_first_line_the_compact_text_is_due_or_its_fault_is_told():
    text = b'S {"cabinets":[{}],"rounds":1,"ticks":1,"version": 1}\n'
    said = "trace: line 1 breaks rule 3"
    assert due.told(str(PROGRAM), text, said)[1] == 'expected  S {"cabinets":[{}],"rounds":1,"ticks":1,"version":1}'
    refused = text.replace(b'"rounds":1', b'"rounds":0')
    assert due.told(str(PROGRAM), refused, said)[1] == "its scenario is refused: scenario: limit rounds"


@pytest.fixture
def damaged(tmp_path):
    """A trace with another frame in its second line, its name, and what is due to be said behind the program's line."""
    file = tmp_path / "a trace"
    file.write_bytes(with_line(MIXED, 2, b"F 1 0 R"))
    stood = MIXED.split(b"\n")[1].decode()
    return str(file), f"arterial: read      F 1 0 R\narterial: expected  {stood}\n"


ANSWER = {"SAYS": "trace: line 2 breaks rule 2", "STATUS": "5"}
"""The answer of the stand-in for the program; to `run` it gives no trace, so that the model is asked."""


def test_check_of_a_file_shows_both_lines_behind_the_programs_and_keeps_the_status(proved, damaged):
    file, lines = damaged
    shutil.copytree(TOP / "model", proved.top / "model")
    assert proved.ran("check", file, **ANSWER) == (5, "", f"{ANSWER['SAYS']}\n{lines}")


def test_without_proofs_check_shows_both_lines_too(tried, damaged):
    file, lines = damaged
    shutil.copytree(TOP / "model", tried.top / "model")
    status, written, said = tried.ran("check", file, **ANSWER)
    assert (status, written) == (5, "") and said.endswith(f"{ANSWER['SAYS']}\n{lines}")


def test_where_the_model_is_not_there_the_line_due_is_not_told(proved, damaged):
    said = proved.ran("check", damaged[0], **ANSWER)[2]
    assert said.endswith("expected  unknown: the model, which gives it for this order of journals, isn't here\n")


def test_of_a_pipe_the_way_to_both_lines_is_told(proved):
    way = "arterial: with the name of a file, arterial check FILE also shows the line read and the expected line\n"
    assert proved.ran("check", **ANSWER) == (5, "", f"{ANSWER['SAYS']}\n{way}")
