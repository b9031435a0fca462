"""Workbooks that ask for much: they are read as far as their cells go, or refused, quickly and in little memory."""

import io
import resource
import subprocess
import zipfile

import openpyxl
import pytest

from streettools.plan import book, book_reading, reading, toml_text
from streettools.shared.given import Unreadable

from .conftest import SECONDS, TOP

SHEET = """\
title = "Main Street"
[[intersection]]
name = "1st Ave"
[[intersection]]
name = "2nd Ave"
"""
MEBIBYTE = 2**20
SPARE = 400 * MEBIBYTE
"""So much address space the command may take: Python with openpyxl takes some 200 MiB."""


def saved(made: openpyxl.Workbook) -> bytes:
    """Returns the octets of a workbook."""
    out = io.BytesIO()
    made.save(out)
    return out.getvalue()


def small(tmp_path) -> openpyxl.Workbook:
    """Returns the workbook of a small sheet."""
    book.write(toml_text.read(SHEET), str(tmp_path / "small.xlsx"))
    return openpyxl.load_workbook(tmp_path / "small.xlsx")


def check(path, seconds: float) -> subprocess.CompletedProcess:
    """Runs `plan check` with little memory and processor time."""

    def limit() -> None:
        resource.setrlimit(resource.RLIMIT_AS, (SPARE, SPARE))
        resource.setrlimit(resource.RLIMIT_CPU, (int(seconds), int(seconds)))

    command = ["/usr/bin/python3", "-B", TOP / "tools/streettools", "plan", "check", path]
    return subprocess.run(command, capture_output=True, text=True, timeout=SECONDS, preexec_fn=limit)


def test_a_cell_far_outside_takes_no_memory(tmp_path):
    """One text in the last cell that a page can have, XFD1048576: a file of 5 kB."""
    made = small(tmp_path)
    made["1st Ave"]["XFD1048576"] = "stray"
    (tmp_path / "far.xlsx").write_bytes(saved(made))
    assert (tmp_path / "far.xlsx").stat().st_size < 10_000
    ran = check(tmp_path / "far.xlsx", 5)
    assert ran.returncode == 0, ran.stderr
    assert "page '1st Ave': there is more, and columns after 256 are left out" in ran.stdout


def test_a_row_far_outside_is_read(tmp_path):
    """The last row of a page still counts: here it names a value of the intersection."""
    made = small(tmp_path)
    page = made["1st Ave"]
    page["A1048576"], page["B1048576"] = "commmand", 7
    sheet, notes = book_reading.read(saved(made))
    assert notes == [] and sheet["intersection"][0]["commmand"] == 7


def test_a_workbook_with_stray_cells_is_the_same_sheet(tmp_path):
    made = small(tmp_path)
    before, _ = book_reading.read(saved(made))
    made["1st Ave"]["ZZ9"] = 5
    after, notes = book_reading.read(saved(made))
    assert before == after and len(notes) == 1
    assert reading.street_of(after).scenario == reading.street_of(before).scenario


def packed(parts: dict[str, bytes]) -> bytes:
    """Returns a ZIP file with these parts."""
    out = io.BytesIO()
    with zipfile.ZipFile(out, "w", zipfile.ZIP_DEFLATED) as file:
        for name, content in parts.items():
            file.writestr(name, content)
    return out.getvalue()


def changed(content: bytes, name: str, old: bytes, new: bytes) -> bytes:
    """Returns a workbook in which a part has another text."""
    with zipfile.ZipFile(io.BytesIO(content)) as file:
        parts = {it: file.read(it) for it in file.namelist()}
    assert old in parts[name]
    return packed(parts | {name: parts[name].replace(old, new, 1)})


def test_a_workbook_that_unpacks_to_much_is_refused(tmp_path):
    """64 MiB of blanks in one part."""
    content = changed(saved(small(tmp_path)), "xl/workbook.xml", b"<", b" " * (64 * MEBIBYTE) + b"<")
    assert len(content) < 100_000
    with pytest.raises(Unreadable, match="more than 64 MiB when it is unpacked"):
        book_reading.read(content)


def test_a_row_whose_number_is_beyond_all_ends(tmp_path):
    """A page says that a row has the number 10^12."""
    content = changed(saved(small(tmp_path)), "xl/worksheets/sheet2.xml", b'<row r="1"', b'<row r="1000000000000"')
    (tmp_path / "rows.xlsx").write_bytes(content)
    ran = check(tmp_path / "rows.xlsx", 10)
    assert ran.returncode in (0, 2) and "rows after" in ran.stdout


def test_too_many_pages_are_refused(tmp_path):
    made = small(tmp_path)
    for number in range(book_reading.MOST_PAGES):
        made.create_sheet(f"page {number}")
    with pytest.raises(Unreadable, match="more than 200 pages"):
        book_reading.read(saved(made))


@pytest.mark.parametrize("number", [1e308, -1.5, 2.5])
def test_a_number_of_a_phase_that_is_none_is_a_fault(tmp_path, number):
    """The head of the phases' block, with such a number in its second cell."""
    made = small(tmp_path)
    made["1st Ave"].append(["Phases", number])
    made["1st Ave"].append(["walk", 7])
    try:
        sheet, _ = book_reading.read(saved(made))
    except Unreadable:
        return
    _, faults = reading.read_sheet(sheet)
    assert any("phase" in str(it) for it in faults)
