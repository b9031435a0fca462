"""Sheets, scenarios, names, workbooks, UTDF files and walks that are damaged: `plan` takes them or refuses them in
lines, whatever is wrong with them."""

import io
import json
import zipfile
from collections.abc import Iterator

import pytest
from hypothesis import given
from hypothesis.strategies import data
from streettools.plan import book, book_reading, check, explain, names, reading, sources, toml_text, utdf_in, utdf_out
from streettools.plan import utdf_text, walk, writing
from streettools.shared.given import Unreadable
from streettools.shared.fault import Fault

from .conftest import TOP
from .damage import damaged, damaged_values, tried

SHEETS = [path.read_bytes() for path in sorted((TOP / "scenarios/sheets").glob("*.toml"))]
SCENARIOS = [
    path.read_bytes() for path in sorted((TOP / "scenarios").glob("*.json")) if path.stat().st_size < 20_000
]
NAMES = names.text(reading.street_of(toml_text.read(SHEETS[0].decode())).names).encode()
WALK = (TOP / "tools/tests/plan/two-cabinets-2.walk").read_bytes()
WALKS = [b"".join(WALK.splitlines(keepends=True)[at::40]) for at in range(4)]


@pytest.fixture(autouse=True, scope="module")
def without_a_program() -> Iterator[None]:
    """No program is there, so that a check doesn't start one for each case."""
    with pytest.MonkeyPatch.context() as here:
        here.setenv("ARTERIAL_PROGRAM", "/nowhere")
        yield


def carried_on(street: reading.Street) -> None:
    """Writes a street in each form that it may have."""
    json.dumps(street.field_file() if street.is_field() else street.scenario, allow_nan=False)
    names.read(names.text(street.names))
    reading.street_of(toml_text.read(toml_text.text(writing.sheet_of(street))))
    utdf_out.text(street, 1)


def planned(path: str, content: bytes, known: names.Names | None = None) -> None:
    """Checks a file, and writes what it says in other forms."""
    try:
        source = sources.source_of(path, content, lambda: known or names.Names())
        for found in check.findings(source):
            assert str(found)
        for line in ("scenario: cabinet 1 breaks rule 18 at row 1", "scenario: not JSON", "L 1 1 refused 18 1"):
            try:
                explain.explained(source, line)
            except Fault:
                pass
        if source.street is not None and not source.errors:
            carried_on(source.street)
    except Fault as fault:
        assert str(fault)


@pytest.mark.parametrize("name, texts", [("x.toml", SHEETS), ("x.json", SCENARIOS)])
@tried(700)
@given(data())
def test_damaged_sheets_and_scenarios(name, texts, drawn):
    planned(name, drawn.draw(damaged(texts)))


@tried(400)
@given(damaged_values([toml_text.read(it.decode()) for it in SHEETS]))
def test_sheets_with_other_values(sheet):
    try:
        street, faults = reading.read_sheet(sheet if isinstance(sheet, dict) else {})
        if not faults:
            writing.sheet_of(street)
    except Fault as fault:
        assert str(fault)


@tried(400)
@given(damaged_values([json.loads(it) for it in SCENARIOS]))
def test_scenarios_with_other_values(value):
    planned("x.json", json.dumps(value).encode())


def named(content: bytes) -> None:
    """Reads names, and checks a scenario that has them."""
    try:
        known = names.read(content.decode(errors="replace"))
    except Fault as fault:
        assert str(fault)
        return
    assert names.read(names.text(known)) == known
    planned("x.json", SCENARIOS[0], known)


@tried(500)
@given(damaged([NAMES]))
def test_damaged_names(content):
    named(content)


@tried(500)
@given(damaged_values([json.loads(NAMES)]))
def test_names_with_other_values(value):
    named(json.dumps(value).encode())


@tried(500)
@given(damaged(WALKS))
def test_damaged_walks(content):
    try:
        street = walk.street_of([walk.read(content.decode("latin-1"))], ["x"])
        writing.sheet_of(street)
    except Unreadable as fault:
        assert str(fault)


UTDF = [utdf_out.text(reading.street_of(toml_text.read(SHEETS[0].decode())), 1).encode()]
UTDF += [path.read_bytes() for path in sorted((TOP / "scenarios").rglob("*.csv"))]


@tried(500)
@given(damaged(UTDF))
def test_damaged_files_of_synchro(content):
    try:
        sheet, _ = utdf_in.sheet_of(utdf_text.read(content.decode(errors="replace")))
        writing.sheet_of(reading.street_of(sheet))
    except Fault as fault:
        assert str(fault)


def parts_of_book() -> dict[str, bytes]:
    """Returns the parts of a workbook that `plan` writes."""
    out = io.BytesIO()
    book.write(writing.sheet_of(reading.street_of(toml_text.read(SHEETS[0].decode()))), out)
    with zipfile.ZipFile(out) as packed:
        return {it: packed.read(it) for it in packed.namelist()}


PARTS = parts_of_book()
CHANGED = [it for it in PARTS if "sheet" in it or "shared" in it or "workbook" in it or "styles" in it]


def book_read(content: bytes) -> None:
    """Reads a workbook, and what its sheet says."""
    try:
        sheet, _ = book_reading.read(content)
        street, faults = reading.read_sheet(sheet)
        if not faults:
            writing.sheet_of(street)
    except Fault as fault:
        assert str(fault)


def with_part(name: str, content: bytes) -> bytes:
    """Returns the workbook with another part."""
    out = io.BytesIO()
    with zipfile.ZipFile(out, "w") as packed:
        for it, old in PARTS.items():
            packed.writestr(it, content if it == name else old)
    return out.getvalue()


@tried(100)
@given(damaged([name.encode() + b"\0" + PARTS[name] for name in CHANGED]))
def test_workbooks_with_damaged_parts(case):
    name, _, content = case.partition(b"\0")
    book_read(with_part(name.decode(errors="replace"), content))


@tried(100)
@given(damaged([with_part("", b"")]))
def test_damaged_workbooks(content):
    book_read(content)
