"""The file of a sheet, its draft, and what pages may ask: as plain functions."""

import json
import os
import random
import stat

import pytest
from streettools.plan.edit import orders
from streettools.plan.edit.keeping import Kept
from streettools.shared.fault import Fault
from streettools.shared.given import Wrong

from .conftest import SHEET


def test_a_saved_sheet_has_the_line_ends_and_the_mark_that_it_had(tmp_path):
    path = tmp_path / "odd.toml"
    path.write_bytes(b"\xef\xbb\xbf" + SHEET.replace("\n", "\r\n").encode())
    kept = Kept(str(path))
    assert kept.text() == SHEET
    kept.save(SHEET.replace("offset = 40", "offset = 41"))
    assert path.read_bytes() == b"\xef\xbb\xbf" + SHEET.replace("offset = 40", "offset = 41").replace(
        "\n", "\r\n"
    ).encode()
    assert not kept.is_changed()


def test_a_file_that_another_program_changes_or_removes_is_noticed(sheet):
    kept = Kept(str(sheet))
    assert not kept.is_changed()
    sheet.write_text(SHEET + "# more\n")
    assert kept.is_changed()
    assert kept.load() == SHEET + "# more\n" and not kept.is_changed()
    sheet.unlink()
    assert kept.is_changed()


def test_only_its_owner_can_read_a_draft_and_saving_removes_it(sheet):
    kept = Kept(str(sheet))
    kept.keep("title = 1")
    draft = sheet.with_name("elm.toml.draft")
    assert stat.S_IMODE(draft.stat().st_mode) == 0o600
    found = kept.draft()
    assert found.text == "title = 1" and found.fits
    sheet.write_text(SHEET + "# more\n")
    kept.load()
    assert not kept.draft().fits
    kept.save(SHEET)
    assert not draft.exists() and kept.draft() is None


@pytest.mark.parametrize(
    "content", [b"", b"{", b"[]", b"7", b'{"version":1}', b'{"version":2,"of":"","text":""}', b"\xff\xfe",
                b"[" * 99_999, b'{"version":1,"of":"","text":"","more":1}', b'{"version":1,"of":"","text":"\\ud800"}']
)  # fmt: skip
def test_what_is_not_a_draft_is_not_offered(sheet, content):
    sheet.with_name("elm.toml.draft").write_bytes(content)
    assert Kept(str(sheet)).draft() is None


def test_a_draft_that_is_a_link_a_folder_or_a_pipe_is_not_read(sheet, tmp_path):
    draft = sheet.with_name("elm.toml.draft")
    secret = tmp_path / "secret"
    secret.write_text('{"version":1,"of":"","text":"secret"}')
    draft.symlink_to(secret)
    kept = Kept(str(sheet))
    assert kept.draft() is None
    draft.unlink()
    draft.mkdir()
    assert kept.draft() is None
    draft.rmdir()
    os.mkfifo(draft)
    assert kept.draft() is None


def test_a_draft_is_not_written_into_what_is_not_a_regular_file(sheet, tmp_path):
    """Anyone who may write to the folder could have put it there."""
    draft, other = sheet.with_name("elm.toml.draft"), tmp_path / "other"
    other.write_text("mine")
    kept = Kept(str(sheet))
    for make in (lambda: draft.symlink_to(other), lambda: os.mkfifo(draft)):
        make()
        with pytest.raises(OSError, match="isn't a regular file"):
            kept.keep("title = 1")
        draft.unlink()
    assert other.read_text() == "mine"


def test_a_second_editor_of_a_sheet_is_refused_also_after_it_was_saved(sheet):
    kept = Kept(str(sheet))
    with pytest.raises(Fault, match="is open in another editor"):
        Kept(str(sheet))
    kept.save(SHEET + "# more\n")
    with pytest.raises(Fault, match="is open in another editor"):
        Kept(str(sheet))
    kept.lock.close()
    Kept(str(sheet)).lock.close()


EDIT = {"do": "set", "at": 1, "mark": 3,
        "change": {"kind": "offset", "intersection": 1, "pattern": 1, "value": 12, "snap": True}}  # fmt: skip
VIEW = {"do": "view", "other": 0,
        "view": {"intersection": 1, "pattern": 1, "time": 0, "minutes": 10, "settled": True,
                 "calls": "all"}}  # fmt: skip


def test_an_order_that_is_well_formed_is_read():
    assert orders.order_of(json.dumps(EDIT), 2).change.value == 12
    assert orders.order_of(json.dumps(VIEW), 2).asked.minutes == 10


def changed(order, path, value):
    """Returns the text of an order with one value changed."""
    found = json.loads(json.dumps(order))
    table = found
    for name in path[:-1]:
        table = table[name]
    table[path[-1]] = value
    return json.dumps(found)


WRONG = [
    "", "[]", "null", "7", "{", '{"do":[]}', '{"do":"quit"}', "[" * 1000, "x" * 2000, '{"do":"set"}', '{"do":"save"}',
    changed(EDIT, ["at"], 0), changed(EDIT, ["at"], True), changed(EDIT, ["at"], "1"), changed(EDIT, ["more"], 1),
    changed(EDIT, ["mark"], 2**40), changed(EDIT, ["change"], 7), changed(EDIT, ["change", "kind"], "remove"),
    changed(EDIT, ["change", "intersection"], 3), changed(EDIT, ["change", "intersection"], 1.0),
    changed(EDIT, ["change", "pattern"], 49), changed(EDIT, ["change", "phase"], 17),
    changed(EDIT, ["change", "value"], "12"), changed(EDIT, ["change", "value"], 1e9),
    changed(EDIT, ["change", "value"], float("nan")), changed(EDIT, ["change", "snap"], 1),
    changed(EDIT, ["change", "name"], "a\n"), changed(EDIT, ["change", "more"], 1),
    changed(VIEW, ["view", "minutes"], 61), changed(VIEW, ["view", "time"], 86_400),
    changed(VIEW, ["view", "calls"], ""),
    changed(VIEW, ["view", "intersection"], 0), changed(VIEW, ["other"], -1), '{"do":"draft","take":"yes"}',
]  # fmt: skip


@pytest.mark.parametrize("text", WRONG)
def test_an_order_that_is_not_well_formed_is_refused_in_one_line(text):
    with pytest.raises(Wrong) as refused:
        orders.order_of(text, 2)
    assert 0 < len(str(refused.value)) < 120 and "\n" not in str(refused.value)


def test_damaged_orders_are_read_or_refused():
    draw = random.Random(87)
    for _ in range(3000):
        text = list(json.dumps(draw.choice((EDIT, VIEW))))
        for _ in range(draw.randint(1, 4)):
            text[draw.randrange(len(text))] = draw.choice('{}[]",:0123456789.eE-truefalsn \u2028\\')
        try:
            orders.order_of("".join(text), 2)
        except Wrong as refused:
            assert "\n" not in str(refused)
