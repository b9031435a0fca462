"""The statements of the promises: what one is, which there are, and that a change of one is not passed over."""

import pathlib
import subprocess

import pytest

from streettools.promises import command, reached, record, statement

TOP = pathlib.Path(__file__).resolve().parents[3]

SAFE = """-- what is safe
use Rattle.std.specs.Prelude.{ℕ, ◌<◌}
use Rattle.low.specs.declared.frame.Frame.{Frame}

-- the text "-- red" is no comment
abbrev pub IsSafe : ℕ → Type 0
IsSafe n = codes "-- red" ≡ word n
"""

TOP_CALL = """//! The top call.

ghost use Rattle.station.specs.Safe.{IsSafe};
ghost use Rattle.low.specs.Inner.{IsInner};

use low::{
    Frame,
    frame,
};

const USAGE: &str = "usage; words";

/// Does it.
#[inline]
pub fn station<G: Gate>(
    gate: &G, // a gate
) -> u32
    requires { 0 < limit }
    ensures safe { IsSafe result }
{
    let found = "}";
    let inner = || -> u32
        ensures { result ≡ 1 }
    { 1 };
    inner()
}

fn helper(n: u32) -> u32
    ensures inner { IsInner result }
{
    n
}
"""

LOW = """pub struct Frame {
    pub letters: [u8; 2],
}

/// An end.
pub trait Source {
    ghost left: { Self → ℕ };

    fn read(&mut self) -> u32
        ensures { result < 2 };
}

pub trait Sink {}
pub trait Gate {}
"""


@pytest.fixture(name="top")
def checkout(tmp_path):
    """Returns a small checkout, whose one commit has its promises recorded."""
    files = {
        "crates/station/src/top.rt": TOP_CALL,
        "crates/station/specs/Safe.antt": SAFE,
        "crates/low/src/frame.rt": LOW,
        "crates/low/specs/Inner.antt": "IsInner : ℕ → Type 0\n",
        "crates/io_edge/src/lib.rt": LOW,
        "edits/station/a.edit": "file: src/top.rt\nold: 1 }\nnew: 2 }\n",
    }
    for name, text in files.items():
        (tmp_path / name).parent.mkdir(parents=True, exist_ok=True)
        (tmp_path / name).write_text(text, encoding="utf-8")
    assert command.main(["--write", "--quiet"], tmp_path) == 0
    for words in (["init", "-q"], ["add", "."], ["-c", "user.name=a", "-c", "user.email=a", "commit", "-qm", "all"]):
        subprocess.run(["git", "-C", tmp_path, *words], check=True)
    return tmp_path


def test_a_contract_has_no_bodies_and_no_texts():
    assert statement.contracts(TOP_CALL).splitlines() == [
        "ghost use Rattle.station.specs.Safe.{IsSafe};",
        "ghost use Rattle.low.specs.Inner.{IsInner};",
        "#[inline]",
        "pub fn station<G: Gate>(",
        "    gate: &G,",
        ") -> u32",
        "    requires { 0 < limit }",
        "    ensures safe { IsSafe result }",
        ";",
        "fn helper(n: u32) -> u32",
        "    ensures inner { IsInner result }",
        ";",
    ]


def test_an_item_is_found_by_its_name():
    stated = statement.contracts(LOW)
    assert statement.item(stated, "Frame") == "pub struct Frame {\n    pub letters: [u8; 2],\n}"
    assert statement.item(stated, "Source").endswith("fn read(&mut self) -> u32\n        ensures { result < 2 };\n}")
    assert statement.item(stated, "Nothing") == ""


@pytest.mark.parametrize(
    ("old", "new", "same"),
    [
        ("-- what is safe", "-- what a safe word is", True),
        ("ℕ, ◌<◌", "◌<◌, ℕ", True),
        ("IsSafe n = codes", "IsSafe n =\n    codes", True),
        ('codes "-- red"', 'codes "-- green"', False),
        ("ℕ, ◌<◌", "ℕ, ◌≤◌", False),
    ],
)
def test_comments_and_layout_are_no_statement(old, new, same):
    assert SAFE.count(old) == 1
    before, after = (statement.digest(statement.definitions(it)) for it in (SAFE, SAFE.replace(old, new)))
    assert (before == after) is same


def test_what_the_top_call_reaches(top):
    assert sorted(reached.Statements(top)) == [
        "crates/io_edge/src/lib.rt#Gate",
        "crates/io_edge/src/lib.rt#Sink",
        "crates/io_edge/src/lib.rt#Source",
        "crates/low/src/frame.rt#Frame",
        "crates/station/specs/Safe.antt",
        "crates/station/src/top.rt#station",
    ]


def test_a_changed_statement_is_shown_beside_the_recorded_one(top, capsys):
    assert command.main([], top) == 0
    file = top / "crates/station/specs/Safe.antt"
    file.write_text(SAFE.replace("≡ word n", "≡ word 0"), encoding="utf-8")
    assert command.main([], top) == 1
    said = capsys.readouterr().out
    assert 'codes "-- red" ≡ word n' in said and 'codes "-- red" ≡ word 0' in said
    assert command.main(["--write"], top) == 0 and command.main([], top) == 0


def test_a_clause_that_is_gone_is_a_change(top, capsys):
    file = top / "crates/station/src/top.rt"
    file.write_text(TOP_CALL.replace("    requires { 0 < limit }\n", ""), encoding="utf-8")
    assert command.main(["--quiet"], top) == 1
    assert capsys.readouterr().out.splitlines() == ["crates/station/src/top.rt#station"]


@pytest.mark.parametrize(
    ("old", "new", "pending"),
    [("inner()", "inner() + 0", []), ("IsInner result", "IsInner n", ["station"]), ("// a gate", "// one", [])],
)
def test_edits_are_pending_after_a_change_of_a_contract(top, old, new, pending):
    record.renew(top, ["station"])
    assert record.untried(top) == []
    file = top / "crates/station/src/top.rt"
    file.write_text(TOP_CALL.replace(old, new), encoding="utf-8")
    assert record.untried(top) == pending


def test_a_new_edit_is_pending(top):
    record.renew(top, ["station"])
    (top / "edits/station/b.edit").write_text("file: src/top.rt\nold: 1 }\nnew: 3 }\n", encoding="utf-8")
    assert record.untried(top) == ["station"]


def test_a_damaged_record_is_refused(top, capsys):
    (top / record.PROMISES).write_text("abc\n", encoding="utf-8")
    assert command.main([], top) == 2
    assert "line 1: no digest and name" in capsys.readouterr().err


def test_no_statement_of_a_promise_changed_unseen():
    changed = record.changed(record.read(TOP / record.PROMISES), record.promises(reached.Statements(TOP)))
    assert changed == [], "edits/promises shows what these were and are; edits/promises --write records them"


def test_edits_were_tried_with_these_contracts():
    untried = record.untried(TOP)
    assert untried == [], f"edits/try {' '.join(untried)} is pending: a contract, a definition or an edit changed"
