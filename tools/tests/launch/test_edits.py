"""The wrong bodies that the gate leaves out (edits/): each can still be applied, and the script names them."""

import os
import pathlib
import re
import shutil
import subprocess

import pytest

TOP = pathlib.Path(__file__).resolve().parents[3]
TRY = TOP / "edits/try"
EDITS = sorted(TOP.glob("edits/*/*.edit"))


def ran(*words: str) -> subprocess.CompletedProcess[str]:
    """Returns what the script answers."""
    return subprocess.run([TRY, *words], capture_output=True, text=True, timeout=30)


@pytest.mark.parametrize("edit", EDITS, ids=lambda it: f"{it.parent.name}/{it.stem}")
def test_what_an_edit_replaces_stands_once_in_its_file(edit):
    file, old, changed = None, None, 0
    for line in edit.read_text(encoding="utf-8").splitlines():
        word, _, text = line.partition(": ")
        if word == "file":
            file = (TOP / "crates" / edit.parent.name / text).read_text(encoding="utf-8")
        elif word == "old":
            assert file.count(text) == 1
            old = text
        elif word == "new":
            assert text != old
            changed += 1
    assert changed > 0


def test_no_edit_stands_in_both_places():
    assert [it for it in EDITS if (TOP / "crates" / it.parent.name / "must-fail" / it.name).exists()] == []


def test_edits_are_named_by_crate():
    named = ran("--list").stdout.splitlines()
    assert named == [f"{it.parent.name}/{it.name}" for it in EDITS]
    assert ran("--list", "phase_clock").stdout.splitlines() == [it for it in named if it.startswith("phase_clock/")]


def test_the_table_has_each_clause_of_the_top_call_and_each_field_of_its_answers():
    files = ("edits/README.md", "crates/station/src/top.rt", "crates/station/specs/Commands.antt")
    table, top, commands = ((TOP / it).read_text(encoding="utf-8") for it in files)
    rows = dict(re.findall(r"^\| `(\w+)` \| (.*?) \|", table, re.M))
    top_call, answers = top.partition("pub fn station<")[2], commands.partition("pub record Answers ")[2]
    assert [*rows] == re.findall(r"^    ensures (\w+) ", top_call, re.M) + re.findall(r"^  pub (\w+) :", answers, re.M)
    assert all((TOP / file).is_file() for row in rows.values() for file in re.findall(r"`(\S+\.edit)`", row))


def test_a_crate_without_edits_is_refused():
    tried = ran("ber_code")
    assert tried.returncode == 2 and "ber_code has no edits here" in tried.stderr


def test_a_file_of_results_that_is_not_there_is_a_fault(tmp_path):
    tried = ran("--record", str(tmp_path / "none"))
    assert (tried.returncode, tried.stderr) == (2, f"edits/try: {tmp_path}/none: No such file or directory\n")


@pytest.fixture(name="copy")
def a_copy(tmp_path):
    """Returns a copy of what the script needs for two edits of a crate, and a command in place of `rt`, which prints
    the file `said` for each edit."""
    top = tmp_path / "copy"
    for name in ("sig_types", "sig_tables", "phase_clock"):
        shutil.copytree(TOP / "crates" / name, top / "crates" / name, ignore=shutil.ignore_patterns("out"))
    for name in ("edits/phase_clock", *(f"tools/streettools/{it}" for it in ("launch", "promises", "shared"))):
        shutil.copytree(TOP / name, top / name, ignore=shutil.ignore_patterns("__pycache__"))
    for name in ("crates.txt", "HANDLES", "edits/try", "tools/streettools/__init__.py"):
        shutil.copy(TOP / name, top / name)
    tool = tmp_path / "rt"
    tool.write_text(
        f"#!/bin/sh\nfor it in crates/$2/must-fail/*; do\n"
        f'echo "rt: $1 $2/$(basename $it): $(cat {tmp_path}/said)"\ndone\nexit $(cat {tmp_path}/status)\n'
    )
    tool.chmod(0o755)
    return top


@pytest.mark.parametrize(
    ("said", "ended", "status"),
    [
        ("refused, as it must be: src/lib.rt:9:1: error", 0, 0),
        ("NOT REFUSED: the crate is still proved with this edit", 1, 1),
        ("BAD EDIT: there is no file src/c.rt", 0, 1),
        ("NOT TRIED: its check was killed", 0, 1),
    ],
)
def test_a_crate_is_recorded_as_tried_if_all_its_edits_are_refused(tmp_path, copy, said, ended, status):
    (tmp_path / "said").write_text(said)
    (tmp_path / "status").write_text(str(ended))
    words = [copy / "edits/try", "phase_clock"]
    environment = os.environ | {"PATH": f"{tmp_path}:{os.environ['PATH']}"}
    tried = subprocess.run(words, capture_output=True, text=True, timeout=60, env=environment)
    named = [it.name for it in EDITS if it.parent.name == "phase_clock"]
    told = [f"rt: must-fail phase_clock/{name}: {said}" for name in named]
    assert tried.returncode == status and tried.stdout.splitlines()[: len(told)] == told
    assert pending(copy) == (["phase_clock"] if status else [])


def pending(copy: pathlib.Path) -> list[str]:
    """Returns the crates that the copy has yet to try."""
    asked = subprocess.run([copy / "edits/try", "--pending"], capture_output=True, text=True, timeout=60)
    return asked.stdout.splitlines()


@pytest.mark.parametrize(
    ("old", "new", "left"),
    [
        ("", "", []),
        ("refused, as it must be", "NOT REFUSED", ["phase_clock"]),
        ("contracts and edits ", "contracts and edits 0", ["phase_clock"]),
    ],
    ids=["as it was printed", "an edit that is not refused", "of other contracts"],
)
def test_what_another_checkout_printed_is_recorded_if_its_contracts_are_these(tmp_path, copy, old, new, left):
    (tmp_path / "said").write_text("refused, as it must be: src/lib.rt:9:1: error")
    (tmp_path / "status").write_text("0")
    environment = os.environ | {"PATH": f"{tmp_path}:{os.environ['PATH']}"}
    tried = subprocess.run([copy / "edits/try"], capture_output=True, text=True, timeout=60, env=environment)
    (copy / "edits/tried.sums").unlink()
    (tmp_path / "results").write_text(tried.stdout.replace(old, new, 1))
    again = subprocess.run([copy / "edits/try", "--record", tmp_path / "results"], capture_output=True, timeout=60)
    assert (again.returncode, pending(copy)) == (1 if left else 0, left)
