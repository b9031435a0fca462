"""`./arterial prove`: what it tells, that it goes on where it was, and what it needs."""

import shutil
import sys

import pytest

from .conftest import BUILT, PROVED, TOP, ended, interrupt, wait_for


def lines_of(said):
    """Returns the places and names of the crates that were told as done."""
    return [line.removeprefix("arterial: ").split(" (")[0] for line in said.splitlines() if " of 4: " in line]


WAYS = pytest.mark.parametrize("words", [("prove",), ("prove", "--keep")])
"""All by one call of the kit, and crate by crate."""


@WAYS
def test_it_tells_how_many_crates_and_which_are_done(tried, words):
    status, written, said = tried.ran(*words)
    first, *_, last = said.splitlines()
    assert (status, written) == (0, "")
    assert first.startswith("arterial: the program is proved and built: 4 crates, ")
    assert sorted(it.split(": ")[1] for it in lines_of(said)) == sorted(PROVED)
    assert [it.split(" of ")[0].strip() for it in lines_of(said)] == ["1", "2", "3", "4"]
    assert last.startswith("arterial: proved and built in 0 minutes: ")


def test_then_the_program_answers_in_silence_and_needs_no_kit(proved):
    told = proved.calls()
    assert proved.ran("run", "--workers", "2", path="/nowhere") == (*BUILT, "")
    assert proved.calls() == told


def test_what_is_proved_is_not_proved_again(proved):
    told = proved.calls()
    status, _, said = proved.ran("prove")
    assert status == 0 and said.startswith("arterial: proved already")
    assert proved.calls() == told


def test_it_removes_what_the_proofs_left(proved):
    left = {str(it.relative_to(proved.top / "crates")) for it in proved.top.glob("crates/*/out/*")}
    assert left == {f"arterial/out/{name}" for name in ("arterial", "proved", "build.log", ".building")}


def test_it_leaves_what_the_proofs_left_if_asked_to(tried):
    assert tried.ran("prove", "--keep")[0] == 0
    assert (tried.top / "crates/io_edge/out/rlib").is_dir() and (tried.top / "crates/io_edge/out/incremental").is_dir()
    assert not (tried.top / "crates/arterial/out/lanes").exists()


@WAYS
def test_where_a_proof_fails_nothing_is_recorded(tried, words):
    status, written, said = tried.ran(*words, FAILS="io_edge")
    assert (status, written) == (125, "")
    assert "arterial: the program could not be built, since io_edge failed:\nerror: no proof of io_edge\n" in said
    assert said.splitlines()[-1].startswith("arterial: all that was said is in ")
    assert not (tried.program.parent / "proved").exists() and not (tried.program.parent / "lanes").exists()


@WAYS
def test_a_source_that_changes_meanwhile_is_told(tried, words):
    running = tried.started(*words, PAUSE="0.3")
    wait_for(lambda: tried.calls()[1])
    (tried.top / "crates/io_edge/src/lib.rt").write_text("// another\n")
    status, _, said = ended(running)
    assert status == 125 and "crates/io_edge/src/lib.rt changed while it was proved" in said
    assert not (tried.program.parent / "proved").exists()


@WAYS
def test_interrupted_it_goes_on_where_it_was(tried, words):
    running = tried.started(*words, PAUSE="0.5")
    kept = (tried.top, "crates/*/out/proved-of") if len(words) > 1 else (tried.told, "kept-*")
    wait_for(lambda: list(kept[0].glob(kept[1])))
    interrupt(running)
    status, written, said = ended(running)
    assert (status, written) == (130, "")
    assert said.endswith("arterial: interrupted: finished crates are kept, and ./arterial prove continues\n")
    assert not (tried.program.parent / "lanes").exists()
    before = len(list(kept[0].glob(kept[1])))
    assert 1 <= before < 4
    status, _, said = tried.ran(*words)
    assert status == 0 and f"arterial: {before} of 4 were proved before (0 min gone)\n" in said
    assert sorted(tried.calls()[1]) == sorted(PROVED)
    assert len([it for it in tried.calls()[0] if it.startswith("lib")]) <= 4


@WAYS
@pytest.mark.parametrize("pause", [0.01, 0.05, 0.1, 0.2, 0.5, 0.9])
def test_an_interrupt_at_any_moment_leaves_no_trace_of_its_insides(tried, words, pause):
    running = tried.started(*words, PAUSE="0.2")
    while running.poll() is None:
        try:
            running.wait(pause)
        except Exception:
            interrupt(running)
    assert running.returncode in (0, 130, -2)
    assert "Traceback" not in running.stderr.read()
    assert tried.ran("prove")[0] == 0


@WAYS
def test_of_two_calls_one_proves_and_the_other_waits(tried, words):
    running = tried.started(*words, PAUSE="0.3")
    wait_for(lambda: tried.calls()[1])
    status, written, said = tried.ran(*words)
    assert (status, written) == (0, "") and said.startswith(
        "arterial: another call proves the program: waiting for it\n"
    )
    assert ended(running)[0] == 0
    assert sorted(tried.calls()[1]) == sorted(PROVED)
    assert len([call for call in tried.calls()[0] if call.split()[0] in ("ci", "run")]) == 1


def test_where_the_kit_is_missing_one_line_says_so(tried):
    status, written, said = tried.ran("prove", path="/nowhere")
    assert (status, written) == (125, "") and said.count("\n") == 1 and "README.md" in said


def test_a_disk_that_is_too_small_is_told_before_it_begins(monkeypatch, capsys):
    sys.path.insert(0, str(TOP / "tools"))
    from streettools.launch import kit, prove

    monkeypatch.setattr(kit, "command", lambda: "/usr/bin/true")
    monkeypatch.setattr(prove, "is_proved", lambda top: False)
    monkeypatch.setattr(prove, "size_of", lambda folder: 0)
    monkeypatch.setattr(
        prove.shutil, "disk_usage", lambda path: shutil._ntuple_diskusage(10**11, 9 * 10**10, 10**10)
    )
    assert prove.main([]) == 125
    said = capsys.readouterr().err
    assert said.count("\n") == 1 and "10 GB of the disk are free" in said and "the proofs need 15" in said


def test_wrong_words_are_refused(tried):
    status, written, said = tried.ran("prove", "--fast")
    assert (status, written) == (2, "") and "--fast" in said
    assert tried.ran("prove", "--help")[0] == 0
