"""The unproved program is built once and kept: what the next calls answer, when it is built again, and that it is never
taken for the proved one."""

import subprocess

import pytest

from .conftest import BUILT, SECONDS, end_after, ended, wait_for

FIRST = (
    "arterial: there is no proved program here yet: the unproved program answers; building it takes about a minute "
    "(./arterial prove proves it here)\n"
)
LATER = (
    "arterial: there is no proved program here yet: the unproved program answers (./arterial prove proves it here)\n"
)
BUILD = "try --seconds 60 -- --version"


@pytest.fixture
def kept(tried):
    """A copy in which a first call has kept the unproved program."""
    assert tried.ran("run", "--workers", "2", KEEPS="1") == (*BUILT, FIRST)
    assert tried.calls()[0] == [BUILD]
    return tried


def left(copy):
    """Returns the names in the folder of the program."""
    return sorted(it.name for it in copy.program.parent.iterdir())


def test_the_second_call_answers_without_the_kit(kept):
    assert kept.ran("run", "--workers", "2", path="/nowhere") == (*BUILT, LATER)
    assert kept.calls()[0] == [BUILD]


def test_a_session_is_a_dialogue(kept):
    running = kept.started("live")
    running.stdin.write("one\n")
    running.stdin.flush()
    assert [running.stdout.readline(), running.stdout.readline()] == ["words live\n", "one\n"]
    running.stdin.write("two\n")
    running.stdin.flush()
    assert running.stdout.readline() == "two\n"
    assert ended(running, "") == (7, "", LATER)


def test_an_answer_has_no_limit_of_length(kept):
    long = "x" * 3_000_000 + "\n"
    assert kept.ran("run", given=long)[1] == "words run\n" + long


def test_a_refusal_and_a_hint_are_those_of_the_proved_program(kept):
    more = "arterial: with the name of a file, arterial run FILE also shows what was expected and what was found\n"
    said = (2, "", LATER + "scenario: field rounds\n" + more)
    assert kept.ran("run", SAYS="scenario: field rounds", STATUS="2") == said
    assert "arterial run --help" in kept.ran("run", "--fly", SAYS="usage: arterial run", STATUS="1")[2]


def test_a_changed_source_lets_it_be_built_again_and_a_changed_definition_does_not(kept):
    (kept.top / "crates/io_edge/specs").mkdir()
    (kept.top / "crates/io_edge/specs/Lib.antt").write_text("-- a definition\n")
    assert kept.ran("run", "--workers", "2", KEEPS="1") == (*BUILT, LATER)
    source = kept.top / "crates/io_edge/src/lib.rt"
    text = source.read_text()
    source.write_text("// another\n")
    assert kept.ran("run", "--workers", "2", KEEPS="1") == (*BUILT, FIRST)
    assert kept.calls()[0] == [BUILD, BUILD]
    source.write_text(text)
    assert kept.ran("run", "--workers", "2", KEEPS="1") == (*BUILT, FIRST)


def test_a_source_that_is_put_back_finds_the_program_kept(kept):
    source = kept.top / "crates/io_edge/src/lib.rt"
    text = source.read_text()
    source.write_text("// another\n")
    source.write_text(text)
    assert kept.ran("run", "--workers", "2", path="/nowhere") == (*BUILT, LATER)


def test_it_is_never_taken_for_the_proved_program(kept):
    asked = subprocess.run([kept.top / "tools/proved"], capture_output=True, text=True)
    assert (asked.returncode, asked.stdout) == (125, "") and "no proved program here yet" in asked.stderr
    assert not kept.program.exists()


def test_a_program_that_someone_replaced_is_not_run(kept):
    program = kept.program.parent / "tried/program"
    program.unlink()
    program.write_text("#!/bin/sh\necho forged\n")
    program.chmod(0o755)
    assert kept.ran("run", "--workers", "2", KEEPS="1") == (*BUILT, FIRST)


def test_two_first_calls_at_once_build_once(tried):
    first, second = (tried.started("run", PAUSE="1", KEEPS="1") for _ in range(2))
    assert [ended(it)[:2] for it in (first, second)] == [(7, "words run\none\ntwo\n")] * 2
    assert tried.calls()[0] == [BUILD]


def test_a_failed_check_ends_with_124_and_one_sentence(kept):
    status, written, said = kept.ran("run", SAYS="==1==ERROR: AddressSanitizer: ILL\nframe 0x10", STATUS="124")
    assert (status, written) == (124, "")
    assert said.startswith(LATER + "arterial: a run-time check of the unproved program failed, so its output is not an")
    assert said.count("\n") == 2


def test_too_much_memory_ends_with_124_and_one_sentence(kept):
    said = kept.ran("run", SAYS="==1==AddressSanitizer: hard rss limit exhausted (4096Mb vs 4100Mb)", STATUS="124")[2]
    due = "arterial: the unproved program took more than 4 GB of memory, so its output is not an answer\n"
    assert said == LATER + due


@pytest.mark.parametrize("pause", [0.05, 0.2, 0.5])
def test_an_interrupt_while_it_is_built_leaves_nothing_behind(tried, pause):
    running = tried.started("run", PAUSE="5", KEEPS="1")
    end_after(running, pause)
    assert not tried.program.parent.exists() or left(tried) in ([], [".trying"])
    assert tried.ran("run", "--workers", "2", KEEPS="1") == (*BUILT, FIRST)


def test_what_a_killed_call_left_behind_is_removed(tried):
    """A call that was killed can't remove its folder; the next one that builds does."""
    folder = tried.program.parent / ".try-killed"
    folder.mkdir(parents=True)
    (folder / "program").write_text("half of it\n")
    assert tried.ran("run", "--workers", "2", KEEPS="1") == (*BUILT, FIRST)
    assert left(tried) == [".trying", "tried"]


def test_a_source_that_does_not_compile_is_reported_once(tried):
    status, written, said = tried.ran("run", LIMIT="source")
    assert (status, written) == (125, "") and "does not compile:\nerror[parse]: src/main.rt:3" in said
    assert tried.calls()[0] == [BUILD]


def test_a_proof_removes_it(kept):
    assert kept.ran("prove")[0] == 0
    assert left(kept) == [".building", "arterial", "build.log", "proved"]


def test_a_proof_and_a_first_call_at_once_both_end(tried):
    proving = tried.started("prove", PAUSE="0.5")
    wait_for(lambda: tried.calls()[0])
    assert tried.ran("run", KEEPS="1")[:2] == (7, "words run\none\ntwo\n")
    assert proving.wait(SECONDS) == 0
    assert tried.ran("run", path="/nowhere")[:2] == (7, "words run\none\ntwo\n")
