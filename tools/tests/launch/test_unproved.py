"""While there is no proved program, and the kit is one whose unproved program can't be kept: each call builds it."""

import os
import pathlib
import pty
import shutil
import subprocess
import tempfile

import pytest

from .conftest import BUILT, HERE, SECONDS, Tried, end_after, ended, interrupt, wait_for

FIRST = (
    "arterial: there is no proved program here yet: the unproved program answers; building it takes about a minute "
    "(./arterial prove proves it here)\n"
)


def test_the_answer_and_its_status_are_the_programs_and_one_line_says_of_what_kind_it_is(tried):
    assert tried.ran("run", "--workers", "2") == (*BUILT, FIRST)
    assert tried.calls()[0] == ["try --seconds 60 -- --version", "try --seconds 60 -- run --workers 2"]


def test_a_refusal_is_the_programs_own_line(tried):
    assert tried.ran("run", SAYS="scenario: field rounds", STATUS="2") == (2, "", FIRST + "scenario: field rounds\n")


def test_what_reads_nothing_waits_for_nothing(tried):
    running = tried.started("generate", "--seed", "1", "--cabinets", "1", "--rounds", "1")
    running.wait(SECONDS)
    assert running.stdout.read() == "words generate --seed 1 --cabinets 1 --rounds 1\n"


@pytest.mark.parametrize(
    ("limit", "status", "why"),
    [
        ("output", 124, "the answer is longer than 1 MiB"),
        ("time", 124, "the answer takes longer than 60 seconds"),
        ("fault", 124, "a run-time check of the program failed: fault: attempt to divide by zero"),
        ("source", 125, "the program does not compile:\nerror[parse]: src/main.rt:3: no expression begins so"),
    ],
)
def test_where_such_a_run_meets_a_limit_nothing_is_written_and_the_way_is_named(tried, limit, status, why):
    answered, written, said = tried.ran("run", LIMIT=limit)
    assert (answered, written) == (status, "")
    assert said.startswith(FIRST + "arterial: " + why) and "half" not in said
    assert ("./arterial prove" in said.removeprefix(FIRST)) == (limit in ("output", "time"))


def test_a_longer_input_than_the_kit_takes_is_not_cut(tried, tmp_path):
    long = tmp_path / "long"
    with open(long, "wb") as it:
        it.truncate(64 << 20)
    status, written, said = tried.ran("check", str(long))
    assert (status, written) == (124, "") and "the input is longer than 64 MiB" in said
    assert tried.calls()[0] == ["try --seconds 60 -- --version"]


def test_help_is_there_at_once(tried):
    status, written, said = tried.ran("--help")
    assert (
        status == 0
        and written.startswith("the help\n")
        and "  arterial prove " in written
        and "  arterial look " in written
    )
    assert said.count("\n") == 1 and "no proved program" in said
    assert tried.ran("--version")[:2] == (0, "arterial 0\n")
    assert tried.calls()[0] == []


def test_words_that_are_no_command_are_told_at_once(tried):
    assert tried.ran("rnu") == (
        1,
        "",
        "usage: arterial run | check\narterial: `arterial --help` lists all commands; did you mean `arterial run`?\n",
    )
    assert tried.ran() == (1, "", "usage: arterial run | check\narterial: `arterial --help` lists all commands\n")
    assert tried.calls()[0] == []


def test_where_the_kit_is_missing_one_line_says_so(tried):
    status, written, said = tried.ran("run", path="/nowhere")
    assert (status, written) == (125, "")
    assert (
        said.count("\n") == 1
        and "command rt is not on the path (/nowhere:/usr/bin:/bin)" in said
        and "README.md" in said
    )


def test_a_program_that_was_not_proved_here_is_not_run(tried):
    tried.program.parent.mkdir()
    tried.program.write_text("#!/bin/sh\necho forged\n")
    tried.program.chmod(0o755)
    assert tried.ran("run", "--workers", "2") == (*BUILT, FIRST)


@pytest.mark.parametrize("pause", [0, 0.02, 0.05, 0.1, 0.2, 0.4])
def test_an_interrupt_ends_it_at_any_moment_without_a_trace_of_its_insides(tried, pause):
    running = tried.started("run", PAUSE="2")
    end_after(running, pause)
    assert running.stdout.read() == "" and running.stderr.read() in ("", FIRST)


def test_an_interrupt_ends_the_kits_command_too(tried):
    running = tried.started("run", PAUSE="20")
    running.stdin.close()
    running.stdin = None
    wait_for(lambda: tried.calls()[0])
    interrupt(running)
    assert running.wait(5) in (130, -2)


def test_a_reader_that_has_gone_is_no_fault(tried):
    running = tried.started("run")
    running.stdout.close()
    running.stdout = None
    running.stdin.write("x" * 200_000)
    running.stdin.close()
    running.stdin = None
    running.wait(SECONDS)
    assert (running.returncode, running.stderr.read()) == (4, FIRST)


@pytest.fixture
def guarded():
    """A copy that its user may read, and not write; the user has no home."""
    with tempfile.TemporaryDirectory(dir="/tmp") as folder:
        os.chmod(folder, 0o755)
        made = Tried(pathlib.Path(folder))
        made.told.chmod(0o777)
        for name in ("rt", "program"):
            shutil.copy(HERE / name, folder)
        made.path = folder
        if os.geteuid() == 0:
            made.as_whom = {"user": 65534, "group": 65534, "extra_groups": []}
        else:
            for it in [made.top, *made.top.rglob("*")]:
                it.chmod(it.stat().st_mode & 0o555)
        yield made
        for it in [made.top, *(it for it in made.top.rglob("*") if it.is_dir())]:
            it.chmod(0o755)


def test_a_checkout_that_can_not_be_written_and_no_home_are_no_hindrance_to_an_answer(guarded):
    assert guarded.ran("run", "--workers", "2", path=guarded.path) == (*BUILT, FIRST)


def test_a_checkout_that_can_not_be_written_is_told_before_a_proof_begins(guarded):
    status, written, said = guarded.ran("prove", path=guarded.path)
    assert (status, written) == (125, "") and said.count("\n") == 1 and "can't be written" in said
    assert guarded.calls()[0] == []


@pytest.mark.skipif(os.geteuid() != 0, reason="takes a second user")
def test_who_may_not_write_the_checkout_runs_what_another_has_proved_there(guarded):
    whom, guarded.as_whom = guarded.as_whom, {}
    assert guarded.ran("prove", path=guarded.path)[0] == 0
    guarded.as_whom = whom
    assert guarded.ran("run", "--workers", "2") == (*BUILT, "")
    (guarded.top / "crates.txt").touch()
    assert guarded.ran("run", "--workers", "2") == (*BUILT, "")


def test_on_a_terminal_a_bar_shows_that_it_goes_on(tried):
    pytest.importorskip("tqdm")
    above, below = pty.openpty()
    names = {"PATH": f"{HERE}:/usr/bin:/bin", "TRIED": str(tried.told), "PAUSE": "2.5", "FAILS": ""}
    running = subprocess.Popen(
        [tried.top / "arterial", "run"], stdin=subprocess.DEVNULL, stdout=subprocess.PIPE, stderr=below, env=names
    )
    os.close(below)
    shown = b""
    while True:
        try:
            part = os.read(above, 4096)
        except OSError:
            break
        shown += part
    assert running.wait(SECONDS) == 7 and b"00:01" in shown and shown.startswith(FIRST.rstrip().encode())
    assert running.stdout.read() == b"words run\n"
    os.close(above)


def test_a_sources_text_is_read_as_the_compiler_reads_it():
    import sys

    sys.path.insert(0, str(HERE.parents[1]))
    from streettools.launch import source

    top = HERE.parents[2]
    text = source.help(top)
    assert text.startswith("arterial: a ") and "\\" not in text and text.count('"') == 0
    listed = (top / "crates/station/src/help.rt").read_text()
    assert text.removesuffix("\n") in listed
    assert source.version(top).startswith("arterial ") and source.usage(top).startswith("usage: arterial ")
    assert pathlib.Path(source.__file__).is_relative_to(top)


def test_two_answers_side_by_side_do_not_meet(tried):
    first, second = tried.started("run", PAUSE="0.3"), tried.started("check", PAUSE="0.3")
    assert ended(first, "a")[:2] == (7, "words run\na") and ended(second, "b")[:2] == (7, "words check\nb")
