"""How the program is started and ended: its answer, its line, its end in time. Small scripts stand for it."""

import subprocess
import time

import pytest
from streettools.shared import program
from streettools.shared.status import Status

from .conftest import is_gone


@pytest.fixture
def script(tmp_path):
    """Writes a program."""

    def done(text):
        path = tmp_path / "program"
        path.write_text(f"#!/bin/bash\n{text}\n")
        path.chmod(0o755)
        return path

    return done


def test_an_answer_is_returned_or_goes_to_a_file(script, tmp_path):
    path = script('[ "$1" = run ] && tr a-z A-Z')
    assert program.trace_of(path, b"abc") == b"ABC"
    with open(tmp_path / "out", "wb") as out:
        assert program.trace_of(path, b"abc", out) == b""
    assert (tmp_path / "out").read_bytes() == b"ABC"


def test_a_text_may_be_an_open_file(script, tmp_path):
    (tmp_path / "given").write_bytes(b"12345")
    with open(tmp_path / "given", "rb") as given:
        assert program.ran(script("wc -c"), "check", given=given) == program.Ran(0, b"5\n", "")


@pytest.mark.parametrize("text, words, status", [
    ("echo 'scenario: not JSON' >&2; exit 2", "scenario: not JSON", Status.REFUSED),
    ("exit 4", "the program ended with status 4", Status.FILE),
    ("kill -15 $$", "the program was ended by signal 15", Status.FILE),
    ("printf 'a\\n\\n b\\n' >&2; exit 1", "a; b", Status.FILE),
    ("head -c 1000000 /dev/zero | tr '\\0' x >&2; exit 1", "x" * 500 + "..", Status.FILE),
])  # fmt: skip
def test_a_program_that_fails_is_one_line(script, text, words, status):
    with pytest.raises(program.Died) as died:
        program.trace_of(script(text), b"{}")
    assert (str(died.value), died.value.status) == (words, status)


def test_a_program_that_isnt_done_in_time_is_ended_with_all_it_started(script, tmp_path):
    path, begun = script(f"echo $$ >{tmp_path}/pid; sleep 60 & wait"), time.monotonic()
    with pytest.raises(program.Late, match="check was not done in 0.3 s"):
        program.ran(path, "check", seconds=0.3)
    assert time.monotonic() - begun < 20
    assert is_gone(int((tmp_path / "pid").read_text()))


def test_a_program_that_nobody_waits_for_is_ended(script):
    with program.Running([script("sleep 60")], subprocess.DEVNULL) as running:
        assert running.process.poll() is None
    assert running.process.returncode == -9


def test_a_program_that_doesnt_read_its_input_answers_all_the_same(script):
    assert program.ran(script("echo done"), "run", given=b"x" * 1_000_000).out == b"done\n"
