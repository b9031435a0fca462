"""The check of a text before it is shown, by a stand-in for the program with its lines and statuses; and by the program
itself, where it is."""

import os
import signal
import subprocess
import time

import pytest
from streettools.shared import program

from .conftest import NO_PROGRAM, SMALL, STREET, TOP, run


@pytest.fixture
def stand_in(tmp_path):
    """Writes a program that reads the text, writes how many bytes it had, and answers as is given."""

    def done(status, line=""):
        path = tmp_path / "program"
        says = f"echo '{line}' >&2" if line else ":"
        path.write_text(f"#!/bin/sh\n[ \"$1\" = check ] || exit 99\nwc -c >'{tmp_path}/bytes'\n{says}\nexit {status}\n")
        path.chmod(0o755)
        return {**os.environ, "ARTERIAL_PROGRAM": str(path)}

    return done


def test_a_text_that_is_a_trace_is_said_to_be_one(stand_in, tmp_path):
    file = tmp_path / "trace"
    file.write_text(SMALL)
    env, plain = stand_in(0), run("report", "--json", given=SMALL).stdout
    for words, given, name in (([file], None, str(file)), ([], SMALL, "standard input")):
        ran = run("report", "--json", *words, given=given, env=env)
        assert (ran.returncode, ran.stdout, ran.stderr) == (0, plain, f"look: checked: {name} is a trace\n")
        assert int((tmp_path / "bytes").read_text()) == len(SMALL)


def test_a_text_that_is_no_trace_is_refused_and_shown_without_the_check(stand_in, tmp_path):
    env = stand_in(5, "trace: line 10 breaks rule 6")
    ran = run("rings", "-o", tmp_path / "x.svg", given=SMALL, env=env)
    words = "look: checked: standard input is not a trace (trace: line 10 breaks rule 6); "
    words += "--no-check shows it as far as it can be read\n"
    assert (ran.returncode, ran.stderr, (tmp_path / "x.svg").exists()) == (2, words, False)
    ran = run("report", "--json", "--no-check", given=SMALL, env=env)
    assert (ran.returncode, ran.stderr) == (0, "")


def test_a_text_that_the_program_cannot_judge_is_shown_and_said_to_be_unchecked(stand_in):
    for status, line in ((5, "trace: line 0 breaks rule 1"), (3, "out of memory"), (1, "")):
        ran = run("report", "--json", given=SMALL, env=stand_in(status, line))
        words = line or f"the program ended with status {status}"
        assert (ran.returncode, ran.stderr) == (0, f"look: not checked: {words}\n") and ran.stdout


def test_nothing_is_printed_before_the_answer_of_a_slow_check(tmp_path):
    path = tmp_path / "program"
    path.write_text("#!/bin/sh\nsleep 1\ncat >/dev/null\necho 'trace: line 10 breaks rule 6' >&2\nexit 5\n")
    path.chmod(0o755)
    env = {**os.environ, "ARTERIAL_PROGRAM": str(path)}
    for words in (["report"], ["report", "--json"], ["events", "--start", "2026-11-27T06:00:00"]):
        ran = run(*words, given=SMALL, env=env)
        assert (ran.returncode, ran.stdout) == (2, "") and "line 10 breaks rule 6" in ran.stderr


def test_a_text_that_cannot_be_read_is_refused_by_the_check_first(stand_in):
    ran = run("report", given=SMALL.replace("R 3", "R 4"), env=stand_in(5, "trace: line 8 breaks rule 2"))
    assert ran.returncode == 2 and ran.stderr.startswith("look: checked: standard input is not a trace (trace: line 8 ")
    ran = run("rings", "--cabinet", "2", "-o", "x.svg", given=SMALL, env=stand_in(0))
    words = ["look: checked: standard input is a trace", "look: the trace has no cabinet 2: its cabinets are 1 to 1"]
    assert (ran.returncode, ran.stderr.splitlines()) == (2, words)


def test_the_program_of_a_checkout_is_found_as_the_check_runs(tmp_path, monkeypatch):
    monkeypatch.delenv("ARTERIAL_PROGRAM", raising=False)
    for text, due in (
        ("echo /bin/echo", (0, "check\n")), ("exit 123", (125, "")), ("echo no >&2; exit 125", (125, ""))
    ):
        finder = tmp_path / "finder"
        finder.write_text(f"#!/bin/sh\n{text}\n")
        finder.chmod(0o755)
        monkeypatch.setattr(program, "FINDER", str(finder))
        ran = subprocess.run(program.command("check"), capture_output=True, text=True)
        assert (ran.returncode, ran.stdout, ran.stderr) == (*due, "")


def test_without_a_program_nothing_is_said():
    ran = run("report", "--json", given=SMALL)
    assert (ran.returncode, ran.stderr) == (0, "")


def test_the_program_itself_finds_a_frame_that_is_not_due():
    """Line 13 of the small trace turns phases 2 and 6 to red clearance, a tick later than their yellow lasts."""
    try:
        env = {**os.environ, "ARTERIAL_PROGRAM": str(program.found())}
    except program.NoProgram as fault:
        pytest.skip(f"no proved program: {fault}")
    assert run("report", "--json", given=SMALL, env=env).stderr == "look: checked: standard input is a trace\n"
    ran = run("report", "--json", given=SMALL.replace("F 1 200 ", "F 1 201 "), env=env)
    assert ran.returncode == 2 and "line 13 breaks rule 6" in ran.stderr


def test_a_full_disk_blames_the_output(tmp_path):
    """/dev/full takes nothing; the trace is read without fault."""
    events = ["events", "--start", "2026-11-27T06:00:00"]
    for words in (["report", "--json"], events):
        ran = run(*words, "-o", "/dev/full", STREET)
        assert (ran.returncode, ran.stderr) == (1, "look: /dev/full: No space left on device\n")
        with open("/dev/full", "wb") as full:
            ran = subprocess.run([TOP / "look", *words, STREET], stdout=full, stderr=subprocess.PIPE, env=NO_PROGRAM)
        assert (ran.returncode, ran.stderr) == (1, b"look: standard output: No space left on device\n")
    (tmp_path / "full.svg").symlink_to("/dev/full")
    ran = run("rings", "-o", tmp_path / "full.svg", STREET)
    assert (ran.returncode, ran.stderr) == (1, f"look: {tmp_path}/full.svg: No space left on device\n")


@pytest.mark.parametrize("wait", [0.0, 0.01, 0.02, 0.04, 0.08, 0.3])
def test_ctrl_c_leaves_no_traceback_and_no_file(wait, tmp_path):
    """The text never ends, so that Ctrl-C always comes while it is read or before."""
    words = [TOP / "look", "events", "--start", "2026-11-27T06:00:00", "-o", tmp_path / "log.csv"]
    group = {"stdin": subprocess.PIPE, "stderr": subprocess.PIPE, "start_new_session": True, "env": NO_PROGRAM}
    with subprocess.Popen(words, **group) as ran:
        ran.stdin.write(SMALL.removesuffix("Z 7\n").encode())
        ran.stdin.flush()
        for _ in range(200):
            time.sleep(wait or 0.01)
            os.killpg(ran.pid, signal.SIGINT)
            if ran.poll() is not None:
                break
        said = ran.stderr.read()
    assert said == b"" and ran.returncode in (130, -signal.SIGINT)
    assert list(tmp_path.iterdir()) == []
