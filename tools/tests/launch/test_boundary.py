"""The boundary of the tools: whatever a command raises is lines on standard error and a status, never a traceback."""

import os
import subprocess
import sys

import pytest

from .conftest import TOP

sys.path.insert(0, str(TOP / "tools"))

from streettools import words  # noqa: E402
from streettools.shared.boundary import bounded  # noqa: E402
from streettools.shared.fault import Fault  # noqa: E402
from streettools.shared.status import Status  # noqa: E402


def raising(fault):
    """Returns a command that fails."""

    def command(given):
        raise fault

    return command


CASES = [
    (Fault("no such cabinet"), 2, "tool: no such cabinet\n"),
    (Fault("one\ntwo", Status.FILE), 1, "tool: one\ntool: two\n"),
    (FileNotFoundError(2, "No such file or directory", "a.trace"), 1, "tool: a.trace: No such file or directory\n"),
    (OSError(28, "No space left on device"), 1, "tool: No space left on device\n"),
    (
        ModuleNotFoundError("No module named 'tomli_w'", name="tomli_w"),
        1,
        "tool: Python's package tomli_w is missing: apt-get install -y python3-tomli-w\n",
    ),
    (KeyboardInterrupt(), 130, ""),
    (BrokenPipeError(32, "Broken pipe"), 1, ""),
    (
        KeyError("cells"),
        70,
        "tool: a fault of this tool (KeyError: 'cells'); with --traceback it shows where\n",
    ),
    (
        ModuleNotFoundError("No module named 'streettools.x'", name="streettools.x"),
        70,
        "tool: a fault of this tool (ModuleNotFoundError: No module named 'streettools.x'); with --traceback it shows"
        " where\n",
    ),
]


@pytest.mark.parametrize(("fault", "status", "said"), CASES, ids=[type(it[0]).__name__ for it in CASES])
def test_what_a_command_raises_is_a_line_and_a_status(fault, status, said, capfd):
    assert bounded("tool", raising(fault), []) == status
    assert capfd.readouterr() == ("", said)


def test_a_line_of_many_words_is_one_line_and_short(capsys):
    assert bounded("tool", raising(ValueError("a\nb\x1b[2J" + 1000 * "c")), []) == 70
    err = capsys.readouterr().err
    assert err.startswith("tool: a fault of this tool (ValueError: a b\\x1b[2Jccc") and err.count("\n") == 1
    assert len(err) < 300


def test_a_traceback_is_shown_where_it_is_asked_for(capsys):
    assert bounded("tool", raising(KeyError("cells")), ["a", "--traceback"]) == 70
    err = capsys.readouterr().err
    assert err.startswith("Traceback") and "in command" in err and "a fault of this tool" in err.splitlines()[-1]


def test_the_word_for_it_does_not_reach_the_command():
    given = []
    assert bounded("tool", lambda words: given.extend(words) or 0, ["a", "--traceback", "b"]) == 0
    assert given == ["a", "b"]


@pytest.mark.parametrize("name", [word.name for word in words.tools()])
def test_each_tool_has_the_boundary(name, monkeypatch, capsys):
    import importlib

    command = importlib.import_module(f"streettools.{name}.command")
    monkeypatch.setattr(command, "main", raising(RuntimeError("it broke")))
    assert words.run([name]) == 70
    said = f"{name}: a fault of this tool (RuntimeError: it broke); with --traceback it shows where\n"
    assert capsys.readouterr().err == said


@pytest.mark.parametrize("front", ["look", "cabinet"])
def test_the_short_words_are_those_of_the_launcher(front, tmp_path):
    link = tmp_path / "link"
    link.symlink_to(TOP / front)
    for command in (TOP / front, link):
        ran = subprocess.run([command, "--help"], capture_output=True, text=True, env=os.environ)
        assert (ran.returncode, ran.stderr) == (0, "") and ran.stdout.startswith("usage: ")
