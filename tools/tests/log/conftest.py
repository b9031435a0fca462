"""What the tests share: the commands within this process, traces of scenarios, and what lines show."""

import json
import os
import pathlib
import subprocess
import sys

import pytest

TOP = pathlib.Path(__file__).resolve().parents[3]
sys.dont_write_bytecode = True
sys.path[:0] = [str(TOP / "vectors")]

START = "2026-11-27T00:00:00"


def tool(capsys, *words, status=0):
    """Runs a command of the tools, which must answer with this status; returns its output and standard error."""
    from streettools import words as tools

    found = tools.run([str(it) for it in words])
    answer = capsys.readouterr()
    assert found == status, answer.err
    return answer


@pytest.fixture
def log(capsys):
    """The command `log`."""
    return lambda *words, status=0: tool(capsys, "log", *words, status=status)


@pytest.fixture(scope="session")
def program():
    """The program that runs scenarios: the one of ARTERIAL_PROGRAM, else the one of this checkout, else the model."""
    from streettools.shared import program as programs

    return str(programs.answering(None, lambda line: None))


@pytest.fixture(scope="session")
def trace_of(program, tmp_path_factory):
    """Returns the path of the trace of a scenario, which is run once."""
    made = {}

    def done(scenario):
        path = TOP / "scenarios" / scenario if isinstance(scenario, str) else scenario
        if path not in made:
            text = path.read_bytes() if isinstance(path, pathlib.Path) else json.dumps(path).encode()
            ran = subprocess.run([program, "run"], input=text, capture_output=True, check=True)
            made[path] = tmp_path_factory.mktemp("trace") / f"{pathlib.Path(str(path)).stem}.trace"
            made[path].write_bytes(ran.stdout)
        return made[path]

    return done


@pytest.fixture
def events_of(capsys, tmp_path, monkeypatch):
    """Returns the path of the event log of a trace."""
    monkeypatch.setenv("ARTERIAL_PROGRAM", os.environ.get("ARTERIAL_PROGRAM", ""))

    def done(trace, start=START):
        path = tmp_path / f"{trace.stem}.csv"
        tool(capsys, "look", "events", "--no-check", "--start", start, "-o", path, trace)
        return path

    return done


def shown(path, cabinet):
    """Returns what the F lines of a file show of a cabinet: tick, colours, signals, for each line that changes one."""
    found = []
    for line in pathlib.Path(path).read_text().splitlines():
        words = line.split(" ")
        if words[0] == "F" and words[1] == str(cabinet):
            now = (int(words[2]), words[3], words[4])
            if not found or found[-1][1:] != now[1:]:
                found.append(now)
    return found
