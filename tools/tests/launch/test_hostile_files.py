"""Files that nobody meant well: each command ends in one line and the status of an invalid input, and shows nothing
that a terminal would obey."""

import json
import re
import subprocess
import sys

import pytest

from .conftest import TOP

sys.path.insert(0, str(TOP / "tools"))

from streettools import words  # noqa: E402

DEEP = 100_000
STREET = {"version": 1, "rounds": 1, "ticks": 10, "cabinets": [{}]}
TRACE = TOP / "tools/tests/look/traces/mixed.trace"
STUDY = 'scenario = "one.json"\nmeasures = ["services"]\n[[vary]]\nname = "x"\n'
SHEET = '[[intersection]]\nname = "A"\n[intersection.sequence]\n1 = ["{}", "5 6 7 8"]\n'


def nested(depth: int) -> str:
    """Returns lists in lists."""
    return "[" * depth + "]" * depth


def damaged(cabinet: object) -> str:
    """Returns a trace whose scenario has another first cabinet."""
    first, rest = TRACE.read_text().split("\n", 1)
    scenario = json.loads(first[2:])
    scenario["cabinets"][0] = cabinet
    return f"S {json.dumps(scenario, separators=(',', ':'), sort_keys=True)}\n{rest}"


REPORT = "look report --no-check FILE"
CASES = {
    "a walk with an arc of 5,000 digits": ("plan from walk FILE", f".1.3.6.1.4.1.{'9' * 5000} = INTEGER: 1\n"),
    "a sheet that is nested too deep": ("plan check FILE", f"x = {nested(DEEP)}\n"),
    "a sheet with a phase of 5,000 digits": ("plan check FILE", SHEET.format("9" * 5000)),
    "a study that is nested too deep": ("sweep FILE --count", f"x = {nested(DEEP)}\n"),
    "a map that is nested too deep": ("cosim map FILE", f"x = {nested(DEEP)}\n"),
    "a comparison that is nested too deep": ("cosim compare FILE -o out", f"x = {nested(DEEP)}\n"),
    "names that are nested too deep": (f"look report --no-check --names FILE {TRACE}", nested(DEEP)),
    "a title that is a list": (f"look report --no-check --names FILE {TRACE}", '{"title": ["x"]}'),
    "sections that are a list": (f"look report --no-check --names FILE {TRACE}", '{"sections": ["x"]}'),
    "a study from nan": ("sweep FILE --count", STUDY + 'path = "rounds"\nrange = {from = nan, to = 5}\n'),
    "a study to infinity": ("sweep FILE --count", STUDY + 'path = "rounds"\nrange = {from = 1, to = inf}\n'),
    "a list as a place": ("sweep FILE --count", STUDY + "cell = [[1], 1, 1]\nvalues = [1]\n"),
    "a path that is a list": ("sweep FILE --count", STUDY + "path = [1]\nvalues = [1]\n"),
    "a trace with half a cell": (REPORT, damaged({"cells": [["phase", 1]]})),
    "a trace with a cell that is a number": (REPORT, damaged({"cells": [1]})),
    "a trace with a cell of an unknown table": (REPORT, damaged({"cells": [["phases", 1, 2, 3]]})),
    "a trace whose cells are a number": (REPORT, damaged({"cells": 1})),
    "a trace with an unknown standard": (REPORT, damaged({"base": "std9"})),
    "a trace whose standard is a list": (REPORT, damaged({"base": []})),
    "a trace whose pattern is a text": (REPORT, damaged({"pattern": "x"})),
    "a trace whose cabinet is a number": (REPORT, damaged(1)),
}  # fmt: skip


@pytest.mark.parametrize("case", CASES)
def test_a_hostile_file_is_refused_in_lines(case, tmp_path, monkeypatch, capsys):
    command, text = CASES[case]
    (tmp_path / "one.json").write_text(json.dumps(STREET))
    (tmp_path / "FILE").write_text(text)
    monkeypatch.chdir(tmp_path)
    assert words.run(command.split()) == 2
    out, err = capsys.readouterr()
    assert "Traceback" not in err and "a fault of this tool" not in err
    assert len((out + err).splitlines()) <= 3 and len(max((out + err).splitlines(), key=len)) < 6000


@pytest.mark.parametrize("name", ["Main\x1b[2J", "\x1b]0;owned\x07", "A\x9b31m", "A\u202eB"])
def test_a_name_with_an_escape_is_refused_and_not_printed(name, tmp_path, capsys):
    """Clear the screen, set the title of the window, an escape of one character, text from right to left."""
    names = tmp_path / "x.names.json"
    names.write_text(json.dumps({"intersections": [{"name": name}]}))
    for command in (f"look report --no-check --names {names} {TRACE}", f"plan check --names {names} x.json"):
        (tmp_path / "x.json").write_text(json.dumps(STREET))
        given = [str(tmp_path / it) if it == "x.json" else it for it in command.split()]
        assert words.run(given) == 2
        shown = "".join(capsys.readouterr())
        assert not set(shown) & set("\x1b\x07\x9b\u202e") and "can't be shown" in shown


def test_a_name_of_two_lines_is_one_line(tmp_path, capsys):
    """A cell of a workbook may have a line end within: `Main & 3rd` and a command behind it stay one line."""
    names = tmp_path / "x.names.json"
    names.write_text(json.dumps({"title": "Main & 3rd\ntouch /tmp/owned\n#"}))
    assert words.run(["look", "report", "--no-check", "--names", str(names), str(TRACE)]) == 0
    assert capsys.readouterr().out.startswith("Main & 3rd touch /tmp/owned #:")


def test_a_plan_is_checked_without_bars_of_progress(tmp_path):
    """Python's tqdm is missing."""
    (tmp_path / "x.toml").write_text('[[intersection]]\nname = "A"\n')
    code = "import sys; sys.modules['tqdm'] = None; from streettools import words; sys.exit(words.run(sys.argv[1:]))"
    command = ["/usr/bin/python3", "-B", "-c", code, "plan", "check", tmp_path / "x.toml"]
    ran = subprocess.run(command, capture_output=True, text=True, cwd=TOP / "tools")
    assert ran.returncode == 0 and "no errors" in ran.stdout and "tqdm" not in ran.stderr


def test_the_version_is_that_of_the_program_and_of_the_citation():
    from streettools.shared.version import VERSION

    assert f'pub const VERSION: &str = "arterial {VERSION}\\n";' in (TOP / "crates/station/src/help.rt").read_text()
    assert f'\nversion: "{VERSION}"\n' in (TOP / "CITATION.cff").read_text()


def test_numbers_of_enterprises_are_in_one_module():
    found = [
        path.relative_to(TOP / "tools/streettools").as_posix()
        for path in (TOP / "tools/streettools").rglob("*.py")
        if re.search(r"[(,]\s*(1206|32473)\s*[,)]", path.read_text())
    ]
    assert found == ["shared/oids.py"]
