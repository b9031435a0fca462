"""What the documents show of traces and of refusals is what the program gives."""

import os
import pathlib
import re
import subprocess

import pages
import pytest
from pages import TOP

PROGRAM = pathlib.Path(os.environ.get("ARTERIAL_PROGRAM", TOP / "crates/arterial/out/arterial"))
SECONDS = 60
SCENARIO = pathlib.Path("docs/SCENARIO.md")


@pytest.fixture
def run():
    """Runs the program with a scenario, and returns the lines of its trace and its line on standard error."""
    if not PROGRAM.is_file():
        pytest.skip(f"no program at {PROGRAM}")

    def done(scenario: str) -> tuple[list[str], str]:
        ran = subprocess.run([PROGRAM, "run"], input=scenario, capture_output=True, text=True, timeout=SECONDS)
        return ran.stdout.splitlines(), ran.stderr.strip()

    return done


def traces() -> list[tuple[str, str, list[str]]]:
    """Returns each trace that a page shows: its place, its scenario, its lines; of one that shows frames alone these.
    A trace without its first line stands behind its scenario."""
    found = []
    for page in pages.pages():
        scenario = None
        for block in pages.blocks(page):
            lines = [re.split(r"\s{3,}", line.strip())[0] for _, line in block]
            if lines[0].startswith("{"):
                scenario = "".join(lines)
            elif lines[0].startswith("S {"):
                found.append((f"{page}:{block[0][0]}", lines[0][2:], lines))
            elif lines[0].startswith("F 1 0 "):
                found.append((f"{page}:{block[0][0]}", scenario, lines))
    return found


TRACES = traces()


@pytest.mark.parametrize(("scenario", "shown"), [it[1:] for it in TRACES], ids=[it[0] for it in TRACES])
def test_a_trace_that_is_shown_is_the_one_that_run_writes(run, scenario, shown):
    """Two dots in a line stand for what is cut out of it."""
    due, _ = run(scenario)
    if not shown[0].startswith("S"):
        due = [it for it in due if it[0] == "F" or (it[0] != "S" and any(line[0] != "F" for line in shown))]
    assert len(due) == len(shown)
    for line, it in zip(shown, due):
        begin, _, end = line.partition(" .. ")
        assert it == line or (end and it.startswith(begin) and it.endswith(end)), line


MEMBERS = {"version": "1", "rounds": "10", "ticks": "10", "cabinets": "[{}]"}
"""The scenario to which each change of "One of each kind" is made."""


def changed(change: str) -> str:
    """Returns the scenario of a change, as its row tells it."""
    code = re.search(r"`(.*?)`", change)[1]
    if "is put in" in change:
        return "{" + ",".join(f'"{name}":{value}' for name, value in MEMBERS.items()) + f",{code}}}"
    members = dict(MEMBERS)
    for part in re.split(r",(?=\"(?:rounds|ticks|cabinets)\":)", code):
        name, value = re.fullmatch(r'"(\w+)":(.*)', part).groups()
        members[name] = value
        if "is left out" in change:
            del members[name]
    return "{" + ",".join(f'"{name}":{value}' for name, value in members.items()) + "}"


def rows_behind(title: str) -> list[list[str]]:
    """Returns the rows of the first table behind a title in the page of scenarios, without its head."""
    behind = (TOP / SCENARIO).read_text(encoding="utf-8").split(title)[1]
    table = re.search(r"(?:^\|.*\n)+", behind, re.M)[0].splitlines()[2:]
    return [[cell.strip() for cell in row.strip("|").split(" | ")] for row in table]


def test_each_kind_of_refusal_has_the_line_that_is_shown(run):
    rows = [row for row in rows_behind("**One of each kind.**") if "`" in row[1]]
    assert len(rows) > 10
    for _, change, line in rows:
        assert run(changed(change))[1] == line.strip("`"), change


def test_faults_come_one_after_another_as_is_shown(run):
    """Each is mended as its row says."""
    behind = (TOP / SCENARIO).read_text(encoding="utf-8").split("**Faults, one after another.**")[1]
    text = "".join(line.strip() for line in re.search(r"(?:^    .*\n)+", behind, re.M)[0].splitlines())
    mends = [(',"on":true', ""), ('"round":11', '"round":10'), ('["phase",4,8,29]', '["phase",4,8,30]')]
    for (line, _), (old, new) in zip(rows_behind("**Faults, one after another.**"), mends, strict=True):
        assert run(text)[1] == line.strip("`")
        text = text.replace(old, new)
    assert run(text)[1] == ""


SHEETS = {
    "docs/PLANS.md": tuple(f"scenarios/sheets/{name}.toml" for name in ("main-street", "mistake", "week")),
    "docs/TUTORIAL.md": ("scenarios/tutorial/as-entered.toml",),
}
"""By page, the sheets of which it shows parts."""


@pytest.mark.parametrize("page", SHEETS)
def test_the_parts_of_sheets_that_a_page_shows_stand_in_the_sheets(page):
    """Line by line."""
    stands = {line.strip() for name in SHEETS[page] for line in (TOP / name).read_text(encoding="utf-8").splitlines()}
    shown = [
        line.strip()
        for block in pages.blocks(pathlib.Path(page))
        if re.match(r"\[|title = |rings = ", block[0][1])
        for _, line in block
        if line.strip()
    ]
    assert len(shown) > 8 and [line for line in shown if line not in stands] == []
