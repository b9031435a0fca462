"""Each command of each document is run, and what the document says that it prints is compared. What can't be run here
is listed by NOT_RUN, with the reason."""

import importlib.util
import json
import os
import pathlib
import re
import shutil
import subprocess

import pages
import pytest
from pages import TOP

PROGRAM = pathlib.Path(os.environ.get("ARTERIAL_PROGRAM", TOP / "crates/arterial/out/arterial"))
SECONDS = 300
"""How long one command may take."""

PACKAGES = ("matplotlib", "pandas", "tqdm", "openpyxl", "tomli_w", "numpy", "distributed")
"""What the tools need."""

NOT_RUN = {
    r"apt-get |tools/setup": "it installs packages",
    r"\./test": "it is the whole gate",
    r"\./arterial (prove|take \S+ --sum SHA256)$": "it proves the program, which takes half an hour, or takes a proof over",
    r"\./cabinet ": "it serves until it is stopped; tools/tests/cabinet runs it",
    r"\./arterial plan edit ": "it serves until it is stopped; tools/tests/plan/edit runs it",
    r"\./arterial conform (?!--list)": "it tests a device; tools/tests/conform does so with a street",
    r"\./arterial street ": "it serves until it is stopped; tools/tests/street runs it",
    r"(for port in .*; do )?snmpget -v1 -c public -Os 127": "it asks a street that serves; tools/tests/street does so",
    r"(\./arterial|python3 -m model) live$": "it waits for requests; vectors/live_sessions holds such sessions",
    r"\./arterial (cosim (run |compare (?!.*\.compare\.toml)|(draw|table) .* out/)|sweep measure out/)":
        "it needs SUMO, or the folder of a run under it; tools/tests/cosim runs such streets",
    r".*session\.trace": "what a street has recorded; tools/tests/street makes one",
    r"(export|to=|snmp\w+ \$to) ?": "the dialogue of docs/CLIENTS.md, which tools/tests/cabinet/test_dialogue.py runs",
    r".*session\.json": "what a live cabinet has recorded; tools/tests/cabinet makes one",
    r"snmpwalk .* HOST ": "it asks a controller in the street",
    r".*--send\b": "it sets what devices hold; tools/tests/plan/test_sending.py does so with a street",
    r"\./arterial plan from live ": "it asks a live cabinet; tools/tests/plan/test_controllers.py does so",
    r"vectors/(?!judge trace)": "./test runs it, or it is a form with the reader's words",
    r".*rt run\)": "it proves a crate",
    r"gcc ": "it builds a fuzzer, which needs packages that nothing else needs",
    r".*(--slurm|--scheduler|sinfo|embedded\.csv)": "it needs a cluster; tools/tests/sweep/test_clusters.py starts one",
    r"\./arterial sweep study\.toml": "a form with a study of the reader's; tools/tests/sweep runs such studies",
}
"""By what a command begins with: why it isn't run here."""

SHOWN = (0, 2, 5, 8)
"""With which statuses a command may end whose output is shown: done, a refused scenario or sheet, a refused trace,
breaches in a log."""

LAUNCHER = """#!/bin/sh
checkout='' program={program} tools={top}/tools
. "$tools/launch.sh"
"""


def reason(command: pages.Command) -> str | None:
    """Returns why a command isn't run here; None where it is."""
    return next((why for begin, why in NOT_RUN.items() if re.match(begin, command.text)), None)


def statuses(command: pages.Command) -> tuple[int, ...]:
    """Returns the statuses with which a command may end; grep may find nothing."""
    return SHOWN if command.printed else (0, 1) if command.text.startswith("grep ") else (0,)


WITH_COMMANDS = [it for it in pages.pages() if any(reason(command) is None for command in pages.commands(it))]


def prepared(folder: pathlib.Path) -> None:
    """Puts what pages speak of without making it into a folder; `trace` has 250 ticks of a right turn."""
    shutil.copy(TOP / "tools/tests/plan/two-cabinets-2.walk", folder / "main-3rd.walk")
    (folder / "old.json").write_text('{"version":1,"rounds":40,"ticks":10,"cabinets":[{}]}')
    (folder / "new.json").write_text('{"version":1,"rounds":40,"ticks":10,"cabinets":[{"cells":[["phase",2,8,43]]}]}')
    scenario = json.loads((TOP / "scenarios/right-turn.json").read_text())
    scenario["rounds"] = 250 // scenario["ticks"]
    scenario["inputs"] = [it for it in scenario["inputs"] if it["round"] <= scenario["rounds"]]
    with open(folder / "trace", "wb") as trace:
        subprocess.run([PROGRAM, "run"], input=json.dumps(scenario).encode(), stdout=trace, check=True)


@pytest.fixture
def folder(tmp_path):
    """A folder that looks like the top of the repository; nothing of the repository itself is written."""
    if not PROGRAM.is_file():
        pytest.skip(f"no program at {PROGRAM}")
    if missing := [it for it in PACKAGES if importlib.util.find_spec(it) is None]:
        pytest.skip(f"Python's packages are missing: {', '.join(missing)}")
    shutil.copytree(TOP / "scenarios", tmp_path / "scenarios")
    shutil.copytree(TOP / "docs/pictures", tmp_path / "docs/pictures")
    for name in ("look", "model", "vectors", "mibs", "crates"):
        (tmp_path / name).symlink_to(TOP / name)
    (tmp_path / "arterial").write_text(LAUNCHER.format(program=PROGRAM, top=TOP))
    (tmp_path / "arterial").chmod(0o755)
    return tmp_path


@pytest.mark.parametrize("page", WITH_COMMANDS, ids=str)
def test_the_commands_of_a_page_do_what_it_says(folder, page):
    """One after the other, in one folder: each ends as it should and prints what the page shows, and the pictures that
    the commands draw are those of the repository."""
    prepared(folder)
    system = {**os.environ, "PATH": f"/usr/bin:{os.environ['PATH']}", "ARTERIAL_PROGRAM": str(PROGRAM)}
    for command in pages.commands(page):
        if reason(command) is not None:
            continue
        ran = subprocess.run(
            ["sh", "-c", command.text.replace("| less", "| cat")],
            stdin=subprocess.DEVNULL, stdout=subprocess.PIPE, stderr=subprocess.STDOUT,
            cwd=folder, text=True, timeout=SECONDS, env=system,
        )  # fmt: skip
        where, said = f"{page}:{command.line}: {command.text}", ran.stdout
        assert "Traceback" not in said, f"{where}\n{said}"
        assert ran.returncode in statuses(command), f"{where}\n{ran.returncode} {said}"
        assert command.printed is None or pages.agrees(command.printed, said), f"{where}\n{said}"
    for picture in (*folder.glob("docs/pictures/*.svg"), *folder.glob("scenarios/*.svg")):
        assert picture.read_bytes() == (TOP / picture.relative_to(folder)).read_bytes(), picture


@pytest.mark.parametrize("page", pages.pages(), ids=str)
def test_a_remark_follows_a_hash_so_that_a_block_can_be_pasted(page):
    """Three spaces within a command show a remark without `#`."""
    assert [it.text for it in pages.commands(page) if re.search(r"\S {3,}\S", it.text)] == []


def test_what_is_not_run_is_there():
    """Each reason applies to a command of some page."""
    left = [command.text for page in pages.pages() for command in pages.commands(page) if reason(command)]
    assert [begin for begin in NOT_RUN if not any(re.match(begin, it) for it in left)] == []


def test_a_command_is_found_with_what_it_prints():
    """The tutorial shows `a trace` after its check."""
    check = next(it for it in pages.commands(pathlib.Path("docs/TUTORIAL.md")) if "&& echo" in it.text)
    assert (check.text, check.printed) == ("./arterial check river-road.trace && echo a trace", ["a trace"])


@pytest.mark.parametrize(
    ("printed", "said", "whether"),
    [
        (["a b", "c"], "a b c\n", True),
        (["a b", "c"], "a b c d\n", False),
        (["a b", ".."], "a b c d\n", True),
        (["a", "..", "d"], "a b c d\n", True),
        (["a", "..", "c"], "a b c d\n", False),
        (["b", ".."], "a b\n", False),
        ([], "a\n", False),
    ],
)
def test_output_agrees_in_all_of_its_words(printed, said, whether):
    assert pages.agrees(printed, said) == whether
