"""The dialogue of docs/CLIENTS.md, and a walk, by the tools that it names."""

import os
import re
import shutil
import subprocess

import pytest
from streettools.cabinet import walk

from .conftest import SECONDS, TOP

PAGE = TOP / "docs/CLIENTS.md"
END = "-- so far --"


def dialogue():
    """Returns the commands of the page, each with what it prints."""
    found = []
    for line in PAGE.read_text(encoding="utf-8").replace("\\\n", "").split("\n## ")[1].splitlines():
        if line.startswith("    $ "):
            found.append((line[6:], []))
        elif line.startswith("    "):
            found[-1][1].append(line[4:])
    return found


@pytest.fixture
def tools(tmp_path, monkeypatch):
    """The tools of the page, in the words of this repository alone; the test is skipped where they are missing."""
    if shutil.which("snmpwalk") is None:
        pytest.skip("no snmpwalk here")
    monkeypatch.setenv("SNMP_PERSISTENT_DIR", str(tmp_path))
    subprocess.run(["snmptranslate", ".1"], capture_output=True)


def test_the_page_says_what_the_agent_answers(client, tools):
    (start, _), *commands = dialogue()
    agent = client(*start.split()[1:])
    assert agent.port
    lines = [f"{command}\necho '{END}'" for command, _ in commands]
    script = "\n".join(lines).replace(":10161", f":{agent.port}")
    ran = subprocess.run(
        ["sh"], input=script, cwd=TOP, stdout=subprocess.PIPE, stderr=subprocess.STDOUT, text=True, timeout=10 * SECONDS
    )
    shown = [text.split() for text in ran.stdout.split(END)]
    assert shown == [" ".join(due).split() for _, due in commands] + [[]]
    assert len(commands) > 12


def test_a_walk_meets_each_readable_instance_once(program, client, tools):
    agent = client("--ticks-per-message", 0)
    words = ["snmpwalk", "-v1", "-c", "public", "-On", "-t", "10", f"127.0.0.1:{agent.port}", ".1"]
    ran = subprocess.run(words, capture_output=True, text=True, env=os.environ | {"MIBS": ""}, timeout=20 * SECONDS)
    met = re.findall(r"^\.([0-9.]+) = ", ran.stdout, re.M)
    assert met == [".".join(map(str, name)) for name, _, _ in walk.instances(program)]
    assert len(met) == len(set(met)) == 3417
