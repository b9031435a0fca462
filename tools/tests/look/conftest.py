"""What the tests share: the command, a small trace, and traces of another program."""

import os
import pathlib
import subprocess
import sys
from collections import Counter
from xml.etree import ElementTree

import pytest

HERE = pathlib.Path(__file__).resolve().parent
TOP = HERE.parents[2]
SVG = "{http://www.w3.org/2000/svg}"
sys.dont_write_bytecode = True

VECTORS = [HERE / "traces" / f"{name}.trace" for name in ("coord-003", "preempt-002", "link-003", "mixed")]
"""Complete traces that an independent program wrote: patterns; preempts; two cabinets with downloads, flash and
priority; and journals in which inputs, frames and ticks come in any order."""

STREET = HERE / "traces/street.trace"

SMALL = """\
S {"cabinets":[{}],"inputs":[{"cabinet":1,"on":true,"round":2,"veh":4},{"cabinet":1,"on":false,"round":5,"veh":4}],\
"rounds":7,"ticks":60,"version":1}
F 1 0 RRRRRRRRRRRRRRRR DDDDDDDDDDDDDDDD S 0 0 0
R 1
J 1 4*60
F 1 60 RGRRRGRRRRRRRRRR DDDDDDDDDDDDDDDD F 0 0 0
R 2
J 1 0*1 4*60
R 3
J 1 4*60
F 1 160 RYRRRYRRRRRRRRRR DDDDDDDDDDDDDDDD F 0 0 0
R 4
J 1 4*60
F 1 200 RCRRRCRRRRRRRRRR DDDDDDDDDDDDDDDD F 0 0 0
F 1 215 RRRGRRRGRRRRRRRR DDDDDDDDDDDDDDDD F 0 0 0
R 5
J 1 0*1 4*60
R 6
J 1 4*60
F 1 315 RRRYRRRYRRRRRRRR DDDDDDDDDDDDDDDD F 0 0 0
F 1 355 RRRCRRRCRRRRRRRR DDDDDDDDDDDDDDDD F 0 0 0
R 7
J 1 4*60
F 1 370 RGRRRGRRRRRRRRRR DDDDDDDDDDDDDDDD F 0 0 0
Z 7
"""
"""The first example of docs/SCENARIO.md: a car on the side street."""

PAIR = """\
S {"cabinets":[{"clock":840,"pattern":1},{"cells":[["pattern",1,3,10]],"clock":840,"pattern":1}],\
"rounds":4,"ticks":600,"version":1}
F 1 0 RRRRRRRRRRRRRRRR DDDDDDDDDDDDDDDD S 0 0 0
F 2 0 RRRRRRRRRRRRRRRR DDDDDDDDDDDDDDDD S 0 0 0
R 1
J 1 4*600
F 1 60 RGRRRGRRRRRRRRRR DDDDDDDDDDDDDDDD C1 0 0 0
J 2 4*600
F 2 60 RGRRRGRRRRRRRRRR DDDDDDDDDDDDDDDD C1 0 800 0
R 2
J 1 4*600
F 1 960 RGRRRGRRRRRRRRRR DDDDDDDDDDDDDDDD C1 0 0 0
J 2 4*600
F 2 1060 RGRRRGRRRRRRRRRR DDDDDDDDDDDDDDDD C1 0 0 0
R 3
J 1 4*600
J 2 4*600
R 4
J 1 4*600
F 1 1860 RGRRRGRRRRRRRRRR DDDDDDDDDDDDDDDD C1 0 0 0
J 2 4*600
F 2 1960 RGRRRGRRRRRRRRRR DDDDDDDDDDDDDDDD C1 0 0 0
Z 4
"""
"""Two cabinets in step with pattern 1 and no traffic, the second with an offset of 10 s, which it brings about in its
first cycle."""


NO_PROGRAM = {**os.environ, "ARTERIAL_PROGRAM": "/nowhere"}
"""An environment in which no program checks a trace."""


def run(*words, given=None, env=NO_PROGRAM):
    """Runs ./look and returns what it answered."""
    return subprocess.run([TOP / "look", *map(str, words)], input=given, capture_output=True, text=True, env=env)


class Drawn:
    """An SVG: how many shapes each named group has, and its texts."""

    def __init__(self, path):
        root = ElementTree.parse(path).getroot()
        self.groups = Counter()
        for group in root.iter(f"{SVG}g"):
            shapes = [it for it in group.iter() if it.tag in (f"{SVG}path", f"{SVG}use")]
            defined = [it for defs in group.iter(f"{SVG}defs") for it in defs.iter(f"{SVG}path")]
            self.groups[group.get("id")] = len(shapes) - len(defined)
        self.texts = Counter("".join(it.itertext()).strip() for it in root.iter(f"{SVG}text"))


@pytest.fixture
def look(capsys, monkeypatch, tmp_path):
    """The command within this process, which must answer with status 0; a trace that is given stands in a file."""
    from streettools import words as tools

    monkeypatch.setenv("ARTERIAL_PROGRAM", "/nowhere")

    def done(*words, given=None):
        if given is not None:
            file = tmp_path / "given.trace"
            file.write_text(given)
            words = (*words, file)
        status = tools.run(["look", *map(str, words)])
        answer = capsys.readouterr()
        assert (status, answer.err) == (0, "")
        return answer.out

    return done


@pytest.fixture
def drawn(look, tmp_path):
    """Draws a picture and reads it."""

    def done(*words, given=None):
        path = tmp_path / "picture.svg"
        look(*words, "-o", path, given=given)
        return Drawn(path)

    return done
