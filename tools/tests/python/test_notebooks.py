"""The notebooks run whole, and print what they show. After a change of what they print, in docs/notebooks:

    PYTHONPATH=../../tools python3 -m nbconvert --to notebook --execute --inplace \\
        --ExecutePreprocessor.record_timing=False *.ipynb
"""

import importlib.util
import json
import os
import pathlib
import subprocess

import pytest

from .conftest import TOP

NOTEBOOKS = sorted((TOP / "docs/notebooks").glob("*.ipynb"))
SECONDS = 280


def cells(path: pathlib.Path) -> list[dict]:
    """Returns the cells of code of a notebook."""
    found = json.loads(path.read_text(encoding="utf-8"))["cells"]
    return [it for it in found if it["cell_type"] == "code"]


def printed(cell: dict) -> list[str]:
    """Returns what a cell prints and shows, as text; pictures are there or aren't."""
    found = []
    for it in cell["outputs"]:
        data = it.get("data", {})
        found.append(
            "a picture" if "image/svg+xml" in data else "".join(it.get("text", data.get("text/plain", it.get("ename"))))
        )
    return found


def test_there_are_three_notebooks_without_errors():
    assert [it.stem for it in NOTEBOOKS] == ["learner", "offsets", "plan"]
    kinds = {out["output_type"] for path in NOTEBOOKS for cell in cells(path) for out in cell["outputs"]}
    assert kinds == {"stream", "execute_result"}
    assert all("stderr" != out.get("name") for path in NOTEBOOKS for cell in cells(path) for out in cell["outputs"])


@pytest.mark.skipif(
    any(importlib.util.find_spec(it) is None for it in ("nbconvert", "ipykernel")),
    reason="jupyter is missing: apt-get install -y jupyter-nbconvert python3-ipykernel",
)
@pytest.mark.parametrize("path", NOTEBOOKS, ids=lambda it: it.stem)
def test_a_notebook_runs_whole_and_prints_what_it_shows(path, tmp_path):
    path_of_packages = os.pathsep.join(filter(None, (str(TOP / "tools"), os.environ.get("PYTHONPATH"))))
    names = os.environ | {"PYTHONPATH": path_of_packages, "HOME": str(tmp_path), "PYTHONDONTWRITEBYTECODE": "1"}
    words = ["--to", "notebook", "--execute", f"--output={tmp_path / path.name}", path.name]
    ran = subprocess.run(
        ["/usr/bin/python3", "-m", "nbconvert", *words], cwd=path.parent, env=names, capture_output=True, text=True,
        timeout=SECONDS,
    )  # fmt: skip
    assert ran.returncode == 0, ran.stderr[-2000:]
    for shown, done in zip(cells(path), cells(tmp_path / path.name), strict=True):
        assert printed(done) == printed(shown), "".join(shown["source"])
