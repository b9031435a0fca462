"""What the wheel holds, with a proof and without, and that pip installs it in a fresh virtual environment."""

import importlib.util
import os
import pathlib
import shutil
import subprocess
import sys
import tarfile
import tomllib
import zipfile

import pytest
from streettools.shared.version import VERSION

from ..launch.conftest import proved, tried  # noqa: F401
from .conftest import TOP

SECONDS = 280


def backend_of(top: pathlib.Path):
    """Returns the build backend of a checkout."""
    spec = importlib.util.spec_from_file_location("backend", top / "tools/wheel/backend.py")
    module = importlib.util.module_from_spec(spec)
    spec.loader.exec_module(module)
    return module


@pytest.fixture
def whole(proved):  # noqa: F811
    """A copy in which a stand-in for the program is proved, with all that a wheel is made of."""
    mibs = ("mibs/ARTERIAL-PROFILE-MIB", "mibs/ARTERIAL-FRONT-MIB")
    for name in (*mibs, "docs/scenario.schema.json", "docs/field.schema.json"):
        (proved.top / name).parent.mkdir(exist_ok=True)
        shutil.copy(TOP / name, proved.top / name)
    for name in ("pyproject.toml", "README.md"):
        shutil.copy(TOP / name, proved.top)
    return proved.top


def test_the_wheel_of_a_proved_checkout_has_the_program_and_its_record(whole, tmp_path):
    name = backend_of(whole).build_wheel(str(tmp_path))
    assert name.startswith(f"arterial-{VERSION}-py3-none-linux_")
    with zipfile.ZipFile(tmp_path / name) as wheel:
        names = wheel.namelist()
        program = wheel.getinfo("arterial/data/program/arterial")
        assert program.external_attr >> 16 == 0o100755
        assert wheel.read(program) == (whole / "crates/arterial/out/arterial").read_bytes()
        assert wheel.read("arterial/data/proof/sums") == (whole / "crates/arterial/out/proved/sums").read_bytes()
        wheel.extractall(tmp_path / "site")
    for it in ("arterial/py.typed", "arterial/data/ARTERIAL-PROFILE-MIB", "arterial/data/ARTERIAL-FRONT-MIB",
               "streettools/look/page/parts/page.js", "arterial/data/scenario.schema.json",
               "streettools/sweep/job.sbatch"):  # fmt: skip
        assert it in names or it.endswith("page.js"), it
    assert any(it.startswith("streettools/look/page/parts/") for it in names)
    assert not any("tests" in pathlib.PurePath(it).parts or "__pycache__" in it for it in names)
    (tmp_path / "site/arterial/data/program/arterial").chmod(0o755)
    asked = "import arterial; it = arterial.program(); print(it.path, it.is_proved)"
    environment = {"PYTHONPATH": str(tmp_path / "site"), "PATH": "/usr/bin:/bin"}
    said = subprocess.run([sys.executable, "-B", "-c", asked], env=environment, capture_output=True, text=True, cwd="/")
    assert said.stdout == f"{tmp_path}/site/arterial/data/program/arterial True\n", said.stderr


def test_the_wheel_of_an_unproved_checkout_has_no_program_and_is_for_any_machine(whole, tmp_path):
    (whole / "crates/io_edge/src/lib.rt").write_text("// another\n")
    name = backend_of(whole).build_wheel(str(tmp_path))
    assert name == f"arterial-{VERSION}-py3-none-any.whl"
    with zipfile.ZipFile(tmp_path / name) as wheel:
        assert not any("/program/" in it or "/proof/" in it for it in wheel.namelist())
        wheel.extractall(tmp_path / "site")
    asked = "import arterial\ntry:\n arterial.program()\nexcept arterial.NoProgram as fault:\n print(fault)"
    environment = {"PYTHONPATH": str(tmp_path / "site"), "PATH": "/usr/bin:/bin"}
    said = subprocess.run([sys.executable, "-B", "-c", asked], env=environment, capture_output=True, text=True, cwd="/")
    assert "this package carries none: ARTERIAL_PROGRAM names one" in said.stdout, said.stderr


def test_the_wheel_of_a_source_archive_is_the_same(whole, tmp_path):
    """`python3 -m build` makes the wheel from the archive, in which nothing can be proved."""
    backend = backend_of(whole)
    with tarfile.open(tmp_path / backend.build_sdist(str(tmp_path))) as archive:
        archive.extractall(tmp_path / "made")
    again = backend_of(tmp_path / f"made/arterial-{VERSION}")
    names = []
    for it, place in ((backend, "one"), (again, "other")):
        (tmp_path / place).mkdir()
        with zipfile.ZipFile(tmp_path / place / it.build_wheel(str(tmp_path / place))) as wheel:
            names.append({name: wheel.read(name) for name in wheel.namelist() if not name.endswith("RECORD")})
    assert names[0] == names[1]


def test_the_wheel_needs_what_the_list_of_packages_says():
    """Each package for pip in tools/packages.toml is a dependency or in an extra, and nothing else is."""
    project = tomllib.loads((TOP / "pyproject.toml").read_text(encoding="utf-8"))["project"]
    extras = project["optional-dependencies"]
    listed = tomllib.loads((TOP / "tools/packages.toml").read_text(encoding="utf-8"))["package"]
    named = {*project["dependencies"], *(name for names in extras.values() for name in names)}
    assert named == {it["pip"] for it in listed if "pip" in it}
    assert sorted(extras) == ["all", "cosim", "plan", "street", "sweep"]
    assert {*extras["all"], *project["dependencies"]} == named


@pytest.mark.skipif(
    any(importlib.util.find_spec(it) is None for it in ("pip", "ensurepip")),
    reason="pip is missing: apt-get install -y python3-pip python3-venv",
)
def test_pip_installs_it_without_a_network_and_a_users_code_runs(program, tmp_path):
    """In a fresh virtual environment with Debian's packages, as docs/PYTHON.md says; a notebook runs in it if Jupyter
    is there. Nothing is left in the checkout."""
    before = sorted(it.name for it in TOP.iterdir())
    names = {"PATH": "/usr/bin:/bin", "HOME": str(tmp_path), "ARTERIAL_PROGRAM": str(program)}
    names |= {name: os.environ[name] for name in ("PYTHONPATH",) if name in os.environ}
    for words in (
        ["/usr/bin/python3", "-m", "venv", "--system-site-packages", "bench"],
        ["bench/bin/pip", "install", "-q", "--no-index", "--no-compile", "--disable-pip-version-check", TOP],
    ):
        ran = subprocess.run(words, cwd=tmp_path, env=names, capture_output=True, text=True, timeout=SECONDS)
        assert ran.returncode == 0, ran.stderr
    asked = (
        "import arterial; street = arterial.live(arterial.Scenario(rounds=6)); street.tick(60); street.end();"
        "print(arterial.__file__, bool(arterial.check(street.trace)), len(street.trace.greens()))"
    )
    words = ["bench/bin/python3", "-B", "-c", asked]
    ran = subprocess.run(words, cwd=tmp_path, env=names, capture_output=True, text=True, timeout=SECONDS)
    found = os.path.join(tmp_path, "bench/lib/python3.11/site-packages/arterial/__init__.py")
    assert ran.stdout == f"{found} True 2\n", ran.stderr
    if not importlib.util.find_spec("nbconvert") or not importlib.util.find_spec("ipykernel"):
        return
    notebook = TOP / "docs/notebooks/plan.ipynb"
    for words in (
        ["-m", "ipykernel", "install", "--sys-prefix"],
        ["-m", "nbconvert", "--to", "notebook", "--execute", f"--output={tmp_path / notebook.name}", notebook.name],
    ):
        words = [tmp_path / "bench/bin/python3", *words]
        ran = subprocess.run(
            words, cwd=notebook.parent, env=names, capture_output=True, text=True, timeout=SECONDS
        )
        assert ran.returncode == 0, ran.stderr[-2000:]
    assert sorted(it.name for it in TOP.iterdir()) == before
