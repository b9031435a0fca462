"""`tools/install` and `tools/package`: what they put where, and that it works there."""

import gzip
import os
import shutil
import subprocess
import tomllib

import pytest

from .conftest import SECONDS, TOP

TOOLS = ("cabinet", "conform", "cosim", "log", "look", "plan", "street", "sweep", "why")
COMMIT = {f"GIT_{who}_{what}": "x" for who in ("AUTHOR", "COMMITTER") for what in ("NAME", "EMAIL")}


@pytest.fixture
def whole(proved):
    """A copy in which the program is proved, with all that is installed beside it."""
    for name in ("docs", "mibs", "model", "scenarios"):
        shutil.copytree(TOP / name, proved.top / name, ignore=shutil.ignore_patterns("tests", "__pycache__"))
    for name in ("README.md", "CHANGELOG.md"):
        shutil.copy(TOP / name, proved.top)
    return proved


def done(*words, **more):
    """Returns what a command answers: its status, and both outputs."""
    ran = subprocess.run([str(it) for it in words], capture_output=True, text=True, timeout=SECONDS, **more)
    return ran.returncode, ran.stdout, ran.stderr


def test_all_stands_where_a_unix_user_looks_for_it(whole, tmp_path):
    to = tmp_path / "an empty prefix"
    assert done(whole.top / "tools/install", "--prefix", to) == (0, f"install: arterial is at {to}/bin/arterial\n", "")
    for page in (TOP / "docs/man").iterdir():
        assert gzip.decompress((to / f"share/man/man1/{page.name}.gz").read_bytes()) == page.read_bytes()
    assert len(list((to / "share/man/man1").iterdir())) == len(list((TOP / "docs/man").iterdir())) == 10
    assert sorted(it.name for it in (to / "bin").iterdir()) == ["arterial", *(f"arterial-{it}" for it in TOOLS)]
    for name in (
        "snmp/mibs/ARTERIAL-PROFILE-MIB",
        "snmp/mibs/ARTERIAL-FRONT-MIB",
        "arterial/scenario.schema.json",
        "doc/arterial/examples/one-cabinet.json",
        "doc/arterial/README.md",
    ):
        assert (to / "share" / name).is_file()
    for file in (it for it in (TOP / "scenarios").rglob("*") if it.is_file()):
        assert (
            to / "share/doc/arterial/examples" / file.relative_to(TOP / "scenarios")
        ).read_bytes() == file.read_bytes()
    assert not list(to.rglob("__pycache__")) and not list(to.rglob("tests"))


def test_the_installed_program_takes_files_and_tools_and_needs_no_kit(whole, tmp_path):
    to, file = tmp_path / "prefix", tmp_path / "a file"
    file.write_text("in the file\n")
    done(whole.top / "tools/install", "--prefix", to)
    names = {"PATH": "/usr/bin:/bin"}
    program = to / "bin/arterial"
    assert done(program, "run", file, env=names) == (7, "words run\nin the file\n", "")
    assert done(program, "run", file, env={"PATH": f"{to}/bin:/usr/bin:/bin"}, cwd=to)[1] == "words run\nin the file\n"
    trace = tmp_path / "a trace"
    trace.write_text('S {"cabinets":[{}],"rounds":1,"ticks":1,"version":1}\nF 1 0 R\n')
    refused = {**names, "SAYS": "trace: line 2 breaks rule 2", "STATUS": "5"}
    assert done(program, "check", trace, env=refused)[2].endswith(
        "\narterial: expected  F 1 0 RRRRRRRRRRRRRRRR DDDDDDDDDDDDDDDD S 0 0 0\n"
    )
    for command in ("look", "cabinet"):
        assert done(program, command, "--help", env=names)[1].startswith(f"usage: arterial {command} ")
        assert done(to / f"bin/arterial-{command}", "--help", env=names)[1].startswith(f"usage: arterial {command} ")
    status, written, said = done(program, "--help", env=names)
    assert (status, said) == (0, "") and "  arterial look " in written and "arterial prove" not in written
    assert done(program, "prove", env=names) == (
        125,
        "",
        "arterial: the program is installed here, and proved in a checkout\n",
    )


def test_the_installed_package_finds_the_installed_program_and_its_proof(whole, tmp_path):
    to = tmp_path / "prefix"
    done(whole.top / "tools/install", "--prefix", to)
    (site,) = (to / "lib").glob("python3.*/site-packages")
    asked = "import arterial; it = arterial.program(); print(it.path, it.is_proved, len(arterial.env.__doc__) > 9)"
    said = done("/usr/bin/python3", "-B", "-c", asked, env={"PYTHONPATH": str(site), "PATH": "/usr/bin:/bin"}, cwd="/")
    assert said == (0, f"{to}/lib/arterial/arterial True True\n", "")


def test_what_was_installed_is_removed_and_nothing_else(whole, tmp_path):
    to = tmp_path / "prefix"
    (to / "bin").mkdir(parents=True)
    (to / "bin/other").write_text("")
    assert done(whole.top / "tools/install", "--prefix", to)[0] == 0
    assert done(whole.top / "tools/install", "--prefix", to)[0] == 0
    assert done(whole.top / "tools/install", "--prefix", to, "--remove")[0] == 0
    assert [str(it.relative_to(to)) for it in to.rglob("*")] == ["bin", "bin/other"]
    assert done(whole.top / "tools/install", "--prefix", to, "--remove")[0] == 1


@pytest.mark.parametrize("name", ["/{folder}/other", "../other", "bin/../../other", ".."])
def test_a_list_that_names_files_elsewhere_removes_nothing(whole, tmp_path, name):
    """Who may write the list of an installation can't have files removed that were not installed."""
    to, other = tmp_path / "prefix", tmp_path / "other"
    other.write_text("")
    assert done(whole.top / "tools/install", "--prefix", to)[0] == 0
    with open(to / "lib/arterial/installed", "a", encoding="utf-8") as file:
        file.write(name.format(folder=tmp_path) + "\n")
    status, _, said = done(whole.top / "tools/install", "--prefix", to, "--remove")
    assert status == 1 and said.count("\n") == 1 and "names files outside of" in said
    assert other.exists() and (to / "bin/arterial").exists()


def test_names_with_backslashes_and_hyphens_are_taken_as_they_are(whole, tmp_path):
    to = tmp_path / "prefix"
    assert done(whole.top / "tools/install", "--prefix", to)[0] == 0
    for name in ("-rf", "a\\nb", "bin/\\c"):
        (to / name).write_text("")
        with open(to / "lib/arterial/installed", "a", encoding="utf-8") as file:
            file.write(name + "\n")
    assert done(whole.top / "tools/install", "--prefix", to, "--remove") == (0, "", "")
    assert not to.exists() or list(to.iterdir()) == []


def test_nothing_is_installed_that_was_not_proved(tried, proved, tmp_path):
    file = proved.top / "crates/io_edge/src/lib.rt"
    file.write_text("// another\n")
    for word in ("install", "package"):
        status, _, said = done(
            proved.top / "tools" / word, *([tmp_path] if word == "package" else ["--prefix", tmp_path / "to"])
        )
        assert status == 125 and said.count("\n") == 1 and "./arterial prove" in said
    assert not (tmp_path / "to").exists()


@pytest.mark.parametrize(
    ("words", "status"), [(["--prefix"], 2), (["--fast"], 2), (["--help"], 0), (["--prefix", "/proc/none"], 1)]
)
def test_bad_words_get_one_line(whole, words, status):
    answered, _, said = done(whole.top / "tools/install", *words)
    assert answered == status and said.count("\n") == (status != 0)


@pytest.mark.skipif(shutil.which("dpkg-deb") is None, reason="dpkg-deb is missing")
def test_a_package_names_its_commit_and_what_it_needs_and_is_the_same_each_time(whole, tmp_path):
    (whole.top / ".gitignore").write_text("out/\n")
    for words in (["init", "-q"], ["add", "-A"], ["commit", "-qm", "all"]):
        subprocess.run(["git", *words], cwd=whole.top, check=True, env={**os.environ, **COMMIT})
    commit = done("git", "rev-parse", "HEAD", cwd=whole.top)[1].strip()
    (tmp_path / "one").mkdir()
    (tmp_path / "two").mkdir()
    made = [done(whole.top / "tools/package", tmp_path / it) for it in ("one", "two")]
    assert [it[0] for it in made] == [0, 0], made
    first, second = (it[1].strip() for it in made)
    told = done("dpkg-deb", "--field", first)[1]
    assert (
        "Package: arterial\n" in told
        and f"Made from commit {commit}.\n" in told
        and "Depends: libc6 " in told
        and "python3" in told
    )
    listed = tomllib.loads((TOP / "tools/packages.toml").read_text())["package"]
    for field, groups in (("Recommends", ("tools", "page")), ("Suggests", ("traffic",))):
        names = done("dpkg-deb", "--field", first, field)[1].strip().split(", ")
        assert names == [it["name"] for it in listed if it["group"] in groups] and "python3-aiohttp" in told
    assert "root/root" in done("dpkg-deb", "--contents", first)[1]
    with open(first, "rb") as one, open(second, "rb") as two:
        assert one.read() == two.read()
    subprocess.run(["dpkg-deb", "--extract", first, tmp_path / "root"], check=True)
    assert done(tmp_path / "root/usr/bin/arterial", "generate", input="") == (7, "words generate\n", "")
    site = tmp_path / "root/usr/lib/python3/dist-packages"
    asked = "import arterial; print(arterial.program().is_proved, arterial.live.__name__)"
    said = done("/usr/bin/python3", "-B", "-c", asked, env={"PYTHONPATH": str(site), "PATH": "/usr/bin:/bin"}, cwd="/")
    assert said == (0, "True live\n", "")
