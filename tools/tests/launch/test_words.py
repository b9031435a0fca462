"""Words of the launcher, with the program that was proved: files, help, wrong words, readers that go, byte order
marks."""

import pathlib
import subprocess

import pytest

from .conftest import BUILT, SECONDS, TOP, ended, wait_for

MARK = "\ufeff"


@pytest.mark.parametrize(
    "words", [("run", "FILE"), ("run", "--workers", "2", "FILE"), ("run", "FILE", "--workers", "2")]
)
def test_a_files_name_stands_for_standard_input(proved, tmp_path, words):
    file = tmp_path / "a scenario.json"
    file.write_text("in the file\n")
    given = [str(file) if it == "FILE" else it for it in words]
    told = " ".join(it for it in words if it != "FILE")
    assert proved.ran(*given) == (7, f"words {told}\nin the file\n", "")


@pytest.mark.parametrize("command", ["check", "band", "respond"])
def test_each_command_that_reads_takes_a_file(proved, tmp_path, command):
    file = tmp_path / "given"
    file.write_text("x")
    assert proved.ran(command, str(file)) == (7, f"words {command}\nx", "")


def test_the_words_of_an_overlap_are_no_files(proved, tmp_path):
    file = tmp_path / "trace"
    file.write_text("x")
    words = ["overlaps", "--cabinet", "1", "--parents", "02", "--trail", "5", "--yellow", "35", "--red", "10"]
    assert proved.ran(*words, str(file)) == (7, f"words {' '.join(words)}\nx", "")


def test_a_dash_is_standard_input(proved):
    assert proved.ran("run", "-") == (7, "words run\none\ntwo\n", "")


@pytest.mark.parametrize(
    ("name", "why"), [("missing", "no such file"), (".", "is a directory"), ("", "is a directory")]
)
def test_a_file_that_can_not_be_read_is_told_in_one_line(proved, tmp_path, name, why):
    given = str(tmp_path / name) if name else ""
    status, written, said = proved.ran("run", given)
    assert (status, written) == (3, "") and said.count("\n") == 1 and said.endswith(f": {why}\n")


def test_two_files_are_too_many(proved, tmp_path):
    file = tmp_path / "given"
    file.write_text("x")
    assert proved.ran("run", str(file), "another")[1] == "words run another\nx"


def test_a_wrong_word_gets_the_usage_line_and_the_command_that_was_meant(proved):
    usage = {"SAYS": "usage: arterial run", "STATUS": "1"}
    assert proved.ran("chekc", **usage) == (
        1, "", "usage: arterial run\narterial: `arterial --help` lists all commands; did you mean `arterial check`?\n"
    )  # fmt: skip
    assert proved.ran("zzz", **usage)[2] == "usage: arterial run\narterial: `arterial --help` lists all commands\n"
    assert proved.ran("prov", **usage)[2].endswith("did you mean `arterial prove`?\n")
    assert proved.ran("run", "--worker", "2", **usage)[2].endswith(
        "arterial: `arterial run --help` shows the arguments of run\n"
    )


def test_words_of_the_insides_are_no_commands(proved):
    for word in ("launch", "shared", "../tests/launch", "Look"):
        assert proved.ran(word)[1] == f"words {word}\none\ntwo\n"


def test_help_shows_the_programs_and_then_the_tools(proved):
    status, written, said = proved.ran("--help")
    assert (status, said) == (0, "") and written.startswith("the help\n") and "not proved" in written
    for name in ("prove", "look", "cabinet"):
        assert f"  arterial {name} " in written


@pytest.mark.parametrize("word", ["--help", "-h"])
def test_help_of_one_command(proved, word):
    assert proved.ran("run", word) == (0, "  arterial run [--workers N]\n      Runs.\n", "")
    assert proved.ran("check", word) == (0, "  arterial check\n      Checks.\n", "")


@pytest.mark.parametrize("command", ["look", "cabinet"])
def test_the_tools_are_words_of_the_launcher(proved, command):
    status, written, said = proved.ran(command, "--help")
    assert (status, said) == (0, "") and written.startswith(f"usage: arterial {command} ")


def test_in_a_virtual_environment_its_python_runs_the_tools(proved, tmp_path):
    python = tmp_path / "bin/python3"
    python.parent.mkdir()
    python.write_text('#!/bin/sh\necho "in the environment" >&2\nexec /usr/bin/python3 "$@"\n')
    python.chmod(0o755)
    status, written, said = proved.ran("look", "--help", VIRTUAL_ENV=str(tmp_path))
    assert (status, said) == (0, "in the environment\n") and written.startswith("usage: arterial look ")
    assert proved.ran("look", "--help", VIRTUAL_ENV="/nowhere")[:2] == (0, written)


def test_the_tools_can_be_called_as_a_package_of_python(proved):
    def called(*words):
        ran = subprocess.run(
            ["/usr/bin/python3", "-B", "-m", "streettools", *words],
            cwd=proved.top / "tools",
            capture_output=True,
            text=True,
        )
        return ran.returncode, ran.stdout, ran.stderr

    assert called("look", "--help")[1].startswith("usage: arterial look ")
    assert "cabinet" in called()[1] and "launch" not in called()[1]
    assert called("lok") == (2, "", "streettools: unknown command 'lok'; did you mean look?\n")


def test_a_package_of_python_that_is_missing_is_told_in_one_line(proved, tmp_path):
    (tmp_path / "tomli_w.py").write_text("raise ModuleNotFoundError('none', name='tomli_w')\n")
    status, written, said = proved.ran("plan", "--help", PYTHONPATH=str(tmp_path))
    assert (status, written) == (1, "")
    assert said == "plan: Python's package tomli_w is missing: apt-get install -y python3-tomli-w\n"


def test_a_command_of_the_tools_is_a_line_and_a_module(proved):
    """As a command that is to come: with its module it is a word of the launcher, in help and without."""
    assert "  arterial sweep " not in proved.ran("--help")[1] or (TOP / "tools/streettools/sweep").is_dir()
    folder = proved.top / "tools/streettools/sweep"
    folder.mkdir(exist_ok=True)
    (folder / "__init__.py").write_text("")
    (folder / "command.py").write_text("def main(words):\n    print('swept', *words)\n    return 9\n")
    assert "  arterial sweep " in proved.ran("--help")[1]
    assert proved.ran("sweep", "--all", "x") == (9, "swept --all x\n", "")


def test_a_reader_that_goes_leaves_no_word(proved):
    running = proved.started("run", SAYS="write fault", STATUS="4")
    assert ended(running) == (4, "", "")


def test_a_disk_that_is_full_is_told(proved):
    names = {"PATH": "/usr/bin:/bin", "SAYS": "write fault", "STATUS": "4"}
    with open("/dev/full", "wb") as full:
        ran = subprocess.run(
            [proved.top / "arterial", "run"], stdin=subprocess.DEVNULL, stdout=full, stderr=subprocess.PIPE, env=names
        )
    assert (ran.returncode, ran.stderr) == (4, b"write fault\n")


@pytest.mark.parametrize(("says", "status"), [("scenario: not JSON", 2), ("trace: line 1 breaks rule 1", 5)])
def test_a_byte_order_mark_is_named(proved, tmp_path, says, status):
    file = tmp_path / "marked"
    file.write_text(MARK + "{}")
    answered, written, said = proved.ran("run", str(file), SAYS=says, STATUS=str(status))
    assert (answered, written) == (status, "")
    assert said.startswith(f"{says}\narterial: the text begins with a byte order mark (EF BB BF)")
    file.write_text("{}")
    assert proved.ran("run", str(file), SAYS=says, STATUS=str(status)) == (status, "", f"{says}\n")


def test_a_byte_order_mark_is_named_as_a_cause_where_the_text_came_through_a_pipe(proved):
    said = proved.ran("run", SAYS="scenario: not JSON", STATUS="2", given=MARK)[2]
    assert said.startswith("scenario: not JSON\narterial: one cause can be a byte order mark (EF BB BF)")


def test_a_link_to_the_launcher_is_the_launcher(proved):
    link = proved.told / "a-link"
    link.symlink_to(proved.top / "arterial")
    names = {"PATH": f"{proved.told}:/usr/bin:/bin"}
    for command in (link, "a-link"):
        ran = subprocess.run(
            [command, "run", "--workers", "2"],
            input="one\ntwo\n",
            capture_output=True,
            text=True,
            timeout=SECONDS,
            env=names,
        )
        assert (ran.returncode, ran.stdout, ran.stderr) == (*BUILT, "")


def test_the_launcher_can_be_called_from_its_own_folder(proved):
    ran = subprocess.run(
        ["sh", "arterial", "run", "--workers", "2"], input="one\ntwo\n", capture_output=True, text=True, cwd=proved.top
    )
    assert (ran.returncode, ran.stdout, ran.stderr) == (*BUILT, "")


@pytest.mark.parametrize("word", ["run", "survey"])
def test_where_the_launcher_is_killed_the_program_ends_too(proved, word):
    file = proved.told / "process"
    running = proved.started(word, WAITS=str(file))
    wait_for(lambda: file.exists() and file.read_text())
    process = pathlib.Path("/proc") / file.read_text().strip()
    assert process.exists()
    running.terminate()
    running.wait(SECONDS)
    wait_for(lambda: not process.exists())
