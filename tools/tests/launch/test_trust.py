"""What is run is what was proved: checksums tie the program to the sources and to the kit."""

import os
import pathlib
import shutil
import subprocess
import time

import pytest

from .conftest import BUILT, HERE, SECONDS

FORGED = "#!/bin/sh\necho forged\n"


def later(file):
    """Gives a file a time of change ahead of now."""
    moment = time.time() + 5
    os.utime(file, (moment, moment))


def forged(tried):
    """Puts another program in the place of the proved one, of the same age and mode."""
    was = tried.program.stat()
    tried.program.write_text(FORGED)
    os.utime(tried.program, ns=(was.st_atime_ns, was.st_mtime_ns))


def test_a_program_in_its_place_is_refused(proved):
    forged(proved)
    status, written, said = proved.ran("run")
    assert (status, written) == (123, "")
    assert said.count("\n") == 1 and "is not the program that was proved here" in said


def test_a_program_that_was_moved_to_its_place_is_refused(proved):
    other = proved.told / "other"
    other.write_text(FORGED)
    other.chmod(0o755)
    time.sleep(1.1)
    os.replace(other, proved.program)
    assert proved.ran("run")[:2] == (123, "")


def test_prove_builds_it_again(proved):
    forged(proved)
    assert proved.ran("prove")[0] == 0
    assert proved.ran("run", "--workers", "2") == (*BUILT, "")


@pytest.mark.parametrize(
    "name",
    [
        "crates/io_edge/src/lib.rt",
        "crates.txt",
        "HANDLES",
        "crates/arterial/src/main.rt",
        "crates/arterial/out/arterial",
    ],
)
def test_a_file_that_is_touched_is_no_change(proved, name):
    told = proved.calls()
    later(proved.top / name)
    assert proved.ran("run", "--workers", "2", path="/nowhere") == (*BUILT, "")
    assert proved.calls() == told


def test_a_file_that_is_checked_out_again_is_no_change(proved):
    file = proved.top / "crates/io_edge/src/lib.rt"
    text = file.read_text()
    file.unlink()
    file.write_text(text)
    assert proved.ran("run", "--workers", "2", path="/nowhere") == (*BUILT, "")


def test_a_copy_of_the_whole_checkout_is_no_change(proved, tmp_path):
    copy = tmp_path / "b copy"
    shutil.copytree(proved.top, copy)
    proved.top = copy
    assert proved.ran("run", "--workers", "2", path="/nowhere") == (*BUILT, "")


def test_once_tested_the_sums_are_not_tested_again(proved):
    later(proved.top / "crates.txt")
    time.sleep(1.1)
    proved.ran("run")
    tested = proved.program.parent / "proved/tested"
    moment = tested.stat().st_mtime_ns
    time.sleep(1.1)
    proved.ran("run")
    assert tested.stat().st_mtime_ns == moment


@pytest.mark.parametrize("name", ["crates/io_edge/src/lib.rt", "crates.txt", "HANDLES"])
def test_with_other_sources_the_program_without_proofs_answers(proved, name):
    with open(proved.top / name, "a") as it:
        it.write("# more\n")
    status, written, said = proved.ran("run", "--workers", "2")
    assert (status, written) == BUILT
    assert said.startswith(
        f"arterial: {name} has changed since the program was proved: the unproved program answers"
    )


@pytest.mark.parametrize("name", ["crates/io_edge/src/lib.rt", "crates.txt", "HANDLES", "crates/arterial/src/main.rt"])
def test_a_change_whose_time_was_set_back_is_seen(proved, name):
    time.sleep(1.1)
    proved.ran("run")
    file = proved.top / name
    was = file.stat()
    with open(file, "r+b") as it:
        it.write(b"?")
    os.utime(file, ns=(was.st_atime_ns, was.st_mtime_ns))
    assert file.stat().st_size == was.st_size and file.stat().st_mtime_ns == was.st_mtime_ns
    assert f"{name} has changed" in proved.ran("run")[2]


def test_the_last_of_the_names_is_looked_at_too(proved):
    names = (proved.program.parent / "proved/names").read_bytes().split(b"\0")[:-1]
    sums = (proved.program.parent / "proved/sums").read_text().splitlines()
    assert set(names) >= {line.split("  ", 1)[1].encode() for line in sums} and len(set(names)) == len(names)
    last = [name for name in names if (proved.top / os.fsdecode(name)).is_file()][-1]
    time.sleep(1.1)
    proved.ran("run")
    with open(proved.top / os.fsdecode(last), "a") as it:
        it.write("// more\n")
    assert f"{os.fsdecode(last)} has changed" in proved.ran("run")[2]


def test_a_source_that_is_gone_is_a_change(proved):
    (proved.top / "crates/io_edge/src/lib.rt").unlink()
    assert "crates/io_edge/src/lib.rt has changed" in proved.ran("run")[2]


def test_a_folder_that_takes_the_place_of_another_is_a_change(proved):
    other = proved.told / "src"
    shutil.copytree(proved.top / "crates/io_edge/src", other)
    (other / "lib.rt").write_text("// something\n")
    time.sleep(1.1)
    proved.ran("run")
    shutil.rmtree(proved.top / "crates/io_edge/src")
    os.rename(other, proved.top / "crates/io_edge/src")
    assert "crates/io_edge/src/lib.rt has changed" in proved.ran("run")[2]


@pytest.mark.parametrize(
    "name", ["crates/laws/src/lib.rt", "crates/io_edge/must-fail/short.edit", "crates/io_edge/out/kept", "README.md"]
)
def test_what_the_program_is_not_made_of_may_change(proved, name):
    (proved.top / name).parent.mkdir(exist_ok=True)
    (proved.top / name).write_text("another")
    assert proved.ran("run", "--workers", "2", path="/nowhere") == (*BUILT, "")


def kit(folder, what):
    """Makes a kit of this identity and returns the folder of its command."""
    (folder / "bin").mkdir(parents=True, exist_ok=True)
    (folder / "WHAT").write_text(what)
    for name in ("rt", "program"):
        shutil.copy(HERE / name, folder / "bin" / name)
    return str(folder / "bin")


def test_with_another_kit_the_program_without_proofs_answers(tried, tmp_path):
    path = kit(tmp_path / "a kit", "archive 1\ncommit 2\n")
    assert tried.ran("prove", path=path)[0] == 0
    assert tried.ran("run", "--workers", "2", path=path) == (*BUILT, "")
    kit(tmp_path / "a kit", "archive 1\ncommit 3\n")
    assert tried.ran("run", "--workers", "2", path=path)[2].startswith(
        "arterial: the kit is not the one of the proof: "
    )
    shutil.rmtree(tmp_path / "a kit")
    assert tried.ran("run", "--workers", "2", path=path) == (*BUILT, "")


def test_the_gate_records_what_it_has_proved(tried):
    """As ./test does: sums before, the proof, the record."""
    names = {"PATH": f"{HERE}:/usr/bin:/bin", "TRIED": str(tried.told), "PAUSE": "0", "FAILS": ""}
    word = ["/usr/bin/python3", "-B", tried.top / "tools/streettools", "launch"]
    before = tried.told / "before"
    with open(before, "wb") as out:
        subprocess.run([*word, "sums"], stdout=out, env=names, check=True)
    subprocess.run([HERE / "rt", "run"], cwd=tried.top / "crates/arterial", env=names, check=True)
    subprocess.run([*word, "record", before], env=names, check=True)
    assert tried.ran("run", "--workers", "2", path="/nowhere") == (*BUILT, "")
    (tried.top / "crates/io_edge/src/lib.rt").write_text("// another\n")
    ran = subprocess.run([*word, "record", before], env=names, capture_output=True, text=True)
    assert ran.returncode == 125 and "crates/io_edge/src/lib.rt changed while it was proved" in ran.stderr


def test_scripts_learn_where_the_proved_program_is(tried):
    def asked():
        ran = subprocess.run([tried.top / "tools/proved"], capture_output=True, text=True, timeout=SECONDS)
        return ran.returncode, ran.stdout

    assert asked() == (125, "")
    tried.ran("prove")
    status, path = asked()
    assert status == 0 and pathlib.Path(path.rstrip("\n")).samefile(tried.program)
    forged(tried)
    assert asked() == (123, "")
