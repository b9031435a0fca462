"""In which order the crates are proved, and with how many processors each; and what the kit's one command for all is
given, and says."""

import io
import os
import sys
from collections import namedtuple

import pytest

from .conftest import CRATES, TOP

sys.path.insert(0, str(TOP / "tools"))
from streettools.launch import at_once, crates, lanes, record  # noqa: E402

ABOVE = {"low": ["left", "right", "top"], "left": ["top"], "right": ["top"], "top": []}
SECONDS = {"low": 10, "left": 5, "right": 60, "top": 20}
Check = namedtuple("Check", "jobs memory")
GIB = 1 << 30


def test_a_chain_is_as_long_as_what_stands_above_in_seconds():
    assert lanes.chains(ABOVE, SECONDS) == {"low": 90, "left": 25, "right": 80, "top": 20}


@pytest.mark.parametrize(
    ("processors", "running", "waiting", "jobs"),
    [
        (4, [], 1, 4),
        (4, [], 2, 2),
        (4, [], 4, 1),
        (4, [], 9, 1),
        (8, [], 1, 4),
        (1, [], 1, 1),
        (4, [1, 1], 1, 2),
        (4, [2, 2], 1, 1),
        (4, [1, 1, 1, 1], 1, 0),
        (2, [2], 1, 1),
    ],
)
def test_a_crate_gets_the_processors_that_no_other_needs(processors, running, waiting, jobs):
    """With room for all: four jobs at most; where one that runs has all, the next still gets one."""
    machine = lanes.Machine(processors, 100 * GIB)
    assert lanes.jobs_for(machine, [Check(it, GIB) for it in running], waiting, GIB) == jobs


@pytest.mark.parametrize(
    ("room", "running", "jobs"), [(1, 0, 1), (2.3, 0, 3), (8, 0, 4), (8, 7.5, 0), (8, 7, 1), (8, 6.3, 2)]
)
def test_a_crate_waits_for_memory_or_does_with_fewer_jobs(room, running, jobs):
    """A job more takes six tenths of the first: 1 GB with one job are 2.8 with four. What runs alone runs however
    little there is."""
    machine = lanes.Machine(4, room * GIB)
    checks = [Check(0, running * GIB)] if running else []
    assert lanes.jobs_for(machine, checks, 1, GIB) == jobs


def test_the_longest_chain_goes_first_and_nothing_before_what_it_stands_on(tried):
    assert tried.ran("prove", "--keep")[0] == 0
    proved = tried.calls()[1]
    for name in proved:
        for it in CRATES[name].split():
            assert it == "arrayvec" or proved.index(it) < proved.index(name)


def test_what_a_crate_stands_on_comes_before_it(tried):
    assert crates.parts(tried.top) == ["sig_types", "io_edge", "station", "arterial"]


def test_the_files_that_a_proof_reads_are_those_of_the_crates_below_and_the_lists(tried):
    (tried.top / "crates/io_edge/must-fail").mkdir()
    (tried.top / "crates/io_edge/must-fail/a.edit").write_text("")
    (tried.top / "crates/io_edge/proofs/F").mkdir(parents=True)
    (tried.top / "crates/io_edge/proofs/F/Answers.antt").write_text("")
    listed = list(crates.files(tried.top))
    assert listed[:2] == ["crates.txt", "HANDLES"]
    assert "crates/io_edge/proofs/F/Answers.antt" in listed and "crates/sig_types/src/lib.rt" in listed
    assert not [it for it in listed if "laws" in it or "must-fail" in it or "stdin" in it]
    assert "crates/io_edge/proofs" in crates.folders(listed) and "crates" in crates.folders(listed)


def test_a_part_of_the_list_has_the_lines_of_some_crates(tried):
    assert crates.listed(tried.top, ["io_edge", "sig_types"]) == "sig_types: arrayvec\nio_edge: sig_types\n"


def test_all_are_proved_by_one_call_of_the_kit_and_nothing_of_it_stays(tried):
    assert tried.ran("prove")[0] == 0
    assert [it for it in tried.calls()[0] if it != "--help"] == ["ci"]
    assert [str(it.relative_to(tried.top)) for it in tried.top.glob("crates/*/out")] == ["crates/arterial/out"]
    assert not (tried.program.parent / "lanes").exists()


@pytest.mark.parametrize("words", [{"OLD": "1"}, {}])
def test_a_kit_without_that_command_or_one_that_is_to_leave_its_work_proves_crate_by_crate(tried, words):
    assert tried.ran("prove", *(() if words else ("--keep",)), **words)[0] == 0
    calls = [it.split()[0] for it in tried.calls()[0] if it != "--help"]
    assert calls == ["lib"] * 3 + ["run"]


def test_what_the_kit_has_kept_of_the_same_sources_is_not_proved_again(tried):
    assert tried.ran("prove")[0] == 0
    tried.program.unlink()
    (tried.top / "crates/station/src/lib.rt").write_text("// another\n")
    status, _, said = tried.ran("prove")
    assert status == 0 and "arterial: 2 of 4 were proved before" in said
    assert tried.calls()[1][4:] == ["station"]


def test_the_copy_has_what_a_proof_reads_and_what_the_program_runs_on(tried, tmp_path):
    for name in ("must-fail", "out/rlib", "proofs/F"):
        (tried.top / "crates/station" / name).mkdir(parents=True)
        (tried.top / "crates/station" / name / "a").write_text("")
    at_once.copied(tried.top, tmp_path / "to", crates.sums(tried.top))
    made = {str(it.relative_to(tmp_path / "to")) for it in (tmp_path / "to").rglob("*") if it.is_file()}
    sources = {f"crates/{name}/src/lib.rt" for name in ("sig_types", "io_edge", "station", "arterial")}
    program = {"crates/arterial/stdin", "crates/arterial/src/main.rt", "crates/arterial/src/reporting.rt"}
    more = {"crates/station/proofs/F/a", "crates/station/src/help.rt", "crates.txt", "HANDLES"}
    assert made == sources | program | more
    assert (tmp_path / "to/.git").is_dir() and "laws" not in (tmp_path / "to/crates.txt").read_text()


def test_a_source_that_is_another_in_the_copy_is_named(tried, tmp_path):
    before = crates.sums(tried.top)
    (tried.top / "crates/io_edge/src/lib.rt").write_text("// another\n")
    with pytest.raises(record.Changed, match="crates/io_edge/src/lib.rt"):
        at_once.copied(tried.top, tmp_path / "to", before)


class ProgressStub:
    """Keeps what is told of the progress."""

    def __init__(self):
        self.before, self.now = [], []

    def taken(self, names):
        self.before += names

    def done(self, name):
        self.now.append(name)


def test_what_the_kit_says_is_heeded_line_by_line():
    said = (
        "rt: low is kept: an earlier run on this machine proved the same files over the same libraries\n"
        "== left\nerror: nothing proved\nrt: left proved\nrt: left: its tests are proved\nrt: right NOT PROVED\n"
        "rt: top NOT PROVED: its library right failed\nrt: FAILED: right top\n0 passed, 2 fail"
    )
    reads, writes = os.pipe()
    os.write(writes, said.encode())
    os.close(writes)
    log, proof_progress = io.BytesIO(), ProgressStub()
    with open(reads, "rb", buffering=0) as given:
        assert at_once.followed(given, log, proof_progress) == "right"
    assert log.getvalue() == said.encode()
    assert (proof_progress.before, proof_progress.now) == (["low"], ["left"])
