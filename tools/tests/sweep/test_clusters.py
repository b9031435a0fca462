"""The study of 60 variants, done in each way that there is: the same table each time."""

import contextlib
import hashlib
import os
import pathlib
import re
import signal
import subprocess
import time

import pytest
from streettools.sweep import slurm
from streettools.sweep.carried import Parcel

from .conftest import SECONDS, begun, ended, rows_done, sweep


def wait_for(what, seconds: float = SECONDS) -> None:
    """Waits until something is so."""
    end = time.monotonic() + seconds
    while not what():
        assert time.monotonic() < end, "it took too long"
        time.sleep(0.01)


def children(process: int) -> list[int]:
    """Returns the processes that a process has started."""
    found = []
    for it in pathlib.Path("/proc").iterdir():
        if it.name.isdigit():
            try:
                if int(re.sub(r".*\) ", "", (it / "stat").read_text()).split()[1]) == process:
                    found.append(int(it.name))
            except (OSError, ValueError, IndexError):
                continue
    return found


class Cluster:
    """A scheduler of Dask at a free port, and two workers without a nanny, with certificates."""

    def __init__(self, folder):
        self.papers, self.processes = slurm.papers(folder), []
        self.folder, self.file, self.log = folder, folder / "scheduler.json", open(folder / "log", "wb")

    def begin(self, command, *words):
        """Starts a process of it."""
        common = ["--scheduler-file", self.file, "--no-dashboard", "--host", "127.0.0.1", "--protocol", "tls",
                  "--dashboard-address", "127.0.0.1:0", "--tls-ca-file", self.papers.authority,
                  "--tls-cert", self.papers.certificate, "--tls-key", self.papers.key]  # fmt: skip
        out = {"cwd": self.folder, "stdout": self.log, "stderr": self.log}
        self.processes.append(subprocess.Popen([command, *common, *words], **out))

    def words(self):
        """Returns the words by which a sweep uses it."""
        address = re.search(r'"address": "([^"]+)"', self.file.read_text())[1]
        papers = self.papers
        return ["--scheduler", address, "--tls-ca", papers.authority, "--tls-cert", papers.certificate, "--tls-key",
                papers.key]  # fmt: skip


@pytest.fixture(scope="module")
def cluster(tmp_path_factory, program):
    """A cluster that runs."""
    made = Cluster(tmp_path_factory.mktemp("cluster"))
    try:
        made.begin("/usr/bin/dask-scheduler", "--port", "0")
        wait_for(made.file.is_file, 60)
        for _ in range(2):
            made.begin("/usr/bin/dask-worker", "--nthreads", "1", "--no-nanny", "--local-directory", made.folder)
        wait_for(lambda: (made.folder / "log").read_bytes().count(b"Registered to") == 2, 60)
        yield made
    finally:
        for it in reversed(made.processes):
            it.kill()
            it.wait()
        made.log.close()


def test_the_table_has_a_row_for_each_variant_and_refusals_are_rows(reference):
    head, *lines = reference.splitlines()
    assert head == (
        "run,offset,mode,seed,outcome,words,scenario,services,green_mean,wait_mean_c1,wait_mean_c2,"
        "on_offset_share,band_outbound,band_seen_outbound"
    )
    assert len(lines) == 60
    assert [it.split(",")[:4] for it in (lines[0], lines[4], lines[5], lines[59])] == [
        ["1", "0", "2", "1"], ["5", "0", "2", "5"], ["6", "0", "3", "1"], ["60", "95", "4", "5"]]  # fmt: skip
    refused = [it for it in lines if ",refused," in it]
    assert refused == lines[45:] and all("scenario: cabinet 2 breaks rule 15 at row 1" in it for it in refused)


def begun_and_held(folder, held, *words) -> tuple[subprocess.Popen, int]:
    """Starts the study with the program that waits in the middle; returns the command once some runs are done, and how
    many are."""
    command = begun(folder, "study.toml", "-o", "out.csv", "--program", held.path, *words)
    wait_for(lambda: rows_done(folder / "out.csv") or command.poll() is not None)
    done = rows_done(folder / "out.csv")
    assert command.poll() is None and 0 < done < 60
    return command, done


def test_a_killed_worker_of_this_machine_changes_nothing(folder, held, reference):
    command, _ = begun_and_held(folder, held, "--workers", 2)
    workers = [
        it
        for it in children(command.pid)
        if b"multiprocessing.spawn" in pathlib.Path(f"/proc/{it}/cmdline").read_bytes()
    ]
    os.kill(workers[0], signal.SIGKILL)
    held.let_go()
    status, _, said = ended(command)
    assert status == 0, said
    assert (folder / "out.csv").read_text() == reference


def test_an_interrupted_sweep_goes_on(folder, held, reference):
    command, _ = begun_and_held(folder, held, "--workers", 1)
    command.send_signal(signal.SIGINT)
    status, _, said = ended(command)
    done = rows_done(folder / "out.csv")
    assert status == 130 and f"interrupted: {done} of 60 runs are kept" in said
    assert not (folder / "out.csv").exists()
    held.let_go()
    words = ("study.toml", "-o", "out.csv", "--workers", 1, "--program", held.path)
    status, _, said = sweep(folder, *words)
    assert status == 2 and "use --resume to continue" in said
    status, _, said = sweep(folder, *words, "--resume")
    assert status == 0 and f"{done} of them before" in said, said
    assert (folder / "out.csv").read_text() == reference
    assert not (folder / "out.csv.runs").exists()


def test_a_killed_sweep_loses_only_what_was_under_way(folder, held, reference):
    command, done = begun_and_held(folder, held, "--workers", 1)
    command.kill()
    command.wait()
    held.let_go()
    with open(folder / "out.csv.runs", "ab") as file:
        file.write(b'{"key":"a line that was not wri')
    words = ("study.toml", "-o", "out.csv", "--workers", 1, "--program", held.path, "--resume")
    status, _, said = sweep(folder, *words)
    kept = re.search(r"(\d+) of them before", said)
    assert status == 0 and kept and done <= int(kept[1]) < 60, said
    assert (folder / "out.csv").read_text() == reference


def test_a_cluster_gives_the_same_table_and_takes_the_program_along(cluster, folder, reference, program):
    moved = folder / "elsewhere"
    moved.write_bytes(program.read_bytes())
    moved.chmod(0o700)
    status, _, said = sweep(folder, "study.toml", "-o", "out.csv", *cluster.words(), "--program", moved)
    assert status == 0, said
    assert (folder / "out.csv").read_text() == reference


def test_a_worker_that_lacks_the_program_writes_the_one_that_it_was_sent(tmp_path, program):
    octets = program.read_bytes()
    parcel = Parcel("a_sweep", {}, {}, str(tmp_path / "not here"), hashlib.sha256(octets).hexdigest(), octets)
    parcel.folder = tmp_path
    assert parcel.program_here().read_bytes() == octets
    parcel.program = octets[:-1]
    with pytest.raises(RuntimeError, match="is not the one of this sweep"):
        parcel.program_here()


def test_a_killed_worker_of_a_cluster_changes_nothing(cluster, folder, held, reference):
    command, _ = begun_and_held(folder, held, *cluster.words())
    cluster.processes[1].kill()
    held.let_go()
    status, _, said = ended(command)
    assert status == 0, said
    assert (folder / "out.csv").read_text() == reference


def sockets_of(process: int) -> set[str]:
    """Returns the numbers of the sockets of a process and of all that it has started."""
    found = set()
    for number in (process, *children(process)):
        for it in pathlib.Path(f"/proc/{number}/fd").iterdir():
            with contextlib.suppress(OSError):
                found |= set(re.findall(r"socket:\[(\d+)\]", os.readlink(it)))
    return found


def test_workers_of_this_machine_use_no_network(folder, held):
    command, _ = begun_and_held(folder, held, "--workers", 2)
    of_network = set()
    for name in ("tcp", "tcp6", "udp", "udp6", "raw"):
        rows = pathlib.Path(f"/proc/{command.pid}/net/{name}").read_text().splitlines()[1:]
        of_network |= {row.split()[9] for row in rows}
    assert len(children(command.pid)) >= 2
    assert sockets_of(command.pid).isdisjoint(of_network)
    held.let_go()
    assert ended(command)[0] == 0


STRANGER = """
import sys
from distributed import Client, Security
address = sys.argv[1]
for security, at in ((None, address.replace("tls", "tcp")), (Security.temporary(), address)):
    try:
        with Client(at, security=security, timeout=5) as client:
            print("in as", client.run_on_scheduler(__import__("os").getuid))
    except (OSError, TimeoutError, RuntimeError, TypeError) as fault:
        print("refused")
try:
    open(sys.argv[2]).read()
    print("has the key")
except PermissionError:
    print("refused")
"""


def test_another_user_without_the_certificate_is_refused(cluster):
    words = ["setpriv", "--reuid=65534", "--regid=65534", "--clear-groups", "/usr/bin/python3", "-c", STRANGER]
    address = cluster.words()[1]
    if os.getuid() != 0:
        pytest.skip("another user can't be had here")
    ran = subprocess.run([*words, address, cluster.papers.key], capture_output=True, text=True, cwd="/", timeout=300)
    assert ran.stdout.split("\n")[:3] == ["refused"] * 3, ran


def test_the_certificate_is_this_users_alone(cluster):
    assert cluster.papers.key.stat().st_mode & 0o777 == 0o600


def test_words_about_workers_that_dont_go_together_are_refused(folder):
    for words, line in (
        (["--scheduler", "tcp://127.0.0.1:8786"], "expected tls://HOST:PORT"),
        (["--scheduler", "tls://127.0.0.1:8786"], "goes with --tls-ca, --tls-cert and --tls-key"),
        (["--tls-ca", "x"], "goes with --tls-ca, --tls-cert and --tls-key"),
        (["--slurm"], "--slurm goes with --interface NAME"),
        (["--interface", "lo"], "--slurm goes with --interface NAME"),
    ):
        status, _, said = sweep(folder, "study.toml", "-o", "out.csv", *words)
        assert status == 2 and line in said and said.count("\n") == 1
    missing = ["--tls-ca", "none.pem", "--tls-cert", "none.pem", "--tls-key", "none.pem"]
    status, _, said = sweep(folder, "study.toml", "-o", "out.csv", "--scheduler", "tls://127.0.0.1:1", *missing)
    assert status == 1 and "none.pem: no such file" in said


SBATCH = """#!/bin/sh
# a stand-in for Slurm's: runs the job here, in the background
for word; do
    case $word in
    --export=ALL,*) export $(echo "${word#--export=ALL,}" | tr , ' ') ;;
    --ntasks=*) export SLURM_NTASKS=${word#--ntasks=} ;;
    --output=*) out=${word#--output=} ;;
    esac
done
cat >HERE/job.sh
setsid sh HERE/job.sh >"$out" 2>&1 </dev/null &
echo $! >HERE/job
echo "7;here"
"""
SRUN = """#!/bin/sh
while [ "${1#--}" != "$1" ]; do shift; done
for task in $(seq $((SLURM_NTASKS - 1))); do "$@" & done
wait
"""
SQUEUE = """#!/bin/sh
kill -0 "$(cat HERE/job)" 2>/dev/null && echo RUNNING || echo FAILED
"""
OTHERS = {"squeue": SQUEUE, "scancel": '#!/bin/sh\nkill -- -"$(cat HERE/job)"\n'}


def test_a_cluster_that_slurm_starts_gives_the_same_table(folder, reference, program, monkeypatch):
    """With stand-ins for the commands of Slurm, which run the job on this machine."""
    commands = folder / "slurm"
    commands.mkdir()
    for name, text in ({"sbatch": SBATCH, "srun": SRUN} | OTHERS).items():
        (commands / name).write_text(text.replace("HERE", str(commands)))
        (commands / name).chmod(0o700)
    monkeypatch.setenv("PATH", f"{commands}:/usr/bin:/bin")
    monkeypatch.setenv("TMPDIR", str(folder))
    command = begun(folder, "study.toml", "-o", "out.csv", "--slurm", "--interface", "lo", "--workers", 2)
    wait_for(lambda: list(folder.glob("sweep-slurm-*/key.pem")) or command.poll() is not None)
    key = next(folder.glob("sweep-slurm-*/key.pem"))
    assert key.stat().st_mode & 0o777 == 0o600 and key.parent.stat().st_mode & 0o777 == 0o700
    status, _, said = ended(command)
    assert status == 0, said
    assert (folder / "out.csv").read_text() == reference
    assert not list(folder.glob("sweep-slurm-*"))
