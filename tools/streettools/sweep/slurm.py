"""Starts a scheduler of Dask and its workers by Slurm's sbatch, and ends them with the sweep."""

import contextlib
import os
import shutil
import subprocess
import tempfile
import time
from collections.abc import Iterator
from pathlib import Path

from ..shared.fault import Fault
from ..shared.saying import say
from ..shared.status import Status
from . import clusters

TEMPLATE = Path(__file__).with_name("job.sbatch")
STATES_OF_THE_END = {"FAILED", "CANCELLED", "COMPLETED", "TIMEOUT", "NODE_FAIL", "OUT_OF_MEMORY", "BOOT_FAIL"}


def asked(words: list[str], text: str = "") -> str:
    """Returns what a command of Slurm answers."""
    ran = subprocess.run(words, input=text, capture_output=True, text=True)
    if ran.returncode:
        raise Fault(f"{words[0]}: {ran.stderr.strip() or ran.returncode}", Status.FILE)
    return ran.stdout.strip()


def waited(job: str, file: Path) -> None:
    """Waits until the scheduler has written its address."""
    told = time.monotonic() + 30
    while not file.is_file():
        state = asked(["squeue", "--noheader", "--states=all", "--format=%T", f"--jobs={job}"])
        if state in STATES_OF_THE_END or not state:
            raise Fault(
                f"Slurm's job {job} ended before the scheduler was there ({state or 'gone'}): its output is in "
                f"{file.parent}",
                Status.FILE,
            )
        if time.monotonic() > told:
            say("sweep", f"Slurm's job {job} is {state.lower()}: waiting for it (Ctrl-C ends)")
            told += 300
        time.sleep(1)


def papers(folder: Path) -> clusters.Papers:
    """Makes the certificate of a cluster in a folder that only this user can read. It is self-signed: anyone who has
    its key belongs to the cluster, and nobody else."""
    made = clusters.distributed().Security.temporary()
    found = clusters.Papers(folder / "certificate.pem", folder / "certificate.pem", folder / "key.pem")
    for file, text in ((found.certificate, made.tls_client_cert), (found.key, made.tls_client_key)):
        with open(os.open(file, os.O_WRONLY | os.O_CREAT | os.O_EXCL, 0o600), "w", encoding="ascii") as out:
            out.write(text)
    return found


def submitted(folder: Path, workers: int, interface: str, text: str) -> str:
    """Sends out the batch job, and returns its number."""
    exported = f"--export=ALL,SWEEP_FOLDER={folder},SWEEP_INTERFACE={interface}"
    words = ["sbatch", "--parsable", f"--ntasks={workers + 1}", f"--output={folder}/job.out", exported]
    return asked(words, text).split(";")[0]


@contextlib.contextmanager
def started(workers: int, interface: str, template: str | None) -> Iterator[clusters.Dask]:
    """Gives a cluster that Slurm runs, at a network interface of its nodes. Its scheduler says its address by a file in
    a folder made for the run, which all nodes have to share, and which has the certificate of the cluster too."""
    if shutil.which("sbatch") is None:
        raise Fault("sbatch is missing: --slurm needs Slurm's commands", Status.FILE)
    try:
        text = Path(template or TEMPLATE).read_text(encoding="utf-8")
    except OSError as fault:
        raise Fault(f"{template}: {fault.strerror}", Status.FILE) from None
    folder = Path(tempfile.mkdtemp(prefix="sweep-slurm-", dir=".")).resolve()
    file, job = folder / "scheduler.json", None
    try:
        signed = papers(folder)
        job = submitted(folder, workers, interface, text)
        say("sweep", f"Slurm's job {job} starts a scheduler and {workers} workers")
        waited(job, file)
        with clusters.at(None, signed, str(file)) as cluster:
            yield cluster
        shutil.rmtree(folder, ignore_errors=True)
    finally:
        (folder / "key.pem").unlink(missing_ok=True)
        if job:
            subprocess.run(["scancel", job], capture_output=True)
