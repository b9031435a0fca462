"""`tools/release`: makes what is published of a proved checkout: the Debian package, and the proof as a file that
`./arterial take` puts into a checkout of the same sources.

The archive is the same, byte for byte, for the same proof: its members have fixed times and owners.
"""

import argparse
import gzip
import hashlib
import io
import pathlib
import subprocess
import tarfile

from streettools.shared.commandline import Parser
from streettools.shared.program import ran
from streettools.shared.saying import say
from streettools.shared.status import Status

from . import crates, prove, record


def parser() -> argparse.ArgumentParser:
    """Returns the reader of the arguments."""
    words = Parser(
        "tools/release",
        description="Makes the Debian package with the record of the proof, and arterial-VERSION-proof.tgz for "
        "./arterial take, from a checkout whose program is proved. Prints the name and the SHA-256 of each.",
        epilog="example: tools/release /tmp",
        formatter_class=argparse.HelpFormatter,
    )
    words.add_argument(
        "folder", type=pathlib.Path, nargs="?", default=pathlib.Path("."),
        help="where the files are written (default: the current one)",
    )
    words.add_argument("--no-package", action="store_true", help="only the proof, no Debian package")
    return words


def maker(top: pathlib.Path) -> str:
    """Returns a line about the proof: the commit and the kit."""
    asked = subprocess.run(["git", "-C", top, "rev-parse", "HEAD"], capture_output=True, text=True)
    commit = asked.stdout.strip() or "unknown"
    lines = (record.program_of(top).parent / "proved/kit").read_text().splitlines()
    return f"commit {commit}, kit {lines[0] if lines else 'unknown'}\n"


def archive(top: pathlib.Path) -> bytes:
    """Returns the archive of the proof."""
    program = record.program_of(top)
    kept = program.parent / "proved"
    members = {
        "arterial": (program.read_bytes(), 0o755),
        "sums": ((kept / "sums").read_bytes(), 0o644),
        "verdict": ((kept / "verdict").read_bytes() if (kept / "verdict").is_file() else b"", 0o644),
        "maker": (maker(top).encode(), 0o644),
    }
    plain = io.BytesIO()
    with tarfile.open(fileobj=plain, mode="w", format=tarfile.USTAR_FORMAT) as tar:
        for name, (text, mode) in members.items():
            it = tarfile.TarInfo(name)
            it.size, it.mode = len(text), mode
            tar.addfile(it, io.BytesIO(text))
    return gzip.compress(plain.getvalue(), mtime=0)


def main(given: list[str]) -> int:
    """Makes the files, and returns the exit status."""
    words, top = parser().parse_args(given), crates.TOP
    if not prove.is_proved(top) or prove.is_taken(top):
        say("release", "the program isn't proved here: ./arterial prove")
        return Status.NO_PROGRAM
    version = ran(record.program_of(top), "--version").done().decode().split()[1]
    proof = words.folder / f"arterial-{version}-proof.tgz"
    files = [proof]
    try:
        proof.write_bytes(archive(top))
    except OSError as fault:
        say("release", f"{proof}: {fault.strerror}")
        return Status.FILE
    if not words.no_package:
        made = subprocess.run([top / "tools/package", words.folder], stdout=subprocess.PIPE, text=True)
        if made.returncode:
            return made.returncode
        files.append(pathlib.Path(made.stdout.strip()))
    for file in files:
        print(f"{hashlib.sha256(file.read_bytes()).hexdigest()}  {file}")
    return Status.DONE
