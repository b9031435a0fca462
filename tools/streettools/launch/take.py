"""`./arterial take`: puts a proof that was made elsewhere into a checkout of the same sources.

The file is what tools/release makes: a gzipped tar archive with the program, the checksums of it and of every source of
its proof, the kit's lines about the proof, and a line about the maker. It is read strictly: these names, regular files,
bounded sizes. A proof of other sources is refused with the first file that differs. The file can't show whether the
maker told the truth: until `./arterial prove` has confirmed it here, each call says "proved by its maker, not here". A
checksum that came by another way (--sum) at least ties the file to its maker.
"""

import argparse
import hashlib
import os
import pathlib
import re
import tarfile
import tempfile
import time

from streettools.shared.commandline import Parser
from streettools.shared.saying import say
from streettools.shared.status import Status

from . import crates, prove, record

MOST_FILE, MOST_MEMBER = 64 << 20, 256 << 20
"""Bytes of the file, and of a member of it."""

MEMBERS = ("arterial", "sums", "verdict", "maker")
"""The names in the archive: all of them, and no others."""

SUM = re.compile(r"([0-9a-f]{64})  ([^\0\n]+)")


class Refused(Exception):
    """The file isn't a proof of these sources, in words."""


def parser() -> argparse.ArgumentParser:
    """Returns the reader of the arguments."""
    words = Parser(
        "take",
        description="Takes over a proof that tools/release made of the same sources: from then on the proved program "
        "answers at once, and each call says that it was proved by its maker, not here. ./arterial prove confirms it.",
        epilog="example: ./arterial take arterial-0.8-proof.tgz --sum 0f1e..",
        formatter_class=argparse.HelpFormatter,
    )
    words.add_argument("file", type=pathlib.Path, help="the file of the proof")
    words.add_argument("--sum", metavar="SHA256", help="the checksum of the file, as its maker published it")
    return words


def contents(file: pathlib.Path, wanted: str | None) -> dict[str, bytes]:
    """Returns the members of the archive; Refused if it isn't one of tools/release."""
    if file.stat().st_size > MOST_FILE:
        raise Refused(f"{file}: longer than {MOST_FILE} bytes, so it is not a proof")
    text = file.read_bytes()
    found = hashlib.sha256(text).hexdigest()
    if wanted is not None and wanted.lower() != found:
        raise Refused(f"{file}: its checksum is {found}, not the one of --sum")
    members: dict[str, bytes] = {}
    try:
        with tarfile.open(file, "r:gz") as archive:
            for it in archive:
                if it.name not in MEMBERS or it.name in members or not it.isreg() or it.size > MOST_MEMBER:
                    raise Refused(f"{file}: not a proof of tools/release (member {it.name!r})")
                content = archive.extractfile(it)
                assert content is not None
                members[it.name] = content.read()
    except (tarfile.TarError, EOFError, OSError) as fault:
        raise Refused(f"{file}: not a proof of tools/release ({fault})") from None
    if sorted(members) != sorted(MEMBERS):
        raise Refused(f"{file}: not a proof of tools/release (it lacks {min({*MEMBERS} - {*members})})")
    return members


def sums_of(file: pathlib.Path, text: bytes) -> dict[str, str]:
    """Returns the checksums of a proof, by names below the top."""
    found: dict[str, str] = {}
    for line in text.decode("utf-8", "replace").splitlines():
        match = SUM.fullmatch(line)
        if not match or match[2].startswith("/") or ".." in pathlib.PurePosixPath(match[2]).parts:
            raise Refused(f"{file}: not a proof of tools/release (line {line[:80]!r} of its sums)")
        found[match[2]] = match[1]
    return found


def take(top: pathlib.Path, file: pathlib.Path, wanted: str | None) -> str:
    """Puts the proof into the checkout and returns what its maker says; raises Refused if it isn't accepted."""
    members = contents(file, wanted)
    sums, begun, now = sums_of(file, members["sums"]), time.time(), crates.sums(top)
    program = record.program_of(top)
    own = os.path.relpath(program, top)
    if sums.get(own) != hashlib.sha256(members["arterial"]).hexdigest():
        raise Refused(f"{file}: its program isn't the one of its sums")
    try:
        record.compare({name: it for name, it in sums.items() if name != own}, now)
    except record.Changed as name:
        raise Refused(f"{file}: a proof of other sources: {name} differs here") from None
    program.parent.mkdir(exist_ok=True)
    with tempfile.NamedTemporaryFile(dir=program.parent, prefix=".taken-", delete=False) as fresh:
        fresh.write(members["arterial"])
    os.chmod(fresh.name, 0o755)
    os.replace(fresh.name, program)
    made = record.folder_of(top, own, {own: sums[own], **now}, "none\n", begun)
    (made / "verdict").write_bytes(members["verdict"])
    (made / "maker").write_bytes(members["maker"])
    record.put(made, "proved")
    return "".join(it if it.isprintable() else "?" for it in members["maker"].decode("utf-8", "replace").strip()[:400])


def main(given: list[str]) -> int:
    """Takes a proof over, and returns the exit status."""
    words, top = parser().parse_args(given), crates.TOP
    if not (top / crates.LISTS[0]).is_file():
        say("arterial", "take: the program is installed here; a proof is taken over in a checkout")
        return Status.NO_PROGRAM
    try:
        record.program_of(top).parent.mkdir(exist_ok=True)
        (record.program_of(top).parent / ".building").touch()
        with prove.alone(top):
            if prove.is_proved(top) and not prove.is_taken(top):
                say("arterial", "take: the program is already proved here, so nothing changes")
                return Status.DONE
            maker = take(top, words.file, words.sum)
    except Refused as fault:
        say("arterial", f"take: {fault}")
        return Status.REFUSED
    except OSError as fault:
        say("arterial", f"take: {fault.filename or words.file}: {fault.strerror}")
        return Status.FILE
    say("arterial", f"taken: proved by its maker, not here ({maker}). ./arterial prove confirms it here")
    return Status.DONE
