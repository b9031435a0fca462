"""What the launcher's shell hands over to Python: `launch prove`, `take`, `release`, `unproved`, `help`, `meant`,
`due`, `refused`, `overlap`, `sums`, `record`, `where`."""

import json
import pathlib
import sys

from streettools.shared.saying import say
from streettools.shared.status import Status

from . import crates, due, help, hint, keeping, overlap, prove, record, refused, release, take, unproved


def meant(words: list[str]) -> int:
    """Prints what follows the usage line."""
    print(hint.of(words))
    return Status.DONE


def sums(words: list[str]) -> int:
    """Prints the checksums of all that a proof reads, for `record` after it."""
    json.dump(crates.sums(crates.TOP), sys.stdout)
    return Status.DONE


def recorded(words: list[str]) -> int:
    """Records the program that was proved since a file with the sums was written; a second file may have what the kit
    printed."""
    verdict = pathlib.Path(words[1]).read_text(errors="replace") if words[1:] else ""
    try:
        record.write(crates.TOP, json.loads(pathlib.Path(words[0]).read_text()), verdict)
    except record.Changed as name:
        say("arterial", f"{name} changed while it was proved, so the program is not recorded as proved")
        return Status.NO_PROGRAM
    return Status.DONE


def where(words: list[str]) -> int:
    """Prints the function in which a run-time check of the unproved program failed, by the offsets of its frames."""
    print(keeping.place(words[0], [int(it, 16) for it in words[1:]]))
    return Status.DONE


DOES = {
    "prove": prove.main,
    "take": take.main,
    "release": release.main,
    "unproved": unproved.main,
    "help": help.main,
    "meant": meant,
    "due": due.main,
    "refused": refused.main,
    "overlap": overlap.main,
    "sums": sums,
    "record": recorded,
    "where": where,
}


def main(words: list[str]) -> int:
    """Does what the first word names, with the others, and returns the exit status."""
    return DOES[words[0]](words[1:])
