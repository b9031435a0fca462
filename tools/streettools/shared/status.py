"""The exit statuses of the tools and of the launcher. docs/COMMANDS.md and the manual pages show this table, with the
statuses of the program itself."""

import enum


class Status(enum.IntEnum):
    """An exit status; MEANINGS explains each."""

    DONE = 0
    FILE = 1
    REFUSED = 2
    FULL = 3
    SOFTWARE = 70
    FORGED = 123
    UNFINISHED = 124
    NO_PROGRAM = 125
    INTERRUPTED = 130


MEANINGS = {
    Status.DONE: "done; also if Ctrl-C ends street or cabinet",
    Status.FILE: "a file can't be read or written, a reader of the output has gone, or a package is missing",
    Status.REFUSED: "the arguments or an input are invalid, or a check found an error",
    Status.FULL: "a live cabinet reached a limit of its session",
    Status.SOFTWARE: "the tool itself has a fault: --traceback shows where",
    Status.FORGED: "the program is not the one that was proved",
    Status.UNFINISHED: "runs of a sweep failed, or the unproved program could not finish its answer",
    Status.NO_PROGRAM: "no program is available",
    Status.INTERRUPTED: "interrupted by Ctrl-C",
}
"""What each status says, in a line."""
