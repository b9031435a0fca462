"""The master's notes as lines of a trace.

docs/TRACE.md, the M lines.
"""


def fails(cabinet: int) -> bytes:
    """Returns the note that a cabinet fails."""
    return b"M %d fail" % cabinet


def is_good(cabinet: int) -> bytes:
    """Returns the note that a cabinet that failed has answered again."""
    return b"M %d good" % cabinet


def has_pattern(cabinet: int, pattern: int) -> bytes:
    """Returns the note that a cabinet has acknowledged a pattern different from the one before."""
    return b"M %d pattern %d" % (cabinet, pattern)


def load_done(cabinet: int, load: int) -> bytes:
    """Returns the note that a download is in force."""
    return b"M %d load %d done" % (cabinet, load)


def load_refused(cabinet: int, load: int, status: int, index: int) -> bytes:
    """Returns the note that a download was refused."""
    return b"M %d load %d refused %d %d" % (cabinet, load, status, index)
