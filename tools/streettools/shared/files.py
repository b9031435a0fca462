"""Files that are written whole or not at all."""

import contextlib
import os
import sys
from collections.abc import Iterator
from typing import TextIO

Path = str | os.PathLike[str]


@contextlib.contextmanager
def blamed(path: Path, *names: str) -> Iterator[None]:
    """Makes a fault in writing name `path`, if it names no file or one of these names."""
    try:
        yield
    except OSError as fault:
        if fault.errno is None or fault.filename not in (None, *names):
            raise
        raise OSError(fault.errno, fault.strerror, str(path)) from None


@contextlib.contextmanager
def whole(path: Path, is_private: bool = False) -> Iterator[str]:
    """Gives the name of a file next to `path`, which replaces `path` at the end. If the end isn't reached, the new file
    is removed and `path` stays as it is. If `path` isn't a regular file, as a pipe, it is written directly. A private
    file can be read by its owner only."""
    if os.path.exists(path) and not os.path.isfile(path):
        with blamed(path):
            yield str(path)
        return
    import tempfile

    aim = os.path.realpath(path)
    folder, last = os.path.split(aim)
    try:
        handle, name = tempfile.mkstemp(dir=folder, prefix=f".{last}.", suffix=os.path.splitext(last)[1])
    except OSError as fault:
        raise OSError(fault.errno, fault.strerror, aim) from None
    os.close(handle)
    try:
        with blamed(path, name):
            yield name
            mask = os.umask(0)
            os.umask(mask)
            os.chmod(name, 0o600 if is_private else 0o666 & ~mask)
            os.replace(name, aim)
    except BaseException:
        os.unlink(name)
        raise


@contextlib.contextmanager
def output(path: Path | None) -> Iterator[TextIO]:
    """Gives a text to write to: a file that is written whole, or standard output if `path` is None. A fault in writing
    says which."""
    if path is None:
        with blamed("standard output"):
            yield sys.stdout
            sys.stdout.flush()
    else:
        with whole(path) as name, open(name, "w", encoding="utf-8") as out:
            yield out
