"""Bars of progress, only on a terminal, and only if Python's tqdm is installed."""

import contextlib
import sys
from collections.abc import Callable, Iterator
from typing import Any


def bar(total: int | None, unit: str, **more: Any) -> Any:
    """Returns a bar on standard error; None if no terminal shows it, or if tqdm is missing."""
    if not sys.stderr.isatty():
        return None
    try:
        from tqdm import tqdm
    except ModuleNotFoundError:
        return None
    return tqdm(total=total, unit=unit, leave=False, **more)


@contextlib.contextmanager
def each_second(does: Callable[[], object]) -> Iterator[None]:
    """Does something each second, in a thread of its own, while the block runs."""
    import threading

    over = threading.Event()

    def show() -> None:
        while not over.wait(1):
            does()

    thread = threading.Thread(target=show, daemon=True)
    thread.start()
    try:
        yield
    finally:
        over.set()
        thread.join()


@contextlib.contextmanager
def waiting(seconds: int) -> Iterator[None]:
    """Shows how much of a time is over, while the block runs."""
    shown = bar(seconds, "s", bar_format="{bar:40} {elapsed}")
    if shown is None:
        yield
        return

    def show() -> None:
        shown.update(1 if shown.n < seconds - 1 else 0)
        shown.refresh()

    try:
        with each_second(show):
            yield
    finally:
        shown.close()


@contextlib.contextmanager
def counted(total: int, unit: str) -> Iterator[Any]:
    """Shows a bar from the start, and each second how long it has lasted, while the block runs; the block has None if
    no terminal shows it."""
    shown = bar(total, unit)
    if shown is None:
        yield None
        return
    try:
        with each_second(shown.refresh):
            yield shown
    finally:
        shown.close()
