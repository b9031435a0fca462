"""How far the proofs are: a bar on a terminal, and lines elsewhere."""

import pathlib
import threading
import time

from streettools.shared import progress
from streettools.shared.saying import say

from . import shares

FIRST = "the program is proved and built: {} crates, some half an hour on four processors"


class ProofProgress:
    """Tells of each crate as it is done, of the minutes that are gone, and of those that are left by the crates'
    known shares."""

    def __init__(self, names: list[str], top: pathlib.Path) -> None:
        self.shares = shares.of(names, top)
        self.left = dict(self.shares)
        self.here = 0.0
        self.begun = time.monotonic()
        self.over = threading.Event()

    def __enter__(self) -> "ProofProgress":
        say("arterial", FIRST.format(len(self.shares)))
        self.bar = progress.bar(100, "%", bar_format="{desc:32} {bar:40} {n:3.0f} % {postfix}")
        if self.bar is not None:
            self.thread = threading.Thread(target=self.keep_time, daemon=True)
            self.thread.start()
        return self

    def __exit__(self, *_) -> None:
        self.over.set()
        if self.bar is not None:
            self.thread.join()
            self.bar.close()

    def part(self) -> float:
        """Returns how much is done, as a part of 1."""
        return 1 - sum(self.left.values()) / sum(self.shares.values())

    def minutes(self) -> str:
        """Returns the minutes that are gone, and those left, in words."""
        gone = (time.monotonic() - self.begun) / 60
        told = f"{gone:.0f} min gone"
        enough = self.here > 0.02 * sum(self.shares.values())
        return f"{told}, some {gone * sum(self.left.values()) / self.here:.0f} left" if enough else told

    def keep_time(self) -> None:
        """Keeps the minutes on the bar right."""
        while not self.over.wait(1):
            self.bar.set_postfix_str(self.minutes())

    def taken(self, names: list[str]) -> None:
        """Takes crates as done that an earlier call has proved: they say nothing of this call's pace."""
        for name in names:
            del self.left[name]
        if names:
            self.tell(f"{len(names)} of {len(self.shares)} were proved before")

    def done(self, name: str) -> None:
        """Takes a crate as done."""
        self.here += self.left.pop(name)
        self.tell(f"{len(self.shares) - len(self.left):2} of {len(self.shares)}: {name}")

    def tell(self, told: str) -> None:
        """Tells what was done."""
        if self.bar is None:
            say("arterial", f"{told} ({self.minutes()})")
        else:
            self.bar.set_description_str(told, refresh=False)
            self.bar.update(100 * self.part() - self.bar.n)
