"""What a tool can't do, in words."""

from .status import Status


class Fault(Exception):
    """Something that can't be done: a line, or several, and the exit status that goes with it."""

    def __init__(self, words: str, status: int = Status.REFUSED) -> None:
        super().__init__(words)
        self.status = status
