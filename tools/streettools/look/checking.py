"""The proved program's check of a text, which runs while the text is read. Its answer is reported before anything is
shown."""

import os
from typing import BinaryIO

from ..shared import program
from ..shared.fault import Fault
from ..shared.saying import say

NO_TRACE = 5
"""The program's exit status if a text isn't a trace."""
TOO_LONG = "trace: line 0 breaks rule 1"


class Check:
    """A check that runs, of a file that is read from where it is now. Without a program nothing is reported."""

    def __init__(self, file: BinaryIO, called: str) -> None:
        self.called = called
        self.running: program.Running | None = None
        try:
            command = program.command("check")
        except program.NoProgram:
            return
        start = file.tell()
        try:
            self.start(command, os.open(f"/proc/self/fd/{file.fileno()}", os.O_RDONLY), start)
        except OSError:
            # a file of another user, or a system without /proc: both have one place then, and one reads after the other
            self.start(command, os.dup(file.fileno()), start)
            self.told()
            file.seek(start)

    def start(self, command: list[str], text: int, start: int) -> None:
        """Starts the program on an open file from some place on, and closes the file here."""
        import subprocess  # takes a while

        try:
            os.lseek(text, start, os.SEEK_SET)
            self.running = program.Running(command, text, subprocess.DEVNULL)
        finally:
            os.close(text)

    def told(self) -> None:
        """Waits for the end, and reports the result; raises Fault if a text isn't a trace. A second call does
        nothing."""
        if self.running is None:
            return
        status, _, line = self.running.ended()
        self.running = None
        if status == 0:
            say("look", f"checked: {self.called} is a trace")
        elif status == NO_TRACE and line != TOO_LONG:
            raise Fault(f"checked: {self.called} is not a trace ({line}); --no-check shows it as far as it can be read")
        elif status not in program.NONE_HERE:
            say("look", f"not checked: {line or f'the program ended with status {status}'}")

    def end(self) -> None:
        """Ends the check, if its end wasn't waited for."""
        if self.running is not None:
            self.running.end()
            self.running = None
