"""What a process of a test prints, line by line, kept while it runs."""

import re
import threading

SECONDS = 60
"""How long anything may take."""


class Heard:
    """A process whose lines on standard error are kept."""

    def hear(self, process):
        """Begins to keep what a process says."""
        self.heard = process
        self.said, self.more = [], threading.Event()
        self.reader = threading.Thread(target=self.read)
        self.reader.start()

    def read(self):
        """Keeps what the process says."""
        for line in self.heard.stderr:
            self.said.append(line.rstrip("\n"))
            self.more.set()
        self.more.set()

    def told(self, pattern):
        """Waits until the process says something, and returns what was found in it."""
        for _ in range(10 * SECONDS):
            found = next(filter(None, (re.search(pattern, line) for line in self.said)), None)
            if found:
                return found
            if self.heard.poll() is not None and not self.reader.is_alive():
                break
            self.more.wait(0.1)
            self.more.clear()
        raise AssertionError(f"not told: {pattern}; {self.said}")
