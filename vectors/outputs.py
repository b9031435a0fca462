"""Standard outputs that fail, for the scripts beside."""

import resource
import subprocess
import sys
import tempfile

sys.dont_write_bytecode = True

from running import SECONDS  # noqa: E402


def into_file(command, given, most):
    """Runs a command into a file that takes so many bytes, with the signal of files that are too large ignored. Returns
    its status, what was written and what was said."""

    def limit():
        resource.setrlimit(resource.RLIMIT_FSIZE, (most, most))

    with tempfile.TemporaryFile() as file:
        ran = subprocess.run(
            command, input=given, stdout=file, stderr=subprocess.PIPE, timeout=SECONDS, restore_signals=False,
            preexec_fn=limit
        )
        file.seek(0)
        return ran.returncode, file.read(), ran.stderr
