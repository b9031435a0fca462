"""The built program and the libraries that stand before it, for the scripts beside."""

import os
import pathlib
import shutil
import subprocess
import sys

HERE = pathlib.Path(__file__).resolve().parent
SECONDS = 60
"""How long one run may take."""

ALLOWED_SECONDS, ALLOWED_KILOBYTES = 10, 1 << 20
"""What a run on a small scenario may take, however damaged that is."""

sys.dont_write_bytecode = True


def program_of(words):
    """Returns the program that the words name; where they name none, the one that was proved in this checkout."""
    program = pathlib.Path(words[0]).resolve() if words else built()
    if not (program.is_file() and os.access(program, os.X_OK)):
        sys.exit(f"{sys.argv[0]}: no program at {program}")
    return program


def built():
    """Returns the program that was proved in this checkout."""
    ran = subprocess.run([HERE.parent / "tools/proved"], capture_output=True, text=True)
    if ran.returncode:
        sys.exit(f"{sys.argv[0]}: {ran.stderr.strip()}")
    return pathlib.Path(ran.stdout.rstrip("\n"))


def library(folder, name):
    """Returns the library that stands before the C library's calls, compiled into the folder; None where it can't be
    had on this machine."""
    if shutil.which("cc") is None:
        return None
    made = pathlib.Path(folder) / f"{name}.so"
    ran = subprocess.run(["cc", "-O2", "-shared", "-fPIC", "-o", made, HERE / f"{name}.c", "-ldl"], capture_output=True)
    return made if ran.returncode == 0 else None


def run_behind(made, program, given, names, words=("run",)):
    """Runs the program once behind such a library, which reads the names; with these words. Returns whether it told of
    anything, the exit status, and both outputs."""
    told, telling = os.pipe()
    with open(told, "rb") as reader:
        try:
            names = {"LD_PRELOAD": str(made), "TOLD": str(telling), **names}
            ran = subprocess.run(
                [program, *words], input=given, capture_output=True, timeout=SECONDS, pass_fds=(telling,),
                env={**os.environ, **names}
            )
        finally:
            os.close(telling)
        return reader.read() != b"", ran.returncode, ran.stdout, ran.stderr


def answered(program, words, given=None):
    """Returns what the program answers to some words: its status and both outputs. Where it is given nothing to read,
    its standard input is a folder, so that a read would fail."""
    if given is not None:
        ran = subprocess.run([program, *words], input=given, capture_output=True, timeout=SECONDS)
    else:
        folder = os.open(HERE, os.O_RDONLY)
        try:
            ran = subprocess.run([program, *words], stdin=folder, capture_output=True, timeout=SECONDS)
        finally:
            os.close(folder)
    return ran.returncode, ran.stdout, ran.stderr


def ended(program, given, word="run"):
    """Returns what a command answered, which may take 10 seconds and 1 GB: its status and both outputs; in words where
    it didn't end."""
    words = ["sh", "-c", f'ulimit -v {ALLOWED_KILOBYTES}; exec "$0" "$1"', program, word]
    try:
        ran = subprocess.run(words, input=given, capture_output=True, timeout=ALLOWED_SECONDS)
    except subprocess.TimeoutExpired:
        return f"not ended after {ALLOWED_SECONDS} seconds"
    return ran.returncode, ran.stdout, ran.stderr
