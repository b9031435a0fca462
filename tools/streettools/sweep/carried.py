"""What a sweep carries to a worker. It travels as code to a worker of Dask, so it takes from nothing but Python."""

import hashlib
import importlib
import os
import pathlib
import shutil
import sys
from typing import Any


class Parcel:
    """The tools, the study and the program. A worker that has the program at the same path with the same hash takes
    that."""

    def __init__(
        self,
        name: str,
        modules: dict[str, str],
        task: dict[str, Any],
        program_path: str,
        program_hash: str,
        program: bytes | None,
    ) -> None:
        self.name, self.modules, self.task = name, modules, task
        self.program_path, self.program_hash, self.program = program_path, program_hash, program
        self.folder: pathlib.Path | None = None
        self.work: Any = None

    def setup(self, worker: Any) -> None:
        """Prepares the sweep on a worker of Dask."""
        self.write(pathlib.Path(worker.local_directory) / self.name)
        self.start()

    def write(self, folder: pathlib.Path) -> None:
        """Writes the tools into a folder that this makes, under a name that only this sweep has."""
        self.folder = folder
        folder.mkdir(mode=0o700)
        for path, text in self.modules.items():
            file = folder / self.name / path
            file.parent.mkdir(parents=True, exist_ok=True)
            file.write_text(text, encoding="utf-8")

    def start(self) -> None:
        """Makes the study ready with the tools that are written."""
        sys.path.insert(0, str(self.folder))
        importlib.invalidate_caches()
        try:
            working = importlib.import_module(f"{self.name}.sweep.working")
            self.work = working.Work(self.task, self.program_here())
        except Exception as fault:
            raise RuntimeError(f"{type(fault).__name__}: {fault}") from None

    def program_here(self) -> pathlib.Path:
        """Returns the program's path on this machine, written here if it isn't there; its hash has to be the one that
        the sweep knows."""
        path = pathlib.Path(self.program_path)
        if path.is_file() and hashlib.sha256(path.read_bytes()).hexdigest() == self.program_hash:
            return path
        if self.program is None or hashlib.sha256(self.program).hexdigest() != self.program_hash:
            raise RuntimeError(f"the program at {path} is not the one of this sweep")
        assert self.folder is not None
        path = self.folder / "arterial"
        path.write_bytes(self.program)
        os.chmod(path, 0o700)
        return path

    def teardown(self, worker: Any) -> None:
        """Takes away what was written."""
        if self.folder is not None:
            shutil.rmtree(self.folder, ignore_errors=True)
            sys.path[:] = [it for it in sys.path if it != str(self.folder)]


def rows(name: str, indexes: list[int]) -> Any:
    """Returns the results of some variants, on the worker of Dask that this runs on."""
    from distributed import get_worker

    plugins: dict[str, Any] = get_worker().plugins
    try:
        return plugins[name].work.rows(indexes)
    except Exception as fault:
        raise RuntimeError(f"{type(fault).__name__}: {fault}") from None
