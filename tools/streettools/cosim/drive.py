"""SUMO itself: found, started with the files of a run, stepped, closed. `libsumo` is taken where it is there, else
TraCI, which takes several times as long.
"""

import contextlib
import importlib
import math
import os
import pathlib
import sys
from collections.abc import Callable, Iterator
from dataclasses import dataclass
from typing import Any

from ..shared.fault import Fault
from ..shared.status import Status
from .xml_file import root_of

TOOLS = "/usr/share/sumo/tools"
TRIPS, ROUTES, STOPS, LOG = "tripinfo.xml", "vehroutes.xml", "stops.xml", "sumo.log"
PERSONS = ("person", "personFlow")
PACKAGES = "apt-get install -y sumo sumo-tools"


def module() -> Any:
    """Returns SUMO's module for Python; where there is none the fault says what to install."""
    home = os.environ.get("SUMO_HOME", "")
    for path in ([f"{home}/tools"] if home else []) + [TOOLS]:
        if path not in sys.path:
            sys.path.append(path)
    for name in ("libsumo", "traci"):
        with contextlib.suppress(ImportError):
            return importlib.import_module(name)
    raise Fault(f"SUMO is missing: {PACKAGES}", Status.FILE)


def call(sumo: Any, kind: str, name: str) -> Callable[..., Any]:
    """Returns a call of SUMO that is made in each step. In libsumo that is the call itself, without the function around
    it that takes as long again; a step, which gathers what was subscribed to of each kind, takes a tenth less so, and
    nothing is subscribed to here."""
    bare = getattr(getattr(getattr(sumo, "libsumo", None), "_libsumo", None), f"{kind}_{name}", None)
    if bare is not None:
        return bare
    return sumo.simulationStep if (kind, name) == ("simulation", "step") else getattr(getattr(sumo, kind), name)


@dataclass(frozen=True)
class Config:
    """A configuration of SUMO, as far as it is known here: its network, additional files, first and last second (None
    where it names none), files of routes."""

    path: pathlib.Path
    network: pathlib.Path
    additional: tuple[pathlib.Path, ...]
    begin: float
    end: float | None
    routes: tuple[pathlib.Path, ...] = ()

    def has_persons(self) -> bool:
        """Tells whether persons walk: whether a file of routes or an additional one has some."""
        return any(has_persons(it) for it in (*self.routes, *self.additional))


def has_persons(path: pathlib.Path) -> bool:
    """Returns whether a file has persons; SUMO itself refuses a file that can't be read."""
    with contextlib.suppress(Fault):
        return any(element.tag in PERSONS for element in root_of(path).iter())
    return False


def files_of(text: str, folder: pathlib.Path) -> tuple[pathlib.Path, ...]:
    """Returns the files of a list with commas."""
    return tuple(folder / it.strip() for it in text.split(",") if it.strip())


def read_config(path: pathlib.Path) -> Config:
    """Reads a configuration."""
    root = root_of(path)
    values = {it.tag: it.attrib["value"] for it in root.iter() if "value" in it.attrib}
    network = values.get("net-file") or values.get("net") or values.get("n")
    if not network:
        raise Fault(f"{path}: no configuration of SUMO: net-file is missing")
    files = values.get("additional-files") or values.get("additional") or values.get("a") or ""
    additional = files_of(files, path.parent)
    routes = files_of(values.get("route-files") or values.get("route") or values.get("r") or "", path.parent)
    begin, end = math.nan, math.nan
    with contextlib.suppress(ValueError):
        begin, end = float(values.get("begin", 0)), float(values.get("end", -1))
    if not math.isfinite(begin + end):
        raise Fault(f"{path}: begin and end have to be seconds")
    return Config(path, path.parent / network, additional, begin, end if end > 0 else None, routes)


@dataclass(frozen=True)
class Start:
    """How a run of SUMO starts: its configuration, what is added to it, step and length in seconds, the seed (None:
    that of the configuration), and the folder for what it writes."""

    config: Config
    added: tuple[pathlib.Path, ...]
    step: float
    seconds: float
    seed: int | None
    out: pathlib.Path

    def words(self) -> list[str]:
        """Returns SUMO's command line."""
        additional = ",".join(map(str, (*self.config.additional, *self.added)))
        words = ["sumo", "-c", self.config.path, "--step-length", self.step]
        words += ["--end", self.config.begin + self.seconds + self.step]
        words += ["--additional-files", additional] if additional else []
        words += ["--seed", self.seed] if self.seed is not None else []
        words += ["--tripinfo-output", self.out / TRIPS, "--tripinfo-output.write-unfinished"]
        words += ["--tripinfo-output.write-undeparted"]
        words += ["--vehroute-output", self.out / ROUTES, "--vehroute-output.exit-times"]
        words += ["--vehroute-output.write-unfinished", "--stop-output", self.out / STOPS]
        words += ["--no-step-log", "--no-warnings", "--duration-log.disable", "--xml-validation", "never"]
        return [str(word) for word in words]


@contextlib.contextmanager
def quiet(log: pathlib.Path) -> Iterator[None]:
    """Lets what SUMO itself writes to standard error go to a file, while Python's own still comes out."""
    sys.stderr.flush()
    kept, own = os.dup(2), sys.stderr
    with open(log, "wb") as out, open(os.dup(kept), "w", buffering=1, encoding="utf-8") as shown:
        os.dup2(out.fileno(), 2)
        sys.stderr = shown
        try:
            yield
        finally:
            sys.stderr = own
            os.dup2(kept, 2)
            os.close(kept)


def told(log: pathlib.Path, fault: BaseException) -> str:
    """Returns what SUMO said of an error, in a line."""
    with contextlib.suppress(OSError):
        errors = [it for it in log.read_text(errors="replace").splitlines() if it.startswith("Error:")]
        if errors:
            return errors[0].removeprefix("Error:").strip()
    return " ".join(str(fault).split()) or type(fault).__name__


@contextlib.contextmanager
def running(sumo: Any, start: Start) -> Iterator[None]:
    """Runs SUMO for the block. An error of SUMO is a fault that has its words; what it wrote is kept."""
    log = start.out / LOG
    errors = tuple(
        it for it in (getattr(sumo, name, None) for name in ("TraCIException", "FatalTraCIError")) if it is not None
    )
    with quiet(log):
        try:
            sumo.start(start.words())
            yield
        except errors as fault:
            raise Fault(f"SUMO ended by an error: {told(log, fault)}", Status.FILE) from None
        finally:
            with contextlib.suppress(*errors):
                sumo.close()
