"""What is kept of a run of queues in a folder: the report, the trace with its names, what pictures need."""

import pathlib
from typing import TYPE_CHECKING

from ...shared.fault import Fault
from ...shared.status import Status
from .. import records, report, undisturbed
from .given import Street
from .study import Ran, Study

if TYPE_CHECKING:
    from ...plan.names import Names

TRACE, NAMES = "session.trace", "session.names.json"


def value_of(ran: Ran, study: Study, street: Street) -> report.Value:
    """Returns the report of a run."""
    quiet = undisturbed.shares(ran.trace or b"", study.warm, study.seconds)
    return report.collect(study, ran.signals.greens, report.More(called_in(street.names), quiet))


def called_in(names: "Names | None") -> dict[int, str]:
    """Returns what cabinets are called, as far as they have names."""
    rows = names.intersections if names else []
    return {number: it.name for number, it in enumerate(rows, 1) if it.name}


def keep_names(folder: pathlib.Path, street: Street) -> None:
    """Writes the names next to the trace of a folder, or takes away those of an earlier run."""
    (folder / NAMES).unlink(missing_ok=True)
    if street.names:
        from ...plan import names  # takes a while

        (folder / NAMES).write_text(names.text(street.names), encoding="utf-8")


def write(folder: pathlib.Path, ran: Ran, study: Study, street: Street, value: report.Value) -> None:
    """Writes all that is kept of a run whose trace was recorded, with its report."""
    try:
        folder.mkdir(parents=True, exist_ok=True)
        study.trace.write_bytes(ran.trace or b"")
        records.save(study, folder / "study.json")
        (folder / "report.json").write_text(report.json_text(value), encoding="utf-8")
        (folder / "report.txt").write_text(report.text(value), encoding="utf-8")
        keep_names(folder, street)
    except OSError as fault:
        raise Fault(f"{fault.filename or folder}: {fault.strerror}", Status.FILE) from None
