"""Workers on other machines: a cluster of Dask, whose members need a certificate."""

import contextlib
import importlib
import logging
import secrets
from collections.abc import Callable, Iterator
from dataclasses import dataclass
from pathlib import Path
from typing import Any

from ..shared.fault import Fault
from ..shared.status import Status
from .carried import Parcel
from .crew import Crew, Lost, Rows
from .variants import Asked

PACKAGES = "python3-dask python3-distributed python3-cryptography"
ANSWER = 15
"""How many seconds a scheduler has to answer."""
SETTINGS = {
    "distributed.comm.timeouts.connect": "60s",
    "distributed.comm.timeouts.tcp": "120s",
    "distributed.comm.require-encryption": True,
    "distributed.admin.tick.interval": "10s",
    "distributed.admin.tick.cycle": "1m",
    "distributed.client.scheduler-info-interval": "1m",
}


def distributed() -> Any:
    """Returns Dask's module, which has no types."""
    return importlib.import_module("distributed")


@dataclass(frozen=True)
class Papers:
    """The files by which both ends of each connection know each other: the certificate of the signer, and the own
    certificate with its key."""

    authority: Path
    certificate: Path
    key: Path

    def security(self) -> Any:
        """Returns Dask's own form of these files."""
        for file in (self.authority, self.certificate, self.key):
            if not file.is_file():
                raise Fault(f"{file}: no such file", Status.FILE)
        return distributed().Security(
            require_encryption=True,
            tls_ca_file=str(self.authority),
            tls_client_cert=str(self.certificate),
            tls_client_key=str(self.key),
        )


class Dask(Crew):
    """The workers of a cluster."""

    sends_program = True

    def __init__(self, client: Any, address: str) -> None:
        super().__init__()
        self.client, self.address = client, address

    def take_up(self, parcel: Parcel) -> None:
        import cloudpickle

        from . import carried

        cloudpickle.register_pickle_by_value(carried)
        self.task = carried.rows
        try:
            self.client.register_worker_plugin(parcel, name=self.name)
        except Exception as fault:
            raise Fault(f"a worker can't take up the sweep: {fault}", Status.FILE) from None

    def count(self) -> int:
        try:
            return sum(self.client.nthreads().values())
        except (OSError, TimeoutError, ValueError):
            raise self.gone() from None

    def submit(self, indexes: list[Asked], over: Callable[[Any], object]) -> Any:
        key = f"{self.name}-{secrets.token_hex(8)}"
        made = self.client.submit(self.task, self.name, indexes, pure=False, key=key)
        self.waits(made, over)
        return made

    def waits(self, ticket: Any, over: Callable[[Any], object]) -> None:
        ticket.add_done_callback(over)

    def rows(self, ticket: Any) -> Rows | None:
        from distributed.scheduler import KilledWorker

        status = ticket.status
        if status == "finished":
            found: Rows = ticket.result()
            return found
        if status in ("lost", "pending"):
            return None
        if status == "cancelled":
            raise self.gone()
        fault = ticket.exception()
        if isinstance(fault, KilledWorker):
            raise Lost
        raise Fault(f"a worker failed: {type(fault).__name__}: {fault}", Status.FILE)

    def gone(self) -> Fault:
        """Returns what is printed if the scheduler no longer answers."""
        words = f"the scheduler at {self.address} is gone; finished runs are kept, and --resume continues"
        return Fault(words, Status.FILE)

    def end(self, tickets: list[Any]) -> None:
        for it in tickets:
            it.cancel()
        if self.client.status == "running":
            self.client.unregister_worker_plugin(self.name)


@contextlib.contextmanager
def at(address: str | None, papers: Papers, file: str | None = None) -> Iterator[Dask]:
    """Gives a cluster of Dask whose scheduler is at an address, or is named by a file."""
    import dask

    # what goes wrong is said by the sweep, not by Dask's own lines
    logging.disable(logging.CRITICAL)
    with dask.config.set(SETTINGS):
        try:
            client = distributed().Client(address, scheduler_file=file, timeout=ANSWER, security=papers.security())
        except (OSError, TimeoutError, ValueError, RuntimeError) as fault:
            why = type(fault).__name__
            raise Fault(f"no scheduler of Dask answers at {address or file}: {why}", Status.FILE) from None
        with client:
            yield Dask(client, address or client.scheduler_info()["address"])
