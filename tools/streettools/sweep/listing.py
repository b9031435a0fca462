"""The list of the measures that are built in."""

from ..shared.status import Status
from . import measures


def list_measures() -> int:
    """Lists the measures that are built in."""
    for scope in measures.Scope:
        print(f"of each {scope.value}" if scope is not measures.Scope.STREET else "of a street")
        for it in measures.ALL.values():
            if it.scope is scope:
                print(f"  {it.name:26} {it.unit:10} {it.what}")
    return Status.DONE
