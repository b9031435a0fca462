"""The Sets of tests before any is sent: each in a line, as a dry run prints them."""

from collections.abc import Iterator

from ..cabinet.messages import SET
from ..shared.cells import cells_between, with_cells
from ..shared.oids import CONTROL, TRANSACTION
from ..shared.tables import Tables
from . import steps
from .device import Asked
from .hands import NORMAL, TRANSACT, VERIFY, Hands, cells_sent
from .objects import FLASH, name_of
from .preparing import BACKUP_TIME, INPUTS
from .scripts import Script, tables_before


def lines(asked: Asked) -> Iterator[str]:
    """Yields a line for each object that a message sets."""
    for name, value in asked.bindings if asked.kind == SET else ():
        yield f"{name_of(name)} = {value.hex() if isinstance(value, bytes) else value}"


def loaded(before: Tables, after: Tables) -> Iterator[str]:
    """Yields the Sets of a transaction between two tables."""
    if cells := cells_between(before, after):
        for asked in (
            Asked(SET, [(TRANSACTION, TRANSACT)]), *cells_sent(cells), Asked(SET, [(TRANSACTION, VERIFY)]),
            Asked(SET, [(TRANSACTION, NORMAL)]),
        ):  # fmt: skip
            yield from lines(asked)


def sets_of(script: Script, tables: Tables, hands: Hands) -> Iterator[str]:
    """Yields the Sets of a test, in order."""
    first, last = name_of(INPUTS[0]), name_of(INPUTS[-1])
    yield f"{first} to {last} = 0, those that aren't 0"
    yield f"{name_of(TRANSACTION)} = {NORMAL}, if it isn't"
    yield f"{name_of(CONTROL)} = {FLASH}"
    begun = tables_before(script, tables)
    yield from loaded(tables, begun)
    if begun.unit(BACKUP_TIME):
        yield f"{name_of(CONTROL)} = {FLASH}"
    hands.released()
    after = begun
    for act in (script.clock, script.start, *script.acts):
        if act is None:
            continue
        if hands.is_by_channel(act):
            yield f"by the second channel: {act.words}"
            continue
        cells = script.load(act.name, after) if act.kind == steps.STAGE else []
        after = with_cells(after, cells)
        for asked in hands.messages(act, cells)[0]:
            yield from lines(asked)
    yield from loaded(after, tables)


def planned(tests: list[Script], tables: Tables, hands: Hands, command: int) -> Iterator[str]:
    """Yields all Sets of tests, with a line for each test, and those at the end."""
    for script in tests:
        yield f"test {script.name}"
        for line in sets_of(script, tables, hands):
            yield f"  {line}"
    yield "at the end"
    yield f"  {name_of(CONTROL)} = {command}"
