"""The state with which each test begins: all inputs off, the tables of the test in force, the device in flash.

A device that leaves flash starts up: nothing of its past has an effect then, and the proved cabinet begins in the same
way.
"""

import time
from typing import Any

from ..cabinet.messages import SET
from ..shared.cells import cells_between
from ..shared.oids import CONTROL, PREEMPT_STATE, TRANSACTION, VEH_CALL, VERIFY_ERROR, VERIFY_STATUS
from ..shared.tables import Tables
from .device import Bindings, refusal
from .driving import Bench, CantTell
from .hands import NORMAL, TRANSACT, VALID, VERIFY, cells_sent
from .objects import FLASH, GROUPS, name_of
from .watching import POLLS

BACKUP_TIME = 5
"""The column of the unit with the seconds after which a command expires."""
MOST_SECONDS = 400
"""How long a device may take to reach flash, in its own time."""
INPUTS = [*(VEH_CALL + (it,) for it in GROUPS), *(PREEMPT_STATE + (it,) for it in range(1, 9))]


def set_or_tell(bench: Bench, bindings: Bindings) -> None:
    """Sets objects; a refusal ends the test."""
    reply = bench.device.set(bindings)
    if reply.status:
        at = reply.index - 1 if 1 <= reply.index <= len(bindings) else 0
        name, value = bindings[at]
        raise CantTell(f"the device refuses {name_of(name)} = {value!r} ({refusal(reply)})")


def release(bench: Bench) -> None:
    """Turns off the inputs that are on, and ends a transaction that is open."""
    for name, value in bench.device.get(INPUTS).items():
        if value:
            set_or_tell(bench, [(name, 0)])
    bench.hands.released()
    if bench.has_transactions and bench.device.get([TRANSACTION]).get(TRANSACTION) != NORMAL:
        set_or_tell(bench, [(TRANSACTION, NORMAL)])


def leave_transaction(bench: Bench) -> None:
    """Raises CantTell if a transaction is open before the first test: it is somebody else's, and to end it would put
    its verified tables in force."""
    if bench.has_transactions and bench.device.get([TRANSACTION]).get(TRANSACTION, NORMAL) != NORMAL:
        raise CantTell("a transaction is open on the device (dbCreateTransaction isn't normal): end it first")


def to_flash(bench: Bench) -> None:
    """Commands flash, and waits until the device is in it."""
    set_or_tell(bench, [(CONTROL, FLASH)])
    timer, asked = bench.timer(), 0
    answer, shown = bench.watch.look()
    timer.start(answer)
    while not (shown.is_dark() and shown.pattern in (FLASH, None)):
        if timer.span(answer).first > POLLS * MOST_SECONDS:
            raise CantTell(f"the device isn't in flash {MOST_SECONDS} s after the command flash (255)")
        if not bench.step:
            time.sleep(0.5 / bench.speed)
        answer, shown = bench.watch.look()
        asked += 1


def load(bench: Bench, cells: list[list[Any]]) -> None:
    """Puts cells in force by a transaction of NTCIP 1201."""
    if not cells:
        return
    if not bench.has_transactions:
        raise CantTell("the device doesn't have dbCreateTransaction.0, by which the tables of the test are loaded")
    set_or_tell(bench, [(TRANSACTION, TRANSACT)])
    try:
        for asked in cells_sent(cells):
            set_or_tell(bench, asked.bindings)
        set_or_tell(bench, [(TRANSACTION, VERIFY)])
        if bench.device.get([VERIFY_STATUS]).get(VERIFY_STATUS) != VALID:
            raise CantTell(f"the device finds the tables of the test invalid{verify_error(bench)}")
    except CantTell:
        bench.device.set([(TRANSACTION, NORMAL)])
        raise
    set_or_tell(bench, [(TRANSACTION, NORMAL)])


def verify_error(bench: Bench) -> str:
    """Returns what dbVerifyError says."""
    from ..cabinet.messages import GET, OCTETS

    reply = bench.device.ask(GET, [(VERIFY_ERROR, None)]).reply
    found = [content for _, tag, content in reply.bindings if tag == OCTETS] if reply and not reply.status else []
    text = found[0].decode("ascii", "replace") if found else ""
    return f": {ascii(text)}" if text else ""


def prepare(bench: Bench, tables: Tables) -> None:
    """Brings the device to the beginning of a test with some tables. If commands expire, flash is commanded again."""
    release(bench)
    to_flash(bench)
    load(bench, cells_between(bench.in_force, tables))
    bench.in_force = tables.copy()
    if tables.unit(BACKUP_TIME):
        set_or_tell(bench, [(CONTROL, FLASH)])


def restore(bench: Bench) -> None:
    """Gives the device its own tables and its own command back, with all inputs off."""
    release(bench)
    cells = cells_between(bench.in_force, bench.original)
    if cells:
        to_flash(bench)
        load(bench, cells)
        bench.in_force = bench.original.copy()
    bench.device.ask(SET, [(CONTROL, bench.command)])
