"""Tables set within a transaction of NTCIP 1201, as a download of the profile: begin, parts, verify, finish.

After each step the cabinet's own stage is read, with nothing in between: what the transaction says is what the stage
says. A manager whose transaction ended otherwise than it asked for gets an error until it begins again.
"""

from ...shared.ber import Arcs
from ...shared.oids import BEGIN, DETAIL, FINISH, ID, OUTCOME, PART, ROW, STATE, TOTAL
from ...shared.snmp import Binding
from ..known import Downloads
from ..street import Manager
from .judging import fault_of, needs_transaction
from .managers import Managers
from .pdus import (
    GEN_ERR, INCONSISTENT_VALUE, RESOURCE_UNAVAILABLE, WRONG_VALUE, Fault, whole,
)  # fmt: skip
from .side import Side

NORMAL, GATHERING, VERIFY, DONE = 1, 2, 3, 6
NOT_DONE, WITH_ERROR, WITHOUT_ERROR = 1, 2, 3
STAGED, VERIFIED, REFUSED = 1, 3, 8
"""Outcomes of the cabinet's download stage; VERIFIED and DONE are also states of it."""
CELLS_OF_A_PART = 24
MOST_CELLS = 768
"""How many cells a download may have."""
BETWEEN = b"another download came between"
NO_NUMBER = b"no download number is left: the last was 2147483647"
ENDED = b"another manager has ended the transaction"

Cells = list[tuple[int, Binding]]
"""Cells that are set, each with its index in the message."""


class Refused(Exception):
    """A download that the cabinet doesn't take: why."""

    def __init__(self, why: bytes) -> None:
        super().__init__(why)
        self.why = why


class Transaction:
    """The transaction of a cabinet, and the cells that were set in it."""

    def __init__(self, side: Side, downloads: Downloads, managers: Managers) -> None:
        self.side, self.downloads, self.managers = side, downloads, managers
        self.state, self.verified, self.error = NORMAL, NOT_DONE, b""
        self.cells: dict[Arcs, Binding] = {}
        self.load = 0
        self.was_verified = False

    # cells

    def test(self, given: Cells, manager: Manager, number: int) -> None:
        """Raises Fault for the first cell that the transaction doesn't take: by its manager, its name, its type or
        range, or because the download is full."""
        known = set(self.cells)
        for at, it in given:
            if self.managers.is_late(manager, number) or not self.managers.holds(manager):
                raise Fault(GEN_ERR, at)
            if status := fault_of(it.arcs, it.value):
                raise Fault(status, at)
            known.add(it.arcs)
            if len(known) > MOST_CELLS:
                raise Fault(RESOURCE_UNAVAILABLE, at)

    def gather(self, given: Cells, manager: Manager) -> None:
        """Keeps cells for the download; one that was set before has its new value."""
        if given:
            self.cells |= {it.arcs: it for _, it in given}
            self.managers.ports.add(manager)

    async def put_at_once(self, given: Cells, manager: Manager) -> None:
        """Puts cells in force that are set outside a transaction, as a download of their own. Raises Fault, and changes
        no table, if a cell can't be set so, if its manager has asked for a transaction not long ago, or if the tables
        would break a rule: `dbVerifyError` says which."""
        for at, it in given:
            if self.managers.has_asked(manager):
                raise Fault(INCONSISTENT_VALUE, at)
            if status := fault_of(it.arcs, it.value):
                raise Fault(status, at)
            if needs_transaction(it.arcs):
                raise Fault(GEN_ERR, at)
        first = given[0][0]
        try:
            await self.send([it for _, it in given])
        except Refused as refused:
            self.error = refused.why
            raise Fault(GEN_ERR if refused.why in (BETWEEN, NO_NUMBER) else INCONSISTENT_VALUE, first) from None
        if not await self.put_in_force():
            raise Fault(GEN_ERR, first)

    # states

    async def go_to(self, state: int, manager: Manager, number: int) -> None:
        """Sets the state, for a manager by a message of this number. What can't be done is raised."""
        if state not in (NORMAL, GATHERING, VERIFY):
            raise Fault(WRONG_VALUE, 1)
        if self.managers.is_late(manager, number) or state != GATHERING and manager in self.managers.lost:
            raise Fault(GEN_ERR, 1)
        if state == GATHERING:
            self.open(manager, number)
        elif state == VERIFY:
            await self.verify(manager)
        else:
            await self.close(manager)

    def open(self, manager: Manager, number: int) -> None:
        """Opens the transaction. Cells that wait are never discarded by that: NORMAL does it."""
        is_busy = bool(self.cells) or self.state == DONE
        if not is_busy:
            self.managers.opens(manager)
            self.end(GATHERING, NOT_DONE, b"")
        self.managers.asks(manager, number)
        if is_busy:
            raise Fault(GEN_ERR, 1)

    def end(self, state: int, verified: int, error: bytes) -> None:
        """Sets the state of the transaction, and the result of its verification."""
        self.state, self.verified, self.error = state, verified, error
        self.was_verified = verified == WITHOUT_ERROR

    async def verify(self, manager: Manager) -> None:
        """Has the cells tested in the cabinet's stage. Once that is done it isn't done again."""
        if self.state == NORMAL:
            raise Fault(INCONSISTENT_VALUE, 1)
        if not self.managers.holds(manager):
            raise Fault(GEN_ERR, 1)
        self.managers.ports.add(manager)
        if self.state == DONE:
            return
        try:
            if self.cells:
                await self.send(list(self.cells.values()))
            self.end(DONE, WITHOUT_ERROR, b"")
        except Refused as refused:
            self.end(DONE, WITH_ERROR, refused.why)

    async def close(self, manager: Manager) -> None:
        """Ends the transaction for its manager: verified tables are put in force, others discarded. If another manager
        ends it, they are discarded in any case, and their own manager gets an error when it sends its next message."""
        is_own = self.managers.holds(manager)
        if not is_own and (self.state == NORMAL or self.managers.ending(manager) is not None):
            await self.close_again(manager)
        elif is_own and self.was_verified and self.cells:
            await self.finish()
        else:
            self.managers.discarded(manager)
            self.cells = {}
            self.end(NORMAL, NOT_DONE if is_own else WITH_ERROR, b"" if is_own else ENDED)

    async def finish(self) -> None:
        """Puts the tables in force."""
        is_done = await self.put_in_force()
        self.cells = {}
        if is_done:
            self.managers.finished()
            self.end(NORMAL, WITHOUT_ERROR, b"")
            return
        self.managers.failed()
        self.end(NORMAL, WITH_ERROR, BETWEEN)
        raise Fault(GEN_ERR, 1)

    async def put_in_force(self) -> bool:
        """Finishes the download; returns whether its tables are in force."""
        done, (stage,) = await self.side.set_and_look([self.named(), Binding(FINISH, whole(1))], [STATE])
        return done == 0 and stage == DONE

    async def close_again(self, manager: Manager) -> None:
        """Answers a NORMAL of a manager without a transaction as the one that ended its last transaction. Of a manager
        that isn't known it is an error if tables are verified and not in force: they may be its own."""
        ending = self.managers.ending(manager)
        if ending is None:
            (stage,) = await self.side.numbers(STATE)
            ending = stage != VERIFIED
        if not ending:
            raise Fault(GEN_ERR, 1)

    async def look(self) -> None:
        """Reads whether verified tables are still those of the cabinet's stage, before a reply says that they are."""
        if self.verified == WITHOUT_ERROR and self.state == DONE and self.cells:
            (stage,) = await self.side.numbers(STATE)
            if stage != VERIFIED or self.downloads.greatest[self.side.cabinet] != self.load:
                self.verified, self.error = WITH_ERROR, BETWEEN

    # the download

    def named(self) -> Binding:
        """Returns the binding that names the download."""
        return Binding(ID, whole(self.load))

    async def send(self, given: list[Binding]) -> None:
        """Sends cells, and has the tables tested as they would be. What the cabinet doesn't take is raised."""
        number = self.downloads.next(self.side.cabinet)
        if number is None:
            raise Refused(NO_NUMBER)
        self.load = number
        await self.step([Binding(BEGIN, whole(number))], STAGED)
        parts = [given[at : at + CELLS_OF_A_PART] for at in range(0, len(given), CELLS_OF_A_PART)]
        for at, part in enumerate(parts, 1):
            await self.step([self.named(), Binding(PART, whole(at)), *part], STAGED)
        await self.step([self.named(), Binding(TOTAL, whole(len(parts)))], VERIFIED)

    async def step(self, bindings: list[Binding], due: int) -> None:
        """Does a step of the download, after which the stage must have this outcome."""
        status, (outcome, rule, row) = await self.side.set_and_look(bindings, [OUTCOME, DETAIL, ROW])
        if status == 0 and outcome == due:
            return
        if outcome == REFUSED:
            raise Refused(f"rule {rule} at row {row}".encode())
        raise Refused(BETWEEN)
