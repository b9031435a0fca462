"""Cells that are set outside a transaction, and patterns that aren't defined: what centrals meet on real
controllers."""

from streettools.shared import ber, oids, snmp
from streettools.shared.ber import number_of

from .test_transactions import (
    ALONE, FAR, FIRST, GEN_ERR, INCONSISTENT, NO_CREATION, NORMAL, ONE, TWO, WRONG_TYPE, WRONG_VALUE, talk,
)  # fmt: skip

MINIMUM = (*oids.ENTRIES["phase"], 4)
SPLIT = (*oids.ENTRIES["split"], 3, 1)
FREE_STATUS = (*oids.ASC, 4, 11, 0)


def test_a_cell_outside_a_transaction_is_in_force_at_once_and_counted_as_a_download():
    async def talked(it):
        before = (await it.read(oids.VERSION))[0]
        assert await it.set(ONE, ((*MINIMUM, 2), 13)) == 0
        assert await it.set(TWO, ((*MINIMUM, 4), 9), ((*MINIMUM, 8), 9)) == 0
        await it.world.street.session.take(1)
        found = await it.read((*MINIMUM, 2), (*MINIMUM, 4), (*MINIMUM, 8), oids.VERSION, oids.TRANSACTION)
        assert found == [13, 9, 9, before + 2, NORMAL]

    talk(talked)


def test_version_1_sets_a_cell_too():
    async def talked(it):
        asked = snmp.octets_of(
            snmp.Message(snmp.V1, b"public", snmp.SET, 9, 0, 0, [snmp.Binding((*MINIMUM, 2), whole(14))])
        )
        reply = snmp.message_of(await it.world.fronts.datagram(1, asked, ONE))
        assert (reply.first, reply.second, [number_of(b.value.content) for b in reply.bindings]) == (0, 0, [14])
        assert await it.read((*MINIMUM, 2)) == [14]

    talk(talked)


def whole(value):
    """Returns an INTEGER."""
    return ber.Field(ber.INTEGER, ber.number_content(value))


def test_cells_that_would_break_a_rule_are_refused_and_nothing_changes():
    """Rule 17: the splits of a ring total its cycle. Pattern 1 of the standard table has 90 s: 15 + 30 + 15 + 30."""
    async def talked(it):
        assert await it.set(ONE, ((*SPLIT, 1), 16)) == INCONSISTENT
        assert await it.read((*SPLIT, 1), oids.VERIFY_ERROR) == [15, b"rule 17 at row 1"]
        # all cells of a message are one download: 16 + 29 and 16 + 29 total 90 s with the others
        pairs = [((*SPLIT, phase), time) for phase, time in ((1, 16), (2, 29), (5, 16), (6, 29))]
        assert [await it.set(ONE, *pairs), *await it.read((*SPLIT, 2))] == [0, 29]

    talk(talked)


def test_a_cell_that_cannot_be_set_so_is_refused_by_its_kind():
    """Options, rings, partners and orders of phases need a transaction; nothing else goes with cells in one message."""
    async def talked(it):
        assert await it.set(ONE, ((*MINIMUM, 2), 256)) == WRONG_VALUE
        assert await it.set(ONE, ((*MINIMUM, 17), 5)) == NO_CREATION
        assert await it.set(ONE, ((*oids.ENTRIES["phase"], 21, 2), 1)) == GEN_ERR
        assert await it.set(ONE, ((*oids.ENTRIES["phase"], 22, 2), 2)) == GEN_ERR
        assert await it.set(ONE, ((*MINIMUM, 2), 13), (oids.CONTROL, 1)) == GEN_ERR
        octets = snmp.Binding((*MINIMUM, 2), ber.Field(ber.OCTETS, b"9"))
        asked = snmp.octets_of(snmp.Message(snmp.V2C, b"public", snmp.SET, 7, 0, 0, [octets]))
        assert snmp.message_of(await it.world.fronts.datagram(1, asked, ONE)).first == WRONG_TYPE
        assert await it.read((*MINIMUM, 2), oids.CONTROL, oids.VERSION) == [10, 0, 0]

    talk(talked, ALONE | {"cabinets": [{}]})


def test_the_profiles_own_download_is_still_passed_on():
    async def talked(it):
        for pairs in (
            [(oids.BEGIN, 1)], [(oids.ID, 1), (oids.PART, 1), ((*MINIMUM, 2), 12)], [(oids.ID, 1), (oids.TOTAL, 1)],
            [(oids.ID, 1), (oids.FINISH, 1)],
        ):  # fmt: skip
            assert await it.set(ONE, *pairs) == 0
        assert await it.read((*MINIMUM, 2)) == [12]

    talk(talked)


def test_a_copy_of_a_set_of_a_cell_is_answered_as_its_first_and_makes_no_download():
    async def talked(it):
        assert [await it.set(ONE, (FIRST, 41), number=5000) for _ in range(3)] == [0, 0, 0]
        await it.world.street.session.take(1)
        assert await it.read(FIRST, oids.VERSION) == [41, 1]

    talk(talked)


def test_a_cell_of_a_manager_that_has_used_a_transaction_is_refused():
    """It may be a late one of that transaction. Another port of the address counts as the same manager."""
    async def talked(it):
        assert await it.gathered(ONE, 41) == [0, 0, 0] and await it.go_to(ONE, NORMAL) == 0
        assert [await it.set(who, ((*MINIMUM, 2), 13)) for who in (ONE, TWO)] == [INCONSISTENT, INCONSISTENT]
        assert [await it.set(FAR, ((*MINIMUM, 2), 13)), *await it.read((*MINIMUM, 2))] == [0, 13]

    talk(talked)


def test_a_cell_is_refused_while_verified_tables_wait():
    async def talked(it):
        assert await it.gathered(ONE, 41) == [0, 0, 0]
        assert await it.set(TWO, ((*MINIMUM, 2), 13)) == INCONSISTENT
        assert [await it.go_to(ONE, NORMAL), *await it.read(FIRST)] == [0, 41]

    talk(talked)


def test_a_pattern_that_is_not_defined_is_free_operation_with_its_reason():
    """Pattern 1 is defined, 9 isn't. localFreeStatus is 7, badPlan, until another command: 3 is commandFree."""
    async def talked(it):
        assert [await it.set(ONE, (oids.CONTROL, 1)), *await it.read(oids.CONTROL)] == [0, 1]
        assert [await it.set(ONE, (oids.CONTROL, 9)), *await it.read(oids.CONTROL, FREE_STATUS)] == [0, 254, 7]
        assert [await it.set(ONE, (oids.CONTROL, 254)), *await it.read(FREE_STATUS)] == [0, 3]
        assert [await it.set(ONE, (oids.CONTROL, 49)), *await it.read(oids.CONTROL)] == [INCONSISTENT, 254]
        assert await it.set(ONE, (oids.CONTROL, 300)) == WRONG_VALUE

    talk(talked)
