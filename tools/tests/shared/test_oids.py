"""The table of object identifiers: those of the profile by its MIB, those of the standards by their own numbers."""

import pytest
from streettools.shared import oids
from streettools.shared.cells import kinds
from streettools.street.panel.names import named

BY_MIB = {
    "systemPatternControl.0": oids.CONTROL, "coordPatternStatus.0": oids.STATUS,
    "coordCorrectionMode.0": oids.CORRECTION,
    "cabinetClock.0": oids.CLOCK, "cycleCounter.0": oids.COUNTER_OF_CYCLE, "cycleTarget.0": oids.TARGET,
    "cabinetMode.0": oids.MODE, "downloadBegin.0": oids.BEGIN, "downloadId.0": oids.ID, "downloadPart.0": oids.PART,
    "downloadTotal.0": oids.TOTAL, "downloadFinish.0": oids.FINISH, "downloadOutcome.0": oids.OUTCOME,
    "downloadOutcomeDetail.0": oids.DETAIL, "downloadOutcomeRow.0": oids.ROW, "tablesVersion.0": oids.VERSION,
    "priorityRequest.0": oids.REQUEST, "priorityCancel.0": oids.CANCEL, "priorityRequestStates": oids.REQUEST_STATES,
    "phaseEntry": oids.ENTRIES["phase"], "patternEntry": oids.ENTRIES["pattern"], "splitEntry": oids.ENTRIES["split"],
    "preemptEntry": oids.ENTRIES["preempt"], "sequenceEntry": oids.SEQUENCE_ENTRY, "sequenceData": oids.SEQUENCE_DATA,
    "phaseStatusGroupEntry": oids.STATUS_GROUP, "phaseMinimumGreen.7": oids.object_of(("phase", 7, 4)),
    "splitTime.3.8": oids.object_of(("split", 3, 8, 3)), "sequenceData.16.2": oids.object_of(("sequence", 16, 2)),
    "preemptDwellGreen.2": oids.object_of(("preempt", 2, 10)),
}  # fmt: skip


@pytest.mark.parametrize("name", BY_MIB)
def test_the_objects_of_the_profile_have_the_names_of_its_mib(name):
    assert named(BY_MIB[name]) == name


@pytest.mark.parametrize(
    ("arcs", "name"),
    [
        ((1, 3, 6, 1, 2, 1, 1, 5, 0), "sysName.0"),
        (oids.TRANSACTION, "dbCreateTransaction.0"),
        ((*oids.PREEMPT_STATE, 4), "preemptControlState.4"),
        ((*oids.ASC, 3, 9, 0), "shortAlarmStatus.0"),
    ],
)
def test_an_object_of_the_front_has_its_name_in_words(arcs, name):
    """By RFC 3418, NTCIP 1201 and 1202."""
    assert named(arcs) == name


def test_the_objects_of_standards_have_their_numbers():
    """RFC 3418: system is mib-2 1. NTCIP 8004: the devices of NEMA are enterprise 1206; global is nema 4.2.6 (NTCIP
    1201), asc nema 4.2.1 (NTCIP 1202). globalTime is globalTimeManagement 1, dbCreateTransaction is
    globalDBManagement 1."""
    found = map(oids.dotted, (oids.SYSTEM, oids.GLOBAL, oids.ASC, oids.GLOBAL_TIME, oids.TRANSACTION))
    assert list(found) == [
        "1.3.6.1.2.1.1", "1.3.6.1.4.1.1206.4.2.6", "1.3.6.1.4.1.1206.4.2.1", "1.3.6.1.4.1.1206.4.2.6.3.1.0",
        "1.3.6.1.4.1.1206.4.2.6.2.1.0",
    ]  # fmt: skip


def test_each_cell_has_an_object_of_its_own_with_a_name_of_the_mib():
    found = {oids.object_of(cell) for cell in kinds()}
    assert len(found) == len(kinds()) and all(named(it)[0].isalpha() for it in found)
