"""Three cabinets of a street and software that shares nothing with this repository: pysnmp, in version 1, and behind
the front in version 2c."""

import itertools
import os

import pytest
from streettools.shared import oids

from .conftest import SECONDS, free_ports
from .test_agents import written

hlapi = pytest.importorskip("pysnmp.hlapi", reason="python3-pysnmp4 is missing")
EndOfMibView = pytest.importorskip("pysnmp.proto.rfc1905").EndOfMibView

ASC, OWN = oids.dotted(oids.ASC), oids.dotted(oids.OWN)
CONTROL, CLOCK = f"{ASC}.4.14.0", f"{OWN}.2.1.0"
BEGIN, ID, PART, TOTAL, FINISH, OUTCOME = (f"{OWN}.1.{arc}.0" for arc in range(2, 8))
VERSION, SPLIT, MINIMUM = f"{OWN}.1.10.0", f"{ASC}.4.9.1.3.1", f"{ASC}.1.2.1.4"
ACCEPTED, REFUSED = 4, 8
"""What the download stage answered last, by the MIB."""
END = EndOfMibView.tagSet
GREENS = [5, 10, 5, 10] * 2
"""The minimum greens of phases 1 to 8 of the standard tables, in seconds."""
THREE = {"version": 1, "rounds": 1, "ticks": 10, "cabinets": [{"clock": 100}, {"clock": 200}, {"base": "max8"}]}


class Software:
    """Management software for the cabinets of a street: `place` gives the address and port of one."""

    def __init__(self, place, version):
        self.place, self.engine = place, hlapi.SnmpEngine()
        self.community = hlapi.CommunityData("public", mpModel=version - 1)

    def asked(self, command, cabinet, *words, **options):
        """Returns the error with its index, and the rows of the answer: pairs of a name and a value."""
        way = hlapi.UdpTransportTarget(self.place(cabinet), timeout=SECONDS, retries=0)
        context = hlapi.ContextData()
        rows = list(command(self.engine, self.community, way, context, *words, lookupMib=False, **options))
        assert not any(fault for fault, _, _, _ in rows), rows
        _, error, index, _ = rows[0]
        found = [[(str(name), value) for name, value in bindings] for _, _, _, bindings in rows]
        return (int(error), int(index)), found

    def get(self, cabinet, *names):
        """Returns the numbers of objects; the error with its index where they aren't given."""
        error, ((*found,),) = self.asked(hlapi.getCmd, cabinet, *map(unknown, names))
        return error if any(error) else [int(value) for name, value in found]

    def set(self, cabinet, *pairs):
        """Sets numbers; returns the error with its index."""
        bindings = [hlapi.ObjectType(hlapi.ObjectIdentity(name), hlapi.Integer32(value)) for name, value in pairs]
        return self.asked(hlapi.setCmd, cabinet, *bindings)[0]

    def column(self, cabinet, name):
        """Returns the instances of a column, met by GetNext."""
        _, rows = self.asked(hlapi.nextCmd, cabinet, unknown(name), lexicographicMode=False)
        return [(found, int(value)) for ((found, value),) in rows]

    def bulk(self, cabinet, name, count):
        """Returns what one GetBulk with so many repetitions gives behind a name."""
        _, rows = self.asked(hlapi.bulkCmd, cabinet, 0, count, unknown(name), maxCalls=1)
        return [row[0] for row in rows]


def unknown(name):
    """Returns a name whose value is asked for."""
    return hlapi.ObjectType(hlapi.ObjectIdentity(name))


@pytest.fixture
def version1(street, tmp_path):
    """Software of version 1, and three cabinets whose time stands but for a tick after each message."""
    words = ("--ports", free_ports(3), "--speed", "step", "--ticks-per-message", 1)
    running = street("--scenario", written(tmp_path, THREE), *words)
    return Software(lambda cabinet: ("127.0.0.1", running.port + cabinet - 1), 1)


@pytest.fixture
def version2(street, tmp_path):
    """Software of version 2c, and three cabinets behind the front whose time stands."""
    words = ("--addresses", "127.0.1.1+", "--ports", 20_000 + os.getpid() % 9000, "--speed", "step",
             "--ticks-per-message", 0)  # fmt: skip
    running = street("--scenario", written(tmp_path, THREE), *words, "--as", "ntcip1202")
    return Software(lambda cabinet: (f"127.0.1.{cabinet}", running.port), 2)


def test_version_1_reads_each_cabinet_and_names_what_is_missing(version1):
    # a tick, which is 0.1 s, behind the first answer
    assert [version1.get(cabinet, CLOCK, VERSION) for cabinet in (1, 2)] == [[100, 0], [201, 0]]
    assert version1.get(3, CLOCK, "1.3.6.1.2.1.1.1.0") == (2, 2)


def test_version_1_walks_a_column_by_getnext(version1):
    found = version1.column(2, MINIMUM)
    assert [name for name, _ in found] == [f"{MINIMUM}.{phase}" for phase in range(1, 17)]
    assert [value for _, value in found][:8] == GREENS


def test_version_1_downloads_splits_to_one_cabinet_of_three(version1):
    # pattern 1: 15, 30, 15 and 30 s for each ring, in a cycle of 90 s
    first, second, fourth = f"{SPLIT}.1", f"{SPLIT}.5", f"{SPLIT}.4"
    assert version1.set(2, (BEGIN, 1)) == (0, 0)
    assert version1.set(2, (ID, 1), (PART, 1), (first, 20), (second, 20)) == (0, 0)
    # each ring comes to 95 s: genErr at the second binding
    assert version1.set(2, (ID, 1), (TOTAL, 1)) == (5, 2)
    assert version1.get(2, OUTCOME, VERSION, first) == [REFUSED, 0, 15]
    assert version1.set(2, (BEGIN, 2)) == (0, 0)
    better = [(f"{SPLIT}.{phase}", time) for phase, time in ((1, 20), (4, 25), (5, 20), (8, 25))]
    assert version1.set(2, (ID, 2), (PART, 1), *better) == (0, 0)
    assert version1.set(2, (ID, 2), (TOTAL, 1)) == (0, 0)
    assert version1.set(2, (ID, 2), (FINISH, 1)) == (0, 0)
    assert version1.get(2, OUTCOME, VERSION, first, fourth) == [ACCEPTED, 1, 20, 25]
    assert [version1.get(cabinet, VERSION, first) for cabinet in (1, 3)] == [[0, 15]] * 2


def test_version_1_is_told_which_value_of_a_set_is_bad(version1):
    assert version1.set(1, (CONTROL, 1), (CLOCK, 864_001)) == (3, 2)
    assert version1.get(1, CONTROL) == [0]
    assert version1.set(1, (MINIMUM + ".1", 7)) == (2, 1)


def test_version_2c_meets_a_column_by_getbulk(version2):
    found = version2.bulk(1, MINIMUM, 8)
    assert [(name, int(value)) for name, value in found] == [
        (f"{MINIMUM}.{phase}", green) for phase, green in zip(range(1, 9), GREENS)
    ]


def test_version_2c_walks_all_of_a_cabinet_by_getbulk_to_its_end(version2):
    _, rows = version2.asked(hlapi.bulkCmd, 3, 0, 40, unknown("1.3.6.1.4.1.32473"), lexicographicMode=True)
    names = [tuple(map(int, name.split("."))) for ((name, value),) in rows if value.tagSet != END]
    assert rows[-1][0][1].tagSet == END
    assert all(one < other for one, other in itertools.pairwise(names))
    assert {name[:8] for name in names} == {(1, 3, 6, 1, 4, 1, 32473, 1)}


def test_version_2c_sets_a_pattern_and_reads_it_back(version2):
    assert version2.set(2, (CONTROL, 1)) == (0, 0)
    assert [version2.get(cabinet, CONTROL) for cabinet in (1, 2, 3)] == [[0], [1], [0]]
    # a pattern that isn't defined is free operation, as controllers do it
    assert version2.set(2, (CONTROL, 48)) == (0, 0) and version2.get(2, CONTROL) == [254]
