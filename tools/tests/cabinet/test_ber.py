"""The reader and writer of BER, next to those of pyasn1 and pysnmp, on random and on damaged octets."""

import pytest
from streettools.shared import ber, snmp

hypothesis = pytest.importorskip("hypothesis")
decoder = pytest.importorskip("pyasn1.codec.ber.decoder")
pytest.importorskip("pysnmp")
from hypothesis import HealthCheck, given, seed, settings  # noqa: E402
from hypothesis import strategies as st  # noqa: E402
from pyasn1.codec.ber import encoder  # noqa: E402
from pyasn1.error import PyAsn1Error  # noqa: E402
from pyasn1.type import univ  # noqa: E402
from pysnmp.proto import api  # noqa: E402
from pysnmp.proto.error import ProtocolError  # noqa: E402

MANY = settings(max_examples=1000, deadline=None, database=None, suppress_health_check=list(HealthCheck))
NUMBERS = st.integers(-(1 << 31), (1 << 31) - 1)
NAMES = st.builds(
    lambda first, rest: (*first, *rest),
    st.sampled_from([(0, 5), (1, 3), (1, 39), (2, 39), (2, 999)]),
    st.lists(st.integers(0, (1 << 32) - 1), max_size=30).map(tuple),
)
VALUES = st.one_of(
    NUMBERS.map(lambda it: ber.Field(ber.INTEGER, ber.number_content(it))),
    st.binary(max_size=300).map(lambda it: ber.Field(ber.OCTETS, it)),
    NAMES.map(lambda it: ber.Field(ber.NAME, ber.name_content(it))),
    st.just(ber.Field(ber.NULL, b"")),
    st.tuples(st.sampled_from([ber.COUNTER, ber.GAUGE, ber.TIME_TICKS]), st.integers(0, (1 << 32) - 1)).map(
        lambda it: ber.Field(it[0], ber.number_content(it[1]))
    ),
    st.binary(min_size=4, max_size=4).map(lambda it: ber.Field(ber.ADDRESS, it)),
)
BINDINGS = st.lists(st.builds(snmp.Binding, NAMES, VALUES), max_size=6)
MESSAGES = st.builds(
    snmp.Message, st.just(snmp.V2C), st.binary(max_size=20),
    st.sampled_from([snmp.GET, snmp.GET_NEXT, snmp.SET, snmp.RESPONSE]), NUMBERS, st.integers(0, 18),
    st.integers(0, 9), BINDINGS,
)  # fmt: skip
def plain(value):
    """Returns a value as Python has it."""
    if value.tag == ber.INTEGER:
        return ber.number_of(value.content)
    if value.tag in ber.UNSIGNED:
        return ber.unsigned_of(value.content, ber.UNSIGNED[value.tag])
    return ber.arcs_of(value.content) if value.tag == ber.NAME else value.content


def of_pysnmp(octets):
    """Returns what pysnmp reads: version, community, tag, number, status, index, names and values; None if nothing."""
    try:
        version = api.decodeMessageVersion(octets)
        module = api.protoModules[version]
        found, rest = decoder.decode(octets, asn1Spec=module.Message())
        if rest:
            return None
        pdu = module.apiMessage.getPDU(found)
        kind = pdu.tagSet[-1].tagId | 0xA0
        first, second = (int(pdu.getComponentByPosition(it)) for it in (1, 2))
        pairs = []
        for name, value in module.apiPDU.getVarBinds(pdu):
            pairs.append((tuple(name), next((read(value) for kinds, read in READ if isinstance(value, kinds)), b"")))
        community = bytes(module.apiMessage.getCommunity(found))
        return int(version), community, kind, int(pdu.getComponentByPosition(0)), first, second, pairs
    except (PyAsn1Error, ProtocolError, ValueError, KeyError, IndexError, TypeError, OverflowError, AttributeError):
        return None


READ = [(univ.Integer, int), (univ.ObjectIdentifier, tuple), (univ.OctetString, bytes)]


def is_of_pysnmp(found):
    """Tells whether pysnmp reads such a message: it takes a GetBulk apart otherwise, and refuses statuses and indexes
    that no agent sends, which are numbers here."""
    statuses = range(6) if found[0] == snmp.V1 else range(19)
    return found[2] != snmp.BULK and found[4] in statuses and found[5] >= 0


def own(octets):
    """Returns the same as this reader has it; None if it refuses."""
    try:
        found = snmp.message_of(octets)
    except ber.Malformed:
        return None
    pairs = [(it.arcs, plain(it.value)) for it in found.bindings]
    return *found[:6], pairs


@seed(58)
@MANY
@given(MESSAGES)
def test_what_is_written_is_read_the_same_by_both(message):
    octets = snmp.octets_of(message)
    assert snmp.message_of(octets) == message
    assert of_pysnmp(octets) == own(octets)


@seed(59)
@MANY
@given(MESSAGES, st.data())
def test_of_damaged_octets_both_read_the_same_or_this_one_refuses(message, data):
    octets = bytearray(snmp.octets_of(message))
    for _ in range(data.draw(st.integers(1, 3))):
        at = data.draw(st.integers(0, len(octets) - 1))
        how = data.draw(st.sampled_from(["flip", "cut", "drop", "add"]))
        if how == "flip":
            octets[at] ^= 1 << data.draw(st.integers(0, 7))
        elif how == "cut":
            del octets[max(at, 1) :]
        elif how == "drop" and len(octets) > 1:
            del octets[at]
        else:
            octets.insert(at, data.draw(st.integers(0, 255)))
    found = own(bytes(octets))
    assert found is None or not is_of_pysnmp(found) or of_pysnmp(bytes(octets)) == found


@seed(60)
@MANY
@given(st.binary(max_size=80))
def test_random_octets_raise_nothing_but_malformed(octets):
    found = own(octets)
    assert found is None or not is_of_pysnmp(found) or of_pysnmp(octets) == found


@seed(61)
@MANY
@given(st.integers(-(1 << 40), 1 << 40))
def test_numbers_are_those_of_pyasn1(value):
    octets = ber.integer(value)
    assert decoder.decode(octets) == (value, b"")
    if -(1 << 31) <= value < 1 << 31:
        assert ber.number_of(octets[2:]) == value
    else:
        with pytest.raises(ber.Malformed):
            ber.number_of(octets[2:])


@seed(62)
@MANY
@given(NAMES)
def test_names_are_those_of_pyasn1(arcs):
    assert ber.name_of(arcs) == encoder.encode(univ.ObjectIdentifier(arcs))
    assert ber.arcs_of(ber.name_content(arcs)) == arcs


@pytest.mark.parametrize("octets", [
    "0201", "020105", "30", "3080", "30800000", "30ff", "308500000000", "30820001", "1f0101", "0500 02",
    "028000",
])  # fmt: skip
def test_a_length_that_goes_over_the_end_or_has_no_end_is_refused(octets):
    if octets == "020105":
        assert ber.fields(bytes.fromhex(octets)) == [(2, b"\5")]
    else:
        with pytest.raises(ber.Malformed):
            ber.fields(bytes.fromhex(octets))


@pytest.mark.parametrize("content", ["", "0005", "ff80", "0080000000", "ffffffffff"])
def test_numbers_that_are_too_long_or_longer_than_they_need_are_refused(content):
    with pytest.raises(ber.Malformed):
        ber.number_of(bytes.fromhex(content))


@pytest.mark.parametrize("content", ["", "80", "2b80", "2b8001", "2bffffffffff7f", "2b" + "01" * 127])
def test_names_that_are_empty_cut_padded_or_too_long_are_refused(content):
    with pytest.raises(ber.Malformed):
        ber.arcs_of(bytes.fromhex(content))


@pytest.mark.parametrize("tag, content", [
    (ber.NULL, "00"), (ber.INTEGER, ""), (ber.COUNTER, "ff"), (ber.COUNTER, "0100000000"), (ber.GAUGE, "0001"),
    (ber.ADDRESS, "7f0001"), (0x45, "00"), (0x30, ""), (0x80, "00"), (0xA0, ""),
])  # fmt: skip
def test_a_value_whose_content_is_not_of_its_type_is_refused(tag, content):
    with pytest.raises(ber.Malformed):
        ber.checked(ber.Field(tag, bytes.fromhex(content)))
