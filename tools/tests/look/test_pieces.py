"""A trace says the same however it is read: in pieces of any size, with or without the ends of its rounds."""

import io

import pytest
from streettools.shared import lines
from streettools.shared.trace_reader import TraceReader
from streettools.shared.trace_records import NotATrace, RoundEnd

from .conftest import SMALL, STREET, VECTORS

TRACES = [*VECTORS, STREET]


def happenings(octets, **more):
    """Returns what happens in a trace."""
    return [(type(it).__name__, *it) for it in TraceReader(io.BytesIO(octets)).happenings(**more)]


@pytest.mark.parametrize("path", TRACES)
def test_a_trace_says_the_same_however_much_of_it_is_read_at_once(path, monkeypatch):
    octets = path.read_bytes()
    whole = happenings(octets)
    assert happenings(octets, ends=False) == [it for it in whole if it[0] != "RoundEnd"]
    for size in (1, 7, 1000):
        monkeypatch.setattr(lines, "AT_ONCE", size)
        assert happenings(octets) == whole


def test_a_line_of_more_bytes_than_a_trace_may_have_is_none(monkeypatch):
    octets = SMALL.encode()
    longest = len(octets.split(b"\n")[0]) + 1
    monkeypatch.setattr(lines, "AT_ONCE", 50)
    monkeypatch.setattr(lines, "LONGEST", longest)
    assert RoundEnd.__name__ in dict.fromkeys(it[0] for it in happenings(octets))
    monkeypatch.setattr(lines, "LONGEST", longest - 2)
    with pytest.raises(NotATrace) as told:
        happenings(octets)
    assert told.value.line == 1
    (first, *_) = lines.blocks(io.BytesIO(b"x" * 10 * longest))
    assert [len(it) for it in first] == [longest - 1]
