"""Tables, plans and how greens end, against numbers worked out by hand."""

from streettools.look.coordination import bands, common
from streettools.shared.cabinet import Clock
from streettools.shared.plans import plan
from streettools.shared.tables import Tables
from streettools.shared.trace_reader import TraceReader

from .conftest import VECTORS


def test_the_standard_pattern_has_the_known_force_points():
    found = plan(Tables(), 1)
    assert (found.cycle, found.offset, found.coordinated, found.window, found.shift) == (900, 0, (2, 6), 245, 0)
    assert found.force == {1: 855, 2: 245, 3: 405, 4: 695, 5: 855, 6: 245, 7: 405, 8: 695}
    assert plan(Tables(cells=[["pattern", 1, 2, 0]]), 1) is None


def test_cells_are_put_in_order():
    tables = Tables("max8", [["phase", 4, 23, "0708"], ["unit", 1, 3], ["unit", 1, 4], ["sequence", 2, 1, "04030201"]])
    assert tables.unit(1) == 4 and tables.sequence(2, 1) == (4, 3, 2, 1) and tables.option(3, 128)
    assert tables.side(1) == {1, 2, 5, 6} and tables.side(8) == {3, 4, 7, 8}


def test_a_clock_drifts_and_passes_midnight():
    gains, loses = Clock({"clock": 863_990, "gain": 12_000}), Clock({"lose": 12_000})
    assert [gains.at(tick) for tick in (9, 10, 11_999, 12_000)] == [863_999, 0, 11_989, 11_991]
    assert [loses.at(tick) for tick in (11_999, 12_000, 12_001)] == [11_999, 11_999, 12_000]
    assert not gains.named(0, 10) and gains.named(500, 10) and gains.at(11) == 501


def test_bands_are_what_all_greens_have_in_common():
    assert common([(0, 10), (20, 30)], [(5, 25)]) == [(5, 10), (20, 25)]
    assert bands([[(0, 245)], [(100, 345)]], [0, 100]) == [(0, 245)]
    assert bands([[(100, 345)], [(0, 245)]], [100, 0]) == [(0, 245)]
    assert bands([[(0, 245), (900, 1145)], [(100, 345), (1000, 1245)]], [100, 0]) == [(100, 145), (1000, 1045)]


def test_a_scenario_keeps_no_inputs_in_memory_twice():
    with VECTORS[1].open("rb") as stream:
        reader = TraceReader(stream)
    kept = [len(it) for by_cabinet in reader.inputs.values() for it in by_cabinet.values()]
    assert "inputs" not in reader.scenario and sum(kept) == 301


def test_a_disabled_phase_in_two_lists_does_not_join_their_sides():
    """Disabled phases in a list of concurrent phases are passed over (docs/SCENARIO.md, the rules of tables)."""
    cells = [["phase", 7, 21, 0], ["phase", 1, 23, "050607"], ["phase", 3, 23, "0708"]]
    assert Tables("std8", cells).side(1) == {1, 2, 5, 6}
