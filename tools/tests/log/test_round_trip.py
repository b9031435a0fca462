"""There and back: what `look events` writes of a trace, `log read` reads as the same indications."""

import json

import pytest

from .conftest import TOP, shown

SCENARIOS = sorted(
    it.name for it in (TOP / "scenarios").glob("*.json") if json.loads(it.read_text()).get("cabinets") is not None
)


def test_all_scenarios_are_there():
    assert len(SCENARIOS) >= 12


@pytest.mark.parametrize("name", SCENARIOS)
def test_a_scenario_is_read_as_it_was_shown(log, trace_of, events_of, tmp_path, name):
    trace = trace_of(name)
    parts = tmp_path / "day.indications"
    log("read", events_of(trace), "--sheet", TOP / "scenarios" / name, "-o", parts)
    cabinets = len(json.loads((TOP / "scenarios" / name).read_text())["cabinets"])
    for cabinet in range(1, cabinets + 1):
        there, back = shown(trace, cabinet), shown(parts, cabinet)
        assert len(there) >= 2 and back[1:] == there[1:], name
