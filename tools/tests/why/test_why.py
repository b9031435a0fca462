"""Reasons that were worked out by hand, from the examples of docs/TICK.md; and what is refused, in a line each."""

import json
import pathlib
import subprocess
import sys

import pytest

from .conftest import TOP

from model.calls import Caller  # noqa: E402
from model.commands import answer  # noqa: E402
from model.rings import Ending  # noqa: E402
from streettools import words as tools  # noqa: E402
from streettools.why import asked  # noqa: E402
from streettools.why.reasons import Kind  # noqa: E402
from streettools.why.sentences import CALLERS, ENDINGS, RULES  # noqa: E402

GAP = """{"version":1,"rounds":515,"ticks":1,"cabinets":[{}],
 "inputs":[{"round":61,"cabinet":1,"veh":4,"on":true},{"round":61,"cabinet":1,"veh":2,"on":true},
           {"round":431,"cabinet":1,"veh":2,"on":false}]}"""
"""The first example of docs/TICK.md: phase 2 has its gap and its maximum at tick 460."""

FORCE = """{"version":1,"rounds":960,"ticks":1,"cabinets":[{"pattern":1,"clock":840}],
 "inputs":[{"round":200,"cabinet":1,"veh":3,"on":true}]}"""
"""The second one: phase 3 is forced off at counter 405. The counter is the tick less 60."""

OMITTED = FORCE.replace('"clock":840}', '"clock":840,"cells":[["split",1,3,4,7]]}')
"""The same with phase 3 omitted by the split."""

HELD = FORCE.replace('"clock":840}', '"clock":840,"cells":[["unit",6,40]]}').replace(
    "}]}", '}],"priority":[{"round":210,"cabinet":1,"number":7,"class":1,"level":1,"phase":2,"arrival":50,'
    '"departure":300}]}',
)
"""The same with a priority request for phase 2 before its force point, and an extension limit of 4 s."""

EARLY = FORCE.replace(
    "}]}", '}],"priority":[{"round":462,"cabinet":1,"number":7,"class":1,"level":1,"phase":6,"arrival":50,'
    '"departure":300}]}',
)
"""The same with a request for phase 6 while phases 3 and 8 are green since tick 360."""

PREEMPT = """{"version":1,"rounds":300,"ticks":1,"cabinets":[{"cells":[["preempt",1,13,"0408"]]}],
 "inputs":[{"round":100,"cabinet":1,"preempt":1,"on":true},{"round":110,"cabinet":1,"veh":3,"on":true}]}"""
"""A preempt for phases 4 and 8, called at tick 100, while the main street is green since tick 60."""


@pytest.fixture
def why(capsys, tmp_path):
    """Returns the command within this process: its status, and what it writes on both outputs."""

    def asked(given, *words):
        trace = tmp_path / "given.trace"
        trace.write_bytes(given if isinstance(given, bytes) else answer(["run"], given.encode()).output)
        try:
            status = tools.run(["why", str(trace), *map(str, words)])
        except SystemExit as end:
            status = end.code
        return status, *capsys.readouterr()

    return asked


@pytest.fixture
def told(why):
    """Returns the answer as a value, of a trace of one cabinet."""

    def asked(given, phase, tick):
        status, out, said = why(given, "--phase", phase, "--at", f"{tick}t", "--json")
        assert (status, said) == (0, "")
        return json.loads(out)

    return asked


def deciding(value):
    """Returns the reason that decides: its kind, its phases, whether they are of the other ring; and until when."""
    first = value["reasons"][0]
    return first["kind"], first["phases"], first["other_ring"], value["until"]


def test_a_call_waits_for_the_minimum_green_then_for_gap_or_maximum_then_for_the_clearance(told):
    at = {tick: told(GAP, 4, tick) for tick in (61, 100, 160, 459, 460, 514)}
    assert deciding(at[61]) == deciding(at[100]) == ("minimum green", [2], False, 160)
    assert deciding(at[160]) == deciding(at[459]) == ("neither gap nor maximum", [2], False, 460)
    assert deciding(at[460]) == deciding(at[514]) == ("clearance", [2], False, 515)
    for value in at.values():
        assert value["call"] == {"since": 61, "by": ["detector", "locked call"]}
        assert (value["came"], value["waited"], value["shows"]) == (515, 454, "red")


def test_a_green_that_has_had_its_gap_waits_for_the_other_ring_at_the_barrier(told):
    value = told(GAP, 6, 300)
    assert value["is_green"] and deciding(value) == ("neither gap nor maximum", [2], True, 460)
    assert (value["since"], value["came"], value["ended"], value["ending"]) == (60, 60, 460, "gap")


def test_a_phase_that_nobody_calls_comes_by_dual_entry(told):
    assert deciding(told(GAP, 8, 300)) == ("not called", [], False, 515)
    value = told(GAP, 8, 515)
    assert (value["reasons"][0]["kind"], value["how"], value["call"]) == ("turns green", "dual entry", None)
    assert deciding(told(GAP, 3, 300)) == ("not called", [], False, None)


def test_coordinated_phases_rest_until_the_window_ends_at_counter_245(told):
    value = told(FORCE, 3, 250)
    assert deciding(value) == ("coordinated rest", [2, 6], False, 305)
    assert (value["reasons"][0]["ticks"], value["call"]["since"], value["came"], value["waited"]) == (55, 200, 360, 160)


def test_a_priority_request_holds_the_coordinated_phases_past_their_force_point(told):
    """Force point 245 at tick 305, and 40 ticks more: 285 + 55 + 50 is at most 405, so phase 3 still has room."""
    at = {tick: told(HELD, 2, tick) for tick in (304, 305, 344)}
    assert deciding(at[304]) == ("held until its force point", [2], False, 305)
    assert deciding(at[305]) == deciding(at[344]) == ("held by a priority request", [2, 6], False, 345)
    words = "priority request 7 holds phases 2 and 6 past their force point, at most 4 s (extension limit)"
    assert (at[305]["reasons"][0]["words"], at[305]["reasons"][0]["rule"]) == (words, "docs/TICK.md#reason")
    assert (at[305]["ended"], at[305]["ending"]) == (345, "force point")
    waits = told(HELD, 3, 320)
    assert deciding(waits) == ("held by a priority request", [2, 6], False, 345) and waits["came"] == 345 + 55


def test_a_priority_request_ends_the_green_of_another_phase(told):
    """Without it phase 3 is forced off at tick 465. Phase 8, next to it, has its minimum green of 10 s until tick 460.
    The request of round 462 comes before tick 462."""
    value = told(EARLY, 3, 462)
    assert (value["since"], value["reasons"][0]["kind"], value["reasons"][0]["number"]) == (462, "turns yellow", 7)
    assert value["reasons"][0]["words"].startswith("it turns yellow at this tick: priority request 7 ends greens")
    assert value["shows"] == "yellow change"


def test_a_call_has_no_room_before_its_force_point_until_the_cycle_is_over(told):
    value = told(FORCE, 3, 600)
    assert deciding(value) == ("no room", [], False, 960)
    # counter 540, minimum service 50, force point 405
    assert (value["counter"], value["force_point"], value["reasons"][0]["ticks"]) == (540, 405, 540 + 50 - 405)
    assert value["call"]["since"] == 466 and (value["ended"], value["ending"]) == (465, "force-off")


def test_a_phase_that_the_split_omits_is_said_to_be_omitted(told):
    value = told(OMITTED, 3, 400)
    assert deciding(value) == ("omitted", [], False, None) and value["came"] is None


def test_in_a_preempt_only_its_phases_come(told):
    value = told(PREEMPT, 3, 200)
    assert deciding(value)[:2] == ("preempt", [4, 8]) and value["reasons"][0]["number"] == 1
    # minimum green of the preempt is 0, so one tick: yellow change at once, then red clearance
    value = told(PREEMPT, 4, 120)
    assert deciding(value) == ("clearance", [2], False, 155)
    assert value["reasons"][-1]["words"] == "preempt 1 is in its entry: only phases 4 and 8 may turn green"
    value = told(PREEMPT, 4, 155)
    assert (value["came"], value["how"]) == (155, "preempt")


def test_start_up_and_phases_that_are_not_enabled_are_named(told):
    assert deciding(told(GAP, 4, 30)) == ("start-up", [], False, 61)
    assert deciding(told(GAP, 9, 300)) == ("not enabled", [], False, None)


def test_the_answer_in_words_has_names_and_times_of_day(why, tmp_path):
    (tmp_path / "given.names.json").write_text(
        '{"intersections":[{"name":"Oak & 3rd","phases":{"2":{"name":"Oak St"},"4":{"name":"3rd Ave"}}}]}')
    words = ("--cabinet", "oak & 3RD", "--phase", 4, "--at", "07:00:10", "--start", "07:00")
    status, out, said = why(GAP, *words)
    assert (status, said) == (0, "")
    assert out.splitlines()[:4] == [
        "Oak & 3rd (cabinet 1), phase 4 (3rd Ave), 07:00:10 (tick 100): red since 07:00:00",
        "why: phase 2 (Oak St) has its minimum green, until 07:00:16 (tick 160) [docs/TICK.md#served]",
        "called: since 07:00:06.1 (tick 61) by a vehicle on its detector",
        "came: green from 07:00:51.5 (tick 515), after a wait of 45.4 s",
    ]
    assert why(GAP, *words, "-o", tmp_path / "said")[:2] == (0, "") and (tmp_path / "said").read_text() == out


def test_a_trace_on_standard_input_is_read(tmp_path):
    ran = subprocess.run(
        [sys.executable, "-B", TOP / "tools/streettools", "why", "-", "--phase", "4", "--at", "10"],
        input=answer(["run"], GAP.encode()).output, capture_output=True,
    )  # fmt: skip
    assert (ran.returncode, ran.stderr) == (0, b"")
    assert ran.stdout.startswith(b"Cabinet 1, phase 4, 0:10 (tick 100): red since 0:00")


@pytest.mark.parametrize(
    ("words", "line"),
    [
        (["--cabinet", "2", "--phase", "4", "--at", "10"], "the trace has no cabinet 2: its cabinets are 1 to 1"),
        (["--cabinet", "Oak", "--phase", "4", "--at", "10"],
         "no name is known here, so not 'Oak' either: a timing sheet or a names file gives names"),
        (["--phase", "4", "--at", "52"], "52 is not in the trace, which has ticks 1 to 515: 00:00:00.1 to 00:00:51.5"),
        (["--phase", "4", "--at", "07:13"],
         "07:13 is not in the trace, which has ticks 1 to 515: 00:00:00.1 to 00:00:51.5"),
        (["--phase", "4", "--at", "0"], "0 is not in the trace, which has ticks 1 to 515: 00:00:00.1 to 00:00:51.5"),
    ],
)  # fmt: skip
def test_what_the_trace_does_not_have_is_refused_in_one_line(why, words, line):
    assert why(GAP, *words) == (2, "", f"why: {line}\n")


@pytest.mark.parametrize("words", [["--phase", "17", "--at", "10"], ["--phase", "4", "--at", "noon"], ["--at", "10"]])
def test_words_that_say_nothing_are_refused(why, words):
    status, out, said = why(GAP, *words)
    assert (status, out) == (2, "") and said.count("\n") == 1 and said.startswith("why: ")


def damaged(place, old, new):
    """Returns the trace of the first example with one damage at a line."""
    lines = answer(["run"], GAP.encode()).output.split(b"\n")
    assert old in lines[place]
    lines[place] = lines[place].replace(old, new)
    return b"\n".join(lines)


@pytest.mark.parametrize(
    ("text", "line"),
    [
        (b"", "its first line has no scenario"),
        (b"hello\n", "its first line has no scenario"),
        (b"S {}\nZ 1\n", "its first line has no valid scenario (field version)"),
        (damaged(-2, b"Z 515", b"Z 51"), "it has no line Z 515 at its end"),
        (damaged(122, b"F 1 60 RGRR", b"F 1 60 RGGR"), "line 123 differs from the model; `arterial check` has more"),
        (damaged(122, b"F 1 60 RGRRRG", b"F 1 60 GRRX"), "line 123 is not a frame line; `arterial check` has more"),
        (damaged(3, b"4*1", b"4*2"), "line 4 is not a journal of its round; `arterial check` has more"),
        (damaged(3, b"J 1 ", b"K 1 "), "round 1 has no J line of cabinet 1"),
    ],
    ids=range(8),
)  # fmt: skip
def test_a_text_that_is_not_a_trace_is_refused_in_one_line(why, tmp_path, text, line):
    status, out, said = why(text, "--phase", "4", "--at", "300t")
    assert (status, out) == (2, "")
    assert said == f"why: {tmp_path / 'given.trace'}: not a trace: {line}\n"


def test_a_file_that_is_not_there_is_named(why, capsys):
    assert tools.run(["why", "/nowhere", "--phase", "4", "--at", "10"]) == 1
    assert capsys.readouterr().err == "why: /nowhere: No such file or directory\n"


def test_each_reason_has_words_a_rule_and_a_row_of_the_page():
    rules, page = ((TOP / "docs" / name).read_text() for name in ("TICK.md", "WHY.md"))
    for kind in set(Kind) - {Kind.UNKNOWN}:
        assert f'<a id="{RULES[kind]}"></a>' in rules or RULES[kind] == "words-and-counts", kind
        assert f"`{kind.value}`" in page and f"TICK.md#{RULES[kind]})" in page, kind
    assert set(CALLERS) == set(Caller) and {it.value for it in Ending} <= set(ENDINGS)


def test_the_command_is_one_of_the_tools():
    assert "why" in [it.name for it in tools.tools()] and pathlib.Path(TOP, "docs/WHY.md").is_file()


def test_seconds_that_look_like_hours_and_minutes_are_named():
    """713 is 11 minutes 53 seconds of the run, not 07:13; 799 can't be a time of day."""
    said = "713 is taken as seconds of the run; a time of day is written 07:13"
    assert asked.doubt(asked.moment("713")) == said
    assert [asked.doubt(asked.moment(it)) for it in ("799", "07:13", "52", "7130t")] == [None] * 4
