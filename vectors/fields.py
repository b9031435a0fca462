"""The scenarios that field files come to, worked out apart from the program: what each vector of worked_fields.jsonl is
due.

A detector is read off lists by round: its pulses, when it is active, its edges; and then, by looking back over them,
when it has failed and when it calls. The rules of tables are left out. `python3 fields.py` works every vector out
again, and prints those that differ.
"""

import json
import sys

sys.dont_write_bytecode = True

from checking import listed, spelled  # noqa: E402
from first_fault import BYTE, MOST_BYTES, NOT_JSON, WHOLE, WORD, Fault  # noqa: E402
from first_fault import flag, listing, may, members, must, read, require, scenario, thing, whole  # noqa: E402

MOST_INPUTS, MOST_ENTRIES, DAY = 1_000_000, 1000, 864_000
PHASES = range(1, 17)


def inside(path, value):
    """Tests the scenario of a field file."""
    try:
        scenario(value)
    except Fault as fault:
        what, place = str(fault).split(" ", 1)
        raise Fault(what, path if place == "." else f"{path}.{place}") from None


def lists(rounds, cabinets):
    """Returns what tests the names behind the scenario, for so many rounds and cabinets."""
    at = {"cabinet": must(whole(1, cabinets)), "detector": must(whole(1, 64))}
    times = {
        name: must(test)
        for name, test in (
            ("delay", BYTE), ("extend", BYTE), ("no_activity", WORD), ("max_presence", WORD), ("erratic", BYTE)
        )
    }
    detector = thing({**at, "phase": must(whole(1, 16)), **times})
    pulse = thing({"round": must(whole(1, rounds)), **at, "on": must(flag)})
    step = thing({"up": must(whole(1, 1_000_000)), "down": must(whole(1, 1_000_000)), "pattern": must(BYTE)})
    section = thing({"section": must(whole(1, 8)), "base": must(BYTE), "steps": must(listing(0, 8, step))})
    respond = thing({"period": must(whole(1, 3600)), "sections": must(listing(1, 8, section))})
    return {
        "bank": may(listing(0, 512, detector)), "pulses": may(listing(0, 1_000_000, pulse)), "respond": may(respond)
    }


def named(value):
    """Tests the names of a field file and what stands there."""

    def rest(_, it):
        members(WHOLE, it, lists(it["scenario"]["rounds"], len(it["scenario"]["cabinets"])))

    thing(
        {"scenario": must(inside), **{name: may(lambda *_: None) for name in ("bank", "pulses", "respond")}}, after=rest
    )(WHOLE, value)


def where(it):
    """Returns which detector a detector of the bank or a pulse is."""
    return it["cabinet"], it["detector"]


def across(value):
    """Tests what lies across the lists."""
    bank = [where(it) for it in value.get("bank", [])]
    for place, it in enumerate(bank):
        require(it not in bank[:place], "field", f"bank[{place}]")
    for place, it in enumerate(value.get("pulses", [])):
        require(where(it) in set(bank), "field", f"pulses[{place}]")
    if "respond" in value:
        rules(value["respond"]["sections"])
        beside(value["scenario"], value["respond"]["period"])


def rules(sections):
    """Tests the rules of sections against one another, and the steps of each."""
    for place, it in enumerate(sections):
        require(
            it["section"] not in [other["section"] for other in sections[:place]], "field", f"respond.sections[{place}]"
        )
    for place, it in enumerate(sections):
        before = {"up": 0, "down": 0}
        for number, step in enumerate(it["steps"]):
            holds = step["down"] <= step["up"] and step["up"] > before["up"] and step["down"] > before["down"]
            require(holds, "limit", f"respond.sections[{place}].steps[{number}]")
            before = step


def beside(inner, period):
    """Tests a scenario beside the rules."""
    master = inner.get("master", {})
    require(not master.get("schedule"), "field", "scenario.master.schedule")
    require(master.get("clock", 0) % 10 == 0 and period * inner["ticks"] % 10 == 0, "limit", "respond.period")
    require(inner["rounds"] * inner["ticks"] <= DAY, "limit", "scenario.rounds")


def watched(detector, pulses, rounds):
    """Returns for each round, from 0 on, whether a detector calls, and its edges that count."""
    said = [[] for _ in range(rounds + 1)]
    for pulse in pulses:
        if where(pulse) == where(detector):
            said[pulse["round"]].append(pulse["on"])
    state, active, edges = False, [False], [0]
    for flags in said[1:]:
        before = [state, *flags]
        state = before[-1]
        edges.append(sum(new and not old for old, new in zip(before, flags)))
        active.append(state or any(flags))
    failed = [j > 0 and has_failed(detector, said, active, edges, j) for j in range(rounds + 1)]
    past = [j - detector["delay"] >= 1 and all(active[j - detector["delay"] : j + 1]) for j in range(rounds + 1)]
    calls = [failed[j] or any(past[max(0, j - detector["extend"]) : j + 1]) for j in range(rounds + 1)]
    return calls, [0 if failed[j] else edges[j] for j in range(rounds + 1)]


def has_failed(detector, said, active, edges, j):
    """Tells whether one of the three diagnostics finds that a detector has failed in round j."""
    quiet, present, most = (detector[name] for name in ("no_activity", "max_presence", "erratic"))
    return (
        (0 < quiet <= j and not any(said[j - quiet + 1 : j + 1]))
        or (0 < present <= j and all(active[j - present + 1 : j + 1]))
        or 0 < most < sum(edges[max(1, j - 59) : j + 1])
    )


def calls_of(bank, seen, rounds):
    """Returns the changes of the calls, as inputs."""
    calling = {}
    for detector, (calls, _) in zip(bank, seen):
        calling.setdefault((detector["cabinet"], detector["phase"]), []).append(calls)
    called = {phase: [any(now) for now in zip(*of_phase)] for phase, of_phase in calling.items()}
    return [
        {"round": j, "cabinet": cabinet, "veh": phase, "on": now[j]}
        for j in range(1, rounds + 1)
        for (cabinet, phase), now in sorted(called.items())
        if now[j] != now[j - 1]
    ]


def level(steps, now, volume):
    """Returns the level of a section after one, by the volume of a period; step i leads to level i."""
    reached = [i for i in range(1, len(steps) + 1) if steps[i - 1]["up"] <= volume]
    if reached and max(reached) > now:
        return max(reached)
    if now > 0 and volume < steps[now - 1]["down"]:
        return max([i for i in range(1, now) if steps[i - 1]["down"] <= volume], default=0)
    return now


def patterns(rule, volumes):
    """Returns the pattern of a section in the first round and after each full period."""
    levels = [0]
    for volume in volumes:
        levels.append(level(rule["steps"], levels[-1], volume))
    return [rule["steps"][it - 1]["pattern"] if it else rule["base"] for it in levels]


def schedule(inner, respond, bank, seen):
    """Returns the entries of the master's schedule that the traffic comes to."""
    rounds, period = inner["rounds"], respond["period"]
    starts = [1, *range(period + 1, rounds + 1, period)]
    entries = []
    for place, rule in enumerate(respond["sections"]):
        own = [c for c, it in enumerate(inner["cabinets"], 1) if it.get("section", 1) == rule["section"]]
        counted = [edges for detector, (_, edges) in zip(bank, seen) if detector["cabinet"] in own]
        volumes = [sum(sum(edges[start - period : start]) for edges in counted) for start in starts[1:]]
        found = patterns(rule, volumes)
        changes = [k for k in range(len(starts)) if k == 0 or found[k] != found[k - 1]]
        entries += [(starts[k], place, {"section": rule["section"], "pattern": found[k]}) for k in changes]
    clock = inner.get("master", {}).get("clock", 0)
    return [
        {"second": (clock + (j - 1) * inner["ticks"]) % DAY // 10, **it}
        for j, _, it in sorted(entries, key=lambda entry: entry[:2])
    ]


def result(value):
    """Returns the scenario that a field file comes to, and its compact text with a newline."""
    inner, bank = dict(value["scenario"]), value.get("bank", [])
    seen = [watched(detector, value.get("pulses", []), inner["rounds"]) for detector in bank]
    inner["inputs"] = inner.get("inputs", []) + calls_of(bank, seen, inner["rounds"])
    if "respond" in value:
        inner["master"] = {**inner.get("master", {}), "schedule": schedule(inner, value["respond"], bank, seen)}
    text = json.dumps(inner, sort_keys=True, separators=(",", ":"), ensure_ascii=False) + "\n"
    require(len(inner["inputs"]) <= MOST_INPUTS, "limit", "pulses")
    require("respond" not in value or len(inner["master"]["schedule"]) <= MOST_ENTRIES, "limit", "respond")
    require(len(text.encode()) <= MOST_BYTES, "limit", "scenario")
    return text


def answer(data):
    """Returns what some bytes are due: the line that refuses them, or None; then what is written."""
    if len(data) > MOST_BYTES:
        return "scenario: limit .", None
    for value in read(data):
        try:
            named(value)
            across(value)
            return None, result(value)
        except Fault as fault:
            return f"scenario: {fault}", None
    return f"scenario: {NOT_JSON}", None


def main():
    different = 0
    vectors = [it for _, it in listed("worked_fields.jsonl") if "breaks rule" not in it.get("line", "")]
    for vector in vectors:
        written = spelled(vector["written"]).decode("latin-1") if "written" in vector else None
        if answer(spelled(vector["text"])) != (vector.get("line"), written):
            different += 1
            print("differs:", vector["name"])
    print(len(vectors) - different, "agree,", different, "differ")
    return different > 0


if __name__ == "__main__":
    sys.exit(main())
