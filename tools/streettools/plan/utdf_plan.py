"""Patterns of a UTDF file: splits, coordinated phases, and offsets by the point that they refer to."""

from typing import Any

from .utdf_node import Node
from .utdf_text import BLANK

PRETIMED, ACTUATED, SEMI_ACTUATED, COORDINATED = 0, 1, 2, 3
KINDS = {ACTUATED: "actuated", SEMI_ACTUATED: "semi-actuated"}
POINTS = {
    "begin of green": 0, "begin of walk": 0, "begin of yellow": 1, "begin of red": 2, "ts2 - 1st green": 3,
    "170 style": 4,
}  # fmt: skip
"""To what an offset refers: 0 the last reference phase to turn green (walk begins with green here), 1 the first to turn
yellow, 2 the first to turn red, 3 the first to turn green, 4 the first to yield."""
WHOLE = "a cabinet holds whole seconds here"


def pair_of(node: Node, drawn: list[str]) -> list[int]:
    """Returns the reference phases; where one is named, with the phase that faces it."""
    code = node.code("Reference Phase") or 0
    return facing([it for it in (divmod(code, 100) if code >= 100 else (code,)) if it in node.used], drawn)


def facing(pair: list[int], drawn: list[str]) -> list[int]:
    """Returns reference phases; where it is one, with the phase that faces it."""
    if len(pair) != 1 or len(drawn) < 2:
        return pair
    sides = [[part.split() for part in line.split("|")] for line in drawn]
    for one, other in zip(*sides, strict=True):
        for mine, theirs in ((one, other), (other, one)):
            if str(pair[0]) in mine and theirs != ["-"]:
                return sorted([pair[0], int(theirs[-1])])
    return pair


def starts(node: Node, drawn: list[str], splits: dict[int, int]) -> dict[int, int]:
    """Returns where in the cycle the slot of each phase begins, in seconds."""
    found = {}
    for line in drawn:
        at = 0
        for part in line.split("|"):
            for phase in map(int, (it for it in part.split() if it != "-")):
                found[phase] = at
                at += splits[phase]
    return found


def point_of(node: Node) -> int:
    """Returns the code of the point that the offset refers to."""
    entry = node.plan.get("Referenced To", {}).get("DATA", BLANK)
    if entry.lower() in POINTS:
        return POINTS[entry.lower()]
    found = node.code("Referenced To")
    if found is not None and found not in POINTS.values():
        known = "0 green, 1 yellow, 2 red, 3 first green, 4 yield"
        node.utdf.fault(entry, f"reference point {found} is not known: {known}")
    return found or 0


def offset(node: Node, drawn: list[str], splits: dict[int, int], pair: list[int], cycle: int) -> int:
    """Returns the offset of the start of green of the later coordinated phase, by the point that UTDF's offset refers
    to."""
    given, point = node.setting("Offset") or 0.0, point_of(node)
    begin = starts(node, drawn, splits)
    zero = max(begin[it] for it in pair)

    def behind(less: float, phase: int) -> float:
        return begin[phase] + splits[phase] - less

    clear = {it: (node.at("Yellow", it) or 0) + (node.at("AllRed", it) or 0) for it in pair}
    points = {
        0: float(zero), 1: min(behind(clear[it], it) for it in pair),
        2: min(behind(node.at("AllRed", it) or 0, it) for it in pair),
        3: float(min(begin[it] for it in pair)),
        4: min(behind(clear[it] + (node.at("DontWalk", it) or 0), it) for it in pair),
    }  # fmt: skip
    exact = (given + zero - points.get(point, zero)) % cycle
    if abs(exact - round(exact)) > 1e-9:
        node.note(f"the offset comes to {exact:g} s, and is taken as {round(exact)} s: {WHOLE}")
    return round(exact) % cycle


def splits_of(node: Node) -> dict[int, int]:
    """Returns the split of each phase: greatest green, yellow and all red together."""
    splits = {}
    for phase in node.used:
        total = sum(node.at(record, phase) or 0 for record in ("MaxGreen", "Yellow", "AllRed"))
        splits[phase] = round(total)
        if abs(total - splits[phase]) > 1e-9:
            node.note(f"the split of phase {phase}, {total:g} s, is taken as {splits[phase]} s: {WHOLE}")
    return splits


def left_out(node: Node, why: str) -> None:
    """Names a timing plan that isn't taken, with all that it says."""
    names = ("Cycle Length", "Reference Phase", "Offset")
    said = ((name, node.plan.get(name, {}).get("DATA", BLANK)) for name in names)
    listed = ", ".join(f"{name} {it}" for name, it in said if it)
    if listed:
        node.note(f"{why}: no pattern is made of its timing plan ({listed}, and the splits)")


def pattern(node: Node, drawn: list[str]) -> dict[str, Any] | None:
    """Returns pattern 1, None where the timing plan makes none. That of a semi-actuated intersection isn't in
    command."""
    cycle, pair, kind = node.setting("Cycle Length"), pair_of(node, drawn), node.code("Control Type")
    if kind is not None and kind not in (PRETIMED, *KINDS, COORDINATED):
        entry = node.plan["Control Type"]["DATA"]
        known = "0 pretimed, 1 actuated, 2 semi-actuated, 3 coordinated"
        node.utdf.fault(entry, f"control type {kind} is not known: {known}")
    if kind == ACTUATED:
        left_out(node, "it is actuated and not coordinated (control type 1)")
        return None
    if not cycle or not pair:
        left_out(node, "no cycle" if not cycle else "no reference phase that has times")
        return None
    splits = splits_of(node)
    seconds = node.whole(cycle, "the cycle", "pattern 1")
    found = {
        "cycle": seconds,
        "splits": {str(phase): time for phase, time in splits.items()},
        "coordinated": pair,
    }
    return found | {"offset": offset(node, drawn, splits, pair, seconds)}


def is_free(node: Node) -> bool:
    """Tells whether the intersection runs free though it may have a pattern."""
    return node.code("Control Type") in KINDS


def plans(node: Node, drawn: list[str]) -> dict[str, dict[str, Any]]:
    """Returns the patterns of the older file TIMING, one for each plan, in the order of the file."""
    found: dict[str, dict[str, Any]] = {}
    for it in node.utdf.records("plans"):
        if it.get("INTID") != node.number:
            continue
        cycle, called = node.utdf.number(it.get("CL")), it.get("PLANID") or "?"
        if not cycle:
            node.note(f"plan {called} has no cycle, and is left out")
            continue
        row: dict[str, Any] = {"cycle": whole(node, cycle, f"the cycle of plan {called}")}
        given = node.utdf.number(it.get("OFF")) or 0
        row["offset"] = whole(node, given, f"the offset of plan {called}") % max(1, row["cycle"])
        times = {phase: node.utdf.number(it.get(f"S{phase}")) or 0 for phase in node.used}
        row["splits"] = {
            str(phase): whole(node, time, f"the split of phase {phase} in plan {called}")
            for phase, time in times.items()
        }
        reference = it.get("REF", BLANK)
        if reference.isdecimal() and len(reference) <= 4:
            code = int(reference)
            pair = [phase for phase in (divmod(code, 100) if code >= 100 else (code,)) if phase in node.used]
            row |= {"coordinated": facing(pair, drawn)} if pair else {}
        left = [name for name in ("LD", "REF", "CLR") if it.get(name) and not (name == "REF" and "coordinated" in row)]
        if left:
            node.note(f"plan {called}: not taken: " + ", ".join(f"{name} {it[name]}" for name in left))
        node.note(f"plan {called} is pattern {len(found) + 1}")
        found[str(len(found) + 1)] = row
    return found


def whole(node: Node, value: float, what: str) -> int:
    """Returns whole seconds; what isn't whole is rounded, and named."""
    if abs(value - round(value)) > 1e-9:
        node.note(f"{what}, {value:g} s, is taken as {round(value)} s: {WHOLE}")
    return round(value)
