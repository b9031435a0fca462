"""The file of volumes of a sheet to start from. It balances: the vehicles that reach an intersection from its
neighbours are as many as its movements have."""

from typing import Any

from .starting import KINDS, Wish

THROUGH, LEFT, SIDE, SIDE_LEFT = 600, 60, 150, 40
"""Vehicles an hour of each movement, to start from."""

STAYING, TURNING = 0.95, 0.2
"""The share of the main street's vehicles that drive on to the next intersection, and of a side street's straight
movement that turn right into the main street."""

ORDER = ("EB", "WB", "NB", "SB")

JOINS = {"NBL": "WB", "NBR": "EB", "NBT": "EB", "SBL": "EB", "SBR": "WB", "SBT": "WB"}
"""The direction in which vehicles of a side street drive on after a turn into the main street: those that go straight
on share their lane with a right turn."""


def place_of(name: str) -> tuple[int, bool, str]:
    """Returns the place of a movement in a list."""
    return ORDER.index(name[:2]), name[2:] != "T", name


def movements_of(asked: Wish, number: int) -> dict[str, int]:
    """Returns the movements of an intersection with their phases: at a T, right and left turns have one phase."""
    names = {name: phase for phase, name in KINDS[asked.intersections[number - 1][1]].movements.items()}
    if "NBL" in names and "NBT" not in names:
        names["NBR"] = names["NBL"]
    return dict(sorted(names.items(), key=lambda it: place_of(it[0])))


def of_side(names: dict[str, int], name: str) -> int:
    """Returns the vehicles of a movement of a side street."""
    if name.endswith("T"):
        return SIDE
    return SIDE_LEFT if f"{name[:2]}T" in names else SIDE // 2


def onward(asked: Wish, number: int, name: str) -> dict[str, Any]:
    """Returns where the vehicles of a movement drive on, and the share of those that do."""
    is_main = name in ("EBT", "WBT")
    way = name[:2] if is_main else JOINS.get(name, "")
    there = number + (1 if way == "EB" else -1)
    if not way or not 1 <= there <= len(asked.intersections):
        return {}
    share = STAYING if is_main else TURNING if name.endswith("T") else 1.0
    return {"to": f"{there} {way}"} | ({} if share == 1.0 else {"share": share})


def mains(asked: Wish, way: str) -> dict[int, int]:
    """Returns how many vehicles reach each intersection on the main street in a direction: the first has the usual
    number, and each next one those that the one before it sends."""
    count = len(asked.intersections)
    order = range(1, count + 1) if way == "EB" else range(count, 0, -1)
    found: dict[int, int] = {}
    arrive = float(THROUGH + LEFT)
    for number in order:
        found[number] = round(arrive)
        names = movements_of(asked, number)
        straight = found[number] - (LEFT if f"{way}L" in names else 0)
        joining = (name for name in names if JOINS.get(name) == way)
        arrive = STAYING * straight + sum(
            of_side(names, it) * (TURNING if it.endswith("T") else 1) for it in joining
        )
    return found


def movement(asked: Wish, number: int, name: str, main: dict[str, dict[int, int]]) -> dict[str, Any]:
    """Returns a movement of a file of volumes."""
    names = movements_of(asked, number)
    found: dict[str, Any] = {"name": name, "phase": names[name]}
    if name[:2] in main:
        whole = main[name[:2]][number]
        has_left = f"{name[:2]}L" in names
        found["volume"] = LEFT if name.endswith("L") else whole - LEFT * has_left
        found |= {} if name.endswith("L") else {"lanes": 2}
    else:
        found["volume"] = of_side(names, name)
    return found | onward(asked, number, name)


def volumes(asked: Wish) -> dict[str, Any]:
    """Returns the document of a file of volumes: every phase has vehicles, and the side streets have pedestrians."""
    main = {way: mains(asked, way) for way in ("EB", "WB")}
    cabinets = []
    for number in range(1, len(asked.intersections) + 1):
        names = movements_of(asked, number)
        crossing = next(it for it in (4, 3) if it in names.values())
        cabinets.append(
            {
                "number": number,
                "movements": [movement(asked, number, it, main) for it in names],
                "crossings": [{"phase": crossing, "persons": 10}],
            }
        )
    return {"title": asked.title, "cabinet": cabinets}
