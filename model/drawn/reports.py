"""Drawn field files, streets for bands, overlaps, and words of the command line."""

from random import Random
from typing import Any

from model.drawn.scenarios import scenario


def bank(draw: Random, cabinets: int) -> list[dict[str, Any]]:
    """Draws the detectors of a bank."""
    places = [(cabinet, number) for cabinet in range(1, cabinets + 1) for number in range(1, 5)]
    return [
        {
            "cabinet": cabinet,
            "detector": number,
            "phase": draw.choice([1, 2, 3, 4, 16]),
            "delay": draw.choice([0, 0, 1, 3]),
            "extend": draw.choice([0, 0, 1, 4]),
            "no_activity": draw.choice([0, 0, 3, 20]),
            "max_presence": draw.choice([0, 0, 4, 15]),
            "erratic": draw.choice([0, 0, 1, 3]),
        }
        for cabinet, number in draw.sample(places, draw.randint(0, len(places)))
    ]


def rule(draw: Random, section: int) -> dict[str, Any]:
    """Draws how the pattern of a section follows the traffic."""
    ups = sorted(draw.sample(range(1, 12), draw.choice([0, 1, 2, 3])))
    downs, steps = 0, []
    for up in ups:
        downs = draw.randint(min(downs + 1, up), up)
        steps.append({"up": up, "down": downs, "pattern": draw.choice([0, 1, 2, 255])})
    return {"section": section, "base": draw.choice([0, 1, 254]), "steps": steps}


def field_file(draw: Random) -> dict[str, Any]:
    """Draws a field file."""
    inner = scenario(draw, most_ticks=120)
    inner["rounds"], inner["ticks"] = max(draw.choice([20, 40, 100]), inner["rounds"]), draw.choice([1, 10, 10, 5])
    detectors = bank(draw, len(inner["cabinets"]))
    told: dict[str, Any] = {"scenario": inner, "bank": detectors}
    if detectors:
        chosen = (draw.choice(detectors) for _ in range(draw.choice([0, 5, 40, 120])))
        told["pulses"] = [
            {
                "round": draw.randint(1, inner["rounds"]),
                "cabinet": it["cabinet"],
                "detector": it["detector"],
                "on": draw.random() < 0.55,
            }
            for it in chosen
        ]
    if draw.random() < 0.7:
        if "master" in inner and draw.random() < 0.9:
            inner["master"] = {**inner["master"], "schedule": [], "clock": draw.choice([0, 40, 863_900])}
        sections = draw.sample([1, 2, 8], draw.choice([1, 2, 3]))
        told["respond"] = {"period": draw.choice([1, 2, 5, 10, 30]), "sections": [rule(draw, it) for it in sections]}
    return told


def street(draw: Random) -> dict[str, Any]:
    """Draws what is asked of through bands."""
    inner = scenario(draw, most_ticks=20)
    number = draw.choice([1, 1, 1, 2, 48])
    if draw.random() < 0.6:
        for it in inner["cabinets"]:
            offset, reference = draw.randrange(90), draw.choice([1, 2])
            it["section"], it["cells"] = 1, [["pattern", 1, 3, offset], ["unit", 8, reference]]
        inner = {name: inner[name] for name in ("version", "rounds", "ticks", "cabinets")}
        number = 1
    own = sum(it.get("section", 1) == 1 for it in inner["cabinets"])
    travel = [
        draw.choice([0, 100, 200, 864_000, draw.randrange(900)])
        for _ in range(max(0, own - 1 + draw.choice([0, 0, 0, 0, 1])))
    ]
    return {"scenario": inner, "section": draw.choice([1, 1, 1, 1, 2]), "pattern": number, "travel": travel}


def overlap_words(draw: Random) -> list[str]:
    """Draws the words of an overlap."""
    parents = bytes(draw.sample(range(1, 9), draw.choice([1, 1, 2, 3])))
    if draw.random() < 0.15:
        parents += bytes((draw.choice([0, 1, 9, 17, 255]),))
    trail, red = draw.choice([0, 0, 1, 5, 20]), draw.choice([0, 0, 1, 5, 10])
    yellow = draw.choice([29, 30, 30, 30, 31, 35])
    cabinet = draw.choice([1, 1, 1, 1, 2, 64])
    return [
        "overlaps",
        "--cabinet",
        str(cabinet),
        "--parents",
        parents.hex(),
        "--trail",
        str(trail),
        "--yellow",
        str(yellow),
        "--red",
        str(red),
    ]


def made_words(draw: Random) -> list[str]:
    """Draws the words of a scenario that is generated, or its summary."""
    seed = draw.choice([0, 1, 2**31 - 1, 2**31, 2**32 - 1, 2**32, draw.randrange(2**32)])
    word = draw.choice(["generate", "generate", "survey"])
    cabinets, rounds = draw.choice([1, 1, 2, 3]), draw.choice([1, 2, 5, 12] if word == "survey" else [1, 7, 200])
    return [word, "--seed", str(seed), "--cabinets", str(cabinets), "--rounds", str(rounds)]


def odd_words(draw: Random) -> list[str]:
    """Draws words that are mostly no command."""
    words = draw.choice(
        [["run"], ["check"], ["run", "--workers", "0"], made_words(draw), overlap_words(draw), ["band"], []]
    )
    at = draw.randrange(len(words) + 1)
    put = draw.choice(["", "run", "check", "--seed", "01", "+1", "9", "65", "-1", "--workers", "0x1", "1 "])
    return draw.choice(
        [words[:at] + words[at + 1 :], words[:at] + [put] + words[at + 1 :], words[:at] + [put] + words[at:]]
    )
