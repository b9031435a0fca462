"""Overlaps over traces, worked out apart from the program: what each vector of worked_overlaps.jsonl is due.

An overlap is read off lists by tick: which ticks see a parent green, and then, by looking back, what the overlap shows
at each. Nothing is counted down here. `python3 overlaps.py` works every vector out again, and prints those that differ.
"""

import json
import pathlib
import sys

HERE = pathlib.Path(__file__).parent
YELLOW = {1: 35, 2: 40, 3: 35, 4: 40, 5: 35, 6: 40, 7: 35, 8: 40}
CLEAR = {1: 10, 2: 15, 3: 10, 4: 15, 5: 10, 6: 15, 7: 10, 8: 15}


def opened(cabinet):
    """Returns yellow change, red clearance and what is enabled, by phase, of the tables that a cabinet opens with."""
    base = cabinet.get("base", "std8")
    odd, even, main = (129, 1153, 1153) if base == "max8" else (1, 1025, 1089)
    tables = {p: {8: YELLOW.get(p, 0), 9: CLEAR.get(p, 0), 21: 0} for p in range(1, 17)}
    for p in range(1, 9):
        tables[p][21] = odd if p % 2 else main if p in (2, 6) else even
    return put(tables, cabinet.get("cells", []))


def put(tables, cells):
    """Returns the tables with cells put in order."""
    tables = {p: dict(row) for p, row in tables.items()}
    for cell in cells:
        if cell[0] == "phase" and cell[2] in (8, 9, 21):
            tables[cell[1]][cell[2]] = cell[3]
    return tables


def versions(scenario, lines, number):
    """Returns the tables of each version that a cabinet had in a trace, the opening ones first."""
    loads = sorted(
        (load for load in scenario.get("loads", []) if load["cabinet"] == number), key=lambda load: load["round"]
    )
    tables = [opened(scenario["cabinets"][number - 1])]
    for line in lines:
        words = line.split()
        if words[0] == "L" and int(words[1]) == number and words[3] == "accepted":
            tables.append(put(tables[-1], loads[int(words[2]) - 1]["cells"]))
            assert int(words[4]) == len(tables) - 1
    return tables


def greens(lines, number, parents, ticks):
    """Returns, for each tick, whether a parent is green at it."""
    seen, shown = [], "R" * 16
    changes = {int(w[2]): w[3] for w in (line.split() for line in lines) if w[0] == "F" and int(w[1]) == number}
    for tick in range(ticks + 1):
        shown = changes.get(tick, shown)
        seen.append(any(shown[p - 1] == "G" for p in parents))
    return seen


def lasted(colours, colour):
    """Returns for how many last ticks in a row a colour was shown."""
    back = 0
    while back < len(colours) and colours[-1 - back] == colour:
        back += 1
    return back


def overlap(seen, trail, yellow, red):
    """Returns what an overlap shows at each tick."""
    colours = ["R"]
    for tick in range(1, len(seen)):
        last = colours[-1]
        if last == "R":
            now = "G" if seen[tick] else "R"
        elif last == "G":
            now = "G" if any(seen[max(0, tick - trail) : tick + 1]) else "Y"
        elif last == "Y":
            now = ("C" if red else "R") if lasted(colours, "Y") == yellow else "Y"
        else:
            now = "R" if lasted(colours, "C") == red else "C"
        colours.append(now)
    return colours


def fault(scenario, tables, number, parents, trail, yellow, red):
    """Returns the first broken rule and its row, or None."""
    if number > len(scenario["cabinets"]):
        return 1, 0
    for place, p in enumerate(parents):
        if not 1 <= p <= 16 or not tables[0][p][21] % 2 or p in parents[:place]:
            return 2, p
    if yellow < 30:
        return 3, 0
    for p in parents:
        if trail + yellow + red > min(t[p][8] for t in tables) + min(t[p][9] for t in tables):
            return 4, p
    return None


def answer(trace, words):
    """Returns the exit status of the command, what it writes on standard output, and what on standard error."""
    number, parents = int(words[2]), list(bytes.fromhex(words[4]))
    trail, yellow, red = (int(words[k]) for k in (6, 8, 10))
    lines = trace.splitlines()
    scenario = json.loads(lines[0][2:])
    ticks = scenario["rounds"] * scenario["ticks"]
    tables = versions(scenario, lines, number) if number <= len(scenario["cabinets"]) else []
    broken = fault(scenario, tables, number, parents, trail, yellow, red)
    if broken:
        return 7, "", "overlap: rule %d at row %d\n" % broken
    colours = overlap(greens(lines, number, parents, ticks), trail, yellow, red)
    changes = ["O 0 R"] + [f"O {k} {colours[k]}" for k in range(1, ticks + 1) if colours[k] != colours[k - 1]]
    return 0, "\n".join(changes + [f"Z {ticks}", ""]), ""


def main():
    different = 0
    vectors = list(map(json.loads, filter(None, (HERE / "worked_overlaps.jsonl").read_text().split("\n"))))
    for vector in vectors:
        if "of" not in vector:
            continue
        due = answer((HERE / (vector["of"] + ".trace")).read_text(encoding="latin-1"), vector["words"])
        if due != (vector["status"], vector["output"], vector["said"]):
            different += 1
            print("differs:", vector["name"])
    print(len(vectors) - different, "agree,", different, "differ")
    return different > 0


if __name__ == "__main__":
    sys.exit(main())
