"""The through bands that are due for an object of `band`, by testing each time of the cycle; nothing is shared with the
program.

    bands.py FILE      prints each line of FILE whose lines aren't those that are due

Bases are std8 and max8, which have the same splits and clearances; of the cells those are read that a band depends on.
"""
import json
import sys

# ring by ring, the phases of the one sequence in use and their sides
ORDER = {1: [1, 2, 3, 4], 2: [5, 6, 7, 8]}
SIDE = {1: 0, 2: 0, 5: 0, 6: 0, 3: 1, 4: 1, 7: 1, 8: 1}


class Tables:
    """What a pattern needs of a cabinet's tables, in seconds and tenths as the cells have them."""

    def __init__(self, cabinet):
        self.yellow = {p: 35 if p % 2 else 40 for p in range(1, 9)}
        self.red = {p: 10 if p % 2 else 15 for p in range(1, 9)}
        self.pattern = {n: [0, 0, 0, 0] for n in range(1, 49)}
        self.pattern[1] = [90, 0, 1, 1]
        self.time = {(1, p): 15 if p % 2 else 30 for p in range(1, 9)}
        self.held = {(1, 2), (1, 6)}
        self.reference = 1
        for cell in cabinet.get("cells", []):
            self.put(cell)

    def put(self, cell):
        if cell[0] == "phase" and cell[2] == 8:
            self.yellow[cell[1]] = cell[3]
        elif cell[0] == "phase" and cell[2] == 9:
            self.red[cell[1]] = cell[3]
        elif cell[0] == "pattern":
            self.pattern[cell[1]][cell[2] - 2] = cell[3]
        elif cell[0] == "split" and cell[3] == 3:
            self.time[cell[1], cell[2]] = cell[4]
        elif cell[0] == "split" and cell[3] == 5:
            (self.held.add if cell[4] else self.held.discard)((cell[1], cell[2]))
        elif cell[0] == "unit" and cell[1] == 8:
            self.reference = cell[2]

    def greens(self, pattern):
        """The cycle and, for each ring, the times of the cycle in the window of its coordinated phase."""
        cycle, offset, split, _ = self.pattern[pattern]
        cycle, offset = 10 * cycle, 10 * offset
        clear = {p: self.yellow[p] + self.red[p] for p in SIDE}
        start, end = {}, {}
        for phases in ORDER.values():
            now = 0
            for p in phases:
                start[p] = now
                now += 10 * self.time.get((split, p), 0)
                end[p] = now
        held = {r: [p for p in ORDER[r] if (split, p) in self.held][0] for r in ORDER}
        zero = max(start[p] for p in held.values())
        force = {}
        for r, p in held.items():
            side = [q for q in SIDE if SIDE[q] == SIDE[p]]
            last = min(end[p] - clear[p], max(end[q] for q in side) - max(clear[q] for q in side))
            force[r] = (last - zero) % cycle
        shift = min(force.values()) if self.reference == 2 else 0
        return cycle, {r: {(offset - shift + c) % cycle for c in range(force[r])} for r in ORDER}


def band(cabinets, cycle, travel, ring, inbound):
    """The widest span of open times, the earliest of the widest; cabinets are (number, greens)."""
    n = len(cabinets)
    reached = [sum(travel[:i]) for i in range(n)]
    after = [reached[-1] - t for t in reached] if inbound else reached

    def closed(time):
        return [number for (number, greens), t in zip(cabinets, after) if (time + t) % cycle not in greens[ring]]

    is_open = [not closed(x) for x in range(cycle)]
    best = (0, 0)
    for x in range(cycle):
        width = 0
        while width < cycle and is_open[(x + width) % cycle]:
            width += 1
        if width > best[1]:
            best = (x, width)
    x, width = best
    return None if width == 0 else (x, width, min(closed(x - 1)), min(closed(x + width)))


def lines(asked):
    street, cycles = [], set()
    for number, cabinet in enumerate(asked["scenario"]["cabinets"], 1):
        if cabinet.get("section", 1) == asked["section"]:
            cycle, greens = Tables(cabinet).greens(asked["pattern"])
            cycles.add(cycle)
            street.append((number, greens))
    (cycle,) = cycles
    told = []
    for way, ring, inbound in (("outbound", 1, False), ("inbound", 2, True)):
        found = band(street, cycle, asked["travel"], ring, inbound)
        told.append(way + " " + ("none" if found is None else " ".join(map(str, found))))
    return told


def main(path):
    differ = 0
    for line in open(path, encoding="utf-8"):
        vector = json.loads(line)
        if "lines" in vector and lines(vector["asked"]) != vector["lines"]:
            differ += 1
            print(vector["name"], vector["lines"], lines(vector["asked"]))
    print(differ, "differ")
    return 1 if differ else 0


if __name__ == "__main__":
    sys.exit(main(sys.argv[1]))
