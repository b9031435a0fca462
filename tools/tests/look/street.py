"""Writes `traces/street.trace`: four cabinets of the standard table `max8` on a street, worked out by hand.

    /usr/bin/python3 tools/tests/look/street.py > tools/tests/look/traces/street.trace

Each cabinet runs pattern 1 (cycle 90 s, 15 s for odd and 30 s for even phases, 2 and 6 coordinated) with an offset of
its own, and brings it about by dwell: at each local zero its counter stands at 0 for at most 100 ticks. Every phase is
recalled to its maximum, so each but 2 and 6 begins as the clearance before it ends, and ends at its force point. The
moments below, in ticks from local zero, are those of the plan: a slot's end less yellow change and red clearance.
"""

CYCLE, LIMIT, ROUNDS, TICKS, CLOCK = 900, 100, 16, 600, 840
STEPS = [
    (0, "RGRRRGRR"), (245, "RYRRRYRR"), (285, "RCRRRCRR"), (300, "RRGRRRGR"), (405, "RRYRRRYR"), (440, "RRCRRRCR"),
    (450, "RRRGRRRG"), (695, "RRRYRRRY"), (735, "RRRCRRRC"), (750, "GRRRGRRR"), (855, "YRRRYRRR"), (890, "CRRRCRRR"),
]  # fmt: skip
OFFSETS = (0, 20, 40, 60)


def line(cabinet, tick, vehicles, mode):
    """Returns an F line; nobody walks."""
    return f"F {cabinet} {tick} {vehicles}RRRRRRRR DDDDDDDDDDDDDDDD {mode} 0"


def frames(cabinet, offset):
    """Yields the tick and the F line of each frame that has one. Pickup is at tick 60, as start-up ends on 2 and 6."""
    yield 0, line(cabinet, 0, "RRRRRRRR", "S 0 0")
    zero = 60
    while zero <= ROUNDS * TICKS:
        target = (CLOCK + zero - 10 * offset) % CYCLE
        stands = min(LIMIT, (CYCLE - target) % CYCLE)
        for counter, vehicles in STEPS:
            tick = zero + counter + (stands if counter else 0)
            yield tick, line(cabinet, tick, vehicles, f"C1 {counter} {(CLOCK + tick - 10 * offset) % CYCLE}")
        zero += CYCLE + stands


def trace():
    """Yields the lines of the trace."""
    cabinets = ",".join(
        '{"base":"max8","cells":[["pattern",1,3,%d]],"clock":%d,"pattern":1}' % (it, CLOCK) for it in OFFSETS
    )
    yield 'S {"cabinets":[%s],"rounds":%d,"ticks":%d,"version":1}' % (cabinets, ROUNDS, TICKS)
    shown = [list(frames(number, offset)) for number, offset in enumerate(OFFSETS, 1)]
    yield from (frames[0][1] for frames in shown)
    for turn in range(1, ROUNDS + 1):
        yield f"R {turn}"
        for number in range(1, len(OFFSETS) + 1):
            yield f"J {number} 4*{TICKS}"
            yield from (text for tick, text in shown[number - 1] if (turn - 1) * TICKS < tick <= turn * TICKS)
    yield f"Z {ROUNDS}"


if __name__ == "__main__":
    print("\n".join(trace()))
