"""Streets for the scripts beside, and how a command of the built program is measured."""

import pathlib
import subprocess
import sys

TOP = pathlib.Path(__file__).resolve().parent.parent
CABINETS, TICKS, HOUR = 64, 100, 360
POLLED = {"clock": 252000, "poll_every": 1, "clock_every": 300}


def scenario(rounds, ticks, cabinets, **more):
    """Returns a scenario."""
    return {"version": 1, "rounds": rounds, "ticks": ticks, "cabinets": cabinets, **more}


def street(offsets):
    """Returns the cabinets of the street: pattern 1 by day, pattern 2 with a shorter cycle, each with an offset of its
    own."""
    shorter = [
        ["pattern", 2, 2, 75], ["pattern", 2, 4, 2], ["pattern", 2, 5, 1], ["split", 2, 2, 5, 1], ["split", 2, 6, 5, 1]
    ]
    for phase, seconds in zip(range(1, 9), (10, 30, 10, 25) * 2):
        shorter.append(["split", 2, phase, 3, seconds])
    return [
        {
            "clock": 252000,
            "pattern": 1,
            "section": 1 + number % 2,
            "cells": [["unit", 1, 3], ["pattern", 1, 3, offset], *shorter],
        }
        for number, offset in enumerate(offsets)
    ]


def busy(rounds, chance):
    """Returns the street with traffic, a schedule, downloads, priority and faults."""
    which = range(1, CABINETS + 1)
    inputs, priority, faults = [], [], []
    for round_ in range(1, rounds + 1):
        for cabinet in which:
            if chance.random() < 0.1:
                inputs.append(
                    {"round": round_, "cabinet": cabinet, "veh": chance.randint(1, 8), "on": chance.random() < 0.5}
                )
            if chance.random() < 0.01:
                inputs.append({"round": round_, "cabinet": cabinet, "ped": 2 * chance.randint(1, 4)})
            if chance.random() < 0.005:
                arrival = chance.randint(0, 300)
                priority.append({
                    "round": round_, "cabinet": cabinet, "number": chance.randint(1, 10), "class": chance.randint(1, 3),
                    "level": 1,
                    "phase": chance.choice((2, 6)), "arrival": arrival, "departure": arrival + 100,
                })  # fmt: skip
        if round_ % 2:
            faults.append({
                "round": round_, "cabinet": chance.choice(which), "stream": chance.choice(("poll", "load")),
                "way": chance.choice(("down", "up")), "kind": chance.choice(("lose", "repeat", "late", "flip", "cut")),
                "by": chance.randint(1, 20), "octet": chance.randint(1, 255),
            })  # fmt: skip
    loads = [
        {
            "round": chance.randint(1, rounds - 20),
            "cabinet": cabinet,
            "cells": [["phase", phase, 8, 43] for phase in range(1, 9)] * 9,
        }
        for cabinet in which
    ]
    schedule = [
        {"second": 25200 + 450 * place, "section": section, "pattern": (1, 2, 254, 1)[(place + section) % 4]}
        for place in range(4)
        for section in (1, 2)
    ]
    cabinets = street([chance.randint(0, 89) for _ in which])
    master = {**POLLED, "schedule": schedule}
    return scenario(
        rounds, TICKS, cabinets, master=master, inputs=inputs, loads=loads, priority=priority, faults=faults
    )


def quiet(rounds):
    """Returns the street with polls alone."""
    return scenario(rounds, TICKS, street([0] * CABINETS), master=POLLED)


def program_of(words):
    """Returns the program that the words name, or the one that was proved in this checkout."""
    if words:
        return pathlib.Path(words[0]).resolve()
    ran = subprocess.run([TOP / "tools/proved"], stdout=subprocess.PIPE, text=True)
    if ran.returncode:
        sys.exit(1)
    return pathlib.Path(ran.stdout.rstrip("\n"))


def measured(program, command, source, sink):
    """Runs a command of the program on a file into another. Returns its seconds, those of a processor among them, and
    its greatest memory in KiB."""
    used = sink.with_suffix(".used")
    with source.open("rb") as given, sink.open("wb") as taken:
        ran = subprocess.run(
            ["/usr/bin/time", "-o", used, "-f", "%e %U %S %M", program, command], stdin=given, stdout=taken, check=False
        )
    if ran.returncode:
        sys.exit(f"{sys.argv[0]}: {command} ended with status {ran.returncode}")
    seconds, user, system, memory = map(float, used.read_text().split())
    return max(seconds, 0.01), max(user + system, 0.01), int(memory)
