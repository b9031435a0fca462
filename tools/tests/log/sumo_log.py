#!/usr/bin/python3
"""Writes the event log of a run of SUMO under its own controllers, NEMA or actuated, as one in the field would.

    tools/tests/log/sumo_log.py CONFIG PROGRAMS MAP SECONDS LOG CHANNELS [--pattern N]

CONFIG is SUMO's configuration, PROGRAMS an additional file with the controllers, MAP a map of links to phases (TOML).
It uses nothing of the tools. LOG has the columns SignalID, Timestamp, EventCode, EventParam; the run begins at
07:00:00. CHANNELS is written as JSON: for each signal the phase of each channel. A channel is a detector of 15 m
before a stop line. Neither controller shows its red clearance: it is the time from the end of yellow until the phase
is no longer the active one of its ring (NEMA), or until the next stage (actuated). No pedestrian signal is written,
since these controllers have none.
"""

import argparse
import datetime
import json
import pathlib
import sys
import tempfile
import tomllib
from typing import Any

sys.path.append("/usr/share/sumo/tools")
START = datetime.datetime(2026, 11, 27, 7)
LONG = 15.0


class Signal:
    """A signal: its phases with the places of their links, what each shows, and its channels."""

    def __init__(self, sumo: Any, told: dict[str, Any], is_nema: bool) -> None:
        self.sumo, self.id, self.is_nema = sumo, told["id"], is_nema
        links = sumo.trafficlight.getControlledLinks(self.id)
        places = {f"{each[0]} {each[1]}": place for place, its in enumerate(links) for each in its}
        self.links: dict[int, set[int]] = {}
        self.lanes: dict[int, set[str]] = {}
        for movement in told["movement"]:
            if movement["name"].startswith("ped"):
                continue
            for name in movement["links"]:
                self.links.setdefault(movement["phase"], set()).add(places[name])
                self.lanes.setdefault(movement["phase"], set()).add(name.split()[0])
        self.shown = dict.fromkeys(self.links, "R")
        self.stage = 0

    def active(self) -> set[int]:
        """Returns the phases that are active in their rings, by the name of NEMA's phase."""
        name = self.sumo.trafficlight.getPhaseName(self.id)
        return {int(it) for it in name.split("+")} if self.is_nema else set()

    def look(self) -> list[tuple[int, int]]:
        """Returns the events of a step: code, phase."""
        state, active = self.sumo.trafficlight.getRedYellowGreenState(self.id), self.active()
        stage = self.sumo.trafficlight.getPhase(self.id)
        moved, self.stage = stage != self.stage, stage
        found = []
        for phase, places in sorted(self.links.items()):
            letters = {state[place] for place in places}
            was = self.shown[phase]
            if letters & set("Gg"):
                now = "G"
            elif "y" in letters:
                now = "Y"
            else:
                clears = phase in active if self.is_nema else (was == "Y" or not moved)
                now = "C" if was in "YC" and clears else "R"
            found += [(code, phase) for code in codes(was, now)]
            self.shown[phase] = now
        return found


def codes(was: str, now: str) -> list[int]:
    """Returns the codes of a change of a phase."""
    if was == now:
        return []
    return {"G": [7], "Y": [9], "C": [11], "R": []}[was] + {"G": [0, 1], "Y": [8], "C": [10], "R": [12]}[now]


def detectors(signals: list[dict[str, Any]], lanes: dict[str, list[str]]) -> tuple[str, dict[str, dict[int, int]]]:
    """Returns an additional file with a detector on each lane before a stop line, and the phase of each channel."""
    rows, channels = [], {}
    for told in signals:
        phases = {}
        for movement in told["movement"]:
            if not movement["name"].startswith("ped"):
                for name in movement["links"]:
                    phases.setdefault(name.split()[0], movement["phase"])
        lanes[told["id"]] = sorted(phases)
        channels[told["id"]] = {channel: phases[lane] for channel, lane in enumerate(sorted(phases), 1)}
        for channel, lane in enumerate(sorted(phases), 1):
            rows.append(f'<laneAreaDetector id="log_{told["id"]}_{channel}" lane="{lane}" pos="-{LONG}" endPos="-0.1" '
                        'period="100000" file="NUL"/>')  # fmt: skip
    return f"<additional>{''.join(rows)}</additional>", channels


def rows_of(sumo: Any, signals: list[Signal], lanes: dict[str, list[str]], seconds: float) -> list[tuple]:
    """Runs SUMO, and returns the rows: tick, signal, code, parameter."""
    found, on = [], dict.fromkeys(((it, n) for it, own in lanes.items() for n in range(1, len(own) + 1)), False)
    for tick in range(1, round(10 * seconds) + 1):
        sumo.simulation.step()
        for (signal, channel), was in on.items():
            now = sumo.lanearea.getLastStepVehicleNumber(f"log_{signal}_{channel}") > 0
            if now != was:
                found.append((tick, signal, 82 if now else 81, channel))
                on[signal, channel] = now
        for signal in signals:
            found += [(tick, signal.id, code, phase) for code, phase in signal.look()]
    return found


def main() -> None:
    """Runs SUMO, and writes its log."""
    words = argparse.ArgumentParser(description=__doc__, formatter_class=argparse.RawDescriptionHelpFormatter)
    for name in ("config", "programs", "map", "seconds", "log", "channels"):
        words.add_argument(name)
    words.add_argument("--pattern", type=int, help="the pattern that runs from the beginning (code 131)")
    given = words.parse_args()
    import libsumo as sumo

    told = tomllib.loads(pathlib.Path(given.map).read_text())["signal"]
    is_nema = 'type="NEMA"' in pathlib.Path(given.programs).read_text()
    lanes: dict[str, list[str]] = {}
    text, channels = detectors(told, lanes)
    with tempfile.TemporaryDirectory() as folder:
        added = pathlib.Path(folder) / "detectors.add.xml"
        added.write_text(text)
        files = f"{pathlib.Path(given.programs).resolve()},{added}"
        options = ["--step-length", "0.1", "--no-step-log", "-W", "--seed", "1"]
        sumo.start(["sumo", "-c", given.config, "-a", files, *options])
        try:
            rows = rows_of(sumo, [Signal(sumo, it, is_nema) for it in told], lanes, float(given.seconds))
        finally:
            sumo.close()
    first = [(1, it["id"], 131, given.pattern) for it in told] if given.pattern is not None else []
    with open(given.log, "w") as out:
        out.write("SignalID,Timestamp,EventCode,EventParam\n")
        for tick, signal, code, parameter in first + rows:
            time = (START + datetime.timedelta(milliseconds=100 * tick)).strftime("%m/%d/%Y %H:%M:%S.%f")[:-5]
            out.write(f"{signal},{time},{code},{parameter}\n")
    pathlib.Path(given.channels).write_text(json.dumps(channels))


if __name__ == "__main__":
    main()
