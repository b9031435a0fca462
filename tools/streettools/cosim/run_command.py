"""`./arterial cosim run`: its options, and what it reports of a run."""

import argparse
import pathlib
from dataclasses import replace
from typing import Any

from ..shared.commandline import Parser, add_output, add_program, number
from ..shared.fault import Fault
from ..shared.program import found
from ..shared.progress import bar
from ..shared.saying import say, say_replaced
from ..shared.status import Status
from . import discharge, network
from .drive import read_config
from .loop import Given
from .mapping import read_map
from .queues.given import read_street
from .queues.keeping import called_in, keep_names
from .run import REPORT, TRACE, Done, read_scenario, run

EXAMPLES = """\
examples:
  ./arterial cosim run --sumo street.sumocfg --map map.toml --scenario street.json -o out/
  ./arterial cosim run --sumo street.sumocfg --map map.toml --scenario street.json --step 1 --seed 7 -o out/
  ./arterial check out/session.trace                # the trace of the cabinets
  ./look coordination out/session.trace             # and its pictures

A step of SUMO is 0.1 s or 1 s. The folder gets session.trace, what SUMO writes (tripinfo.xml, vehroutes.xml, stops.xml,
sumo.log), study.json and the report. docs/COSIM.md explains maps."""


def step_of(text: str) -> float:
    """Reads a step."""
    if text not in ("0.1", "1", "1.0"):
        raise argparse.ArgumentTypeError(f"{text} is not 0.1 or 1")
    return float(text)


def parser() -> argparse.ArgumentParser:
    """Returns the reader of the options."""
    words = Parser(
        "cosim run",
        description="Runs SUMO with the cabinets of a scenario as its signals. SUMO's traffic calls the phases.",
        epilog=EXAMPLES,
    )
    path: dict[str, Any] = {"type": pathlib.Path, "required": True}
    words.add_argument("--sumo", **path, metavar="CONFIG", help="SUMO's configuration (*.sumocfg)")
    words.add_argument("--map", **path, metavar="MAP", help="the map: the phase of each link")
    words.add_argument("--scenario", **path, metavar="FILE", help="the cabinets: a scenario, or a timing sheet")
    add_output(words, "the folder for all results", **path, metavar="FOLDER")
    words.add_argument(
        "--step", type=step_of, default=0.1, metavar="S", help="a step of SUMO: 0.1 or 1 second (default: 0.1)"
    )
    of_day = number(0, 86_400)
    words.add_argument(
        "--seconds", type=number(1, 86_400), metavar="S",
        help="the length of the run (default: until SUMO's end; if it has none, the scenario's length)",
    )
    words.add_argument(
        "--seed", type=number(0, 2**31 - 1), metavar="N", help="SUMO's seed (default: the seed of the configuration)"
    )
    words.add_argument(
        "--warm", type=of_day, default=0, metavar="S", help="exclude trips that start earlier (default: 0)"
    )
    words.add_argument("--saturation", type=number(100, 3600), default=1800, metavar="N",
                       help="report lanes that don't discharge N vehicles an hour (default: 1800)")  # fmt: skip
    words.add_argument("--lost", type=number(0, 10), default=2, metavar="S",
                       help="report lanes that don't lose S seconds as a queue starts (default: 2)")  # fmt: skip
    words.add_argument("--policy", type=pathlib.Path, metavar="FILE",
                       help="a Python file whose function step(street) drives the cabinets")  # fmt: skip
    words.add_argument("--no-priority", action="store_true", help="buses don't request priority")
    add_program(words)
    return words


def given_of(words: argparse.Namespace) -> Given:
    """Reads all files that the options name."""
    config = read_config(words.sumo)
    scenario = read_scenario(words.scenario)
    street, known = read_map(words.map), network.read(config.network)
    whole = config.end - config.begin if config.end else scenario["rounds"] * scenario["ticks"] / 10
    seconds = words.seconds or whole
    if words.warm >= seconds:
        raise Fault(f"--warm {words.warm} is not less than the {seconds:g} seconds of the run")
    given = Given(config, street, known, scenario, words.step, seconds, words.seed, not words.no_priority, words.warm)
    return replace(given, names=called_in(read_street(words.scenario).names), policy=words.policy)


def tell(done: Done, given: Given, out: pathlib.Path) -> None:
    """Reports the result of a run."""
    times = done.times
    if times.whole:
        say(
            "cosim",
            f"{times.steps * given.step / times.whole:.0f} simulated seconds in one;"
            f" {times.sumo / times.whole:.0%} of the time in SUMO, {times.cabinets / times.whole:.0%} for the cabinets",
        )
    if done.refusals:
        say("cosim", f"{done.refusals} priority requests were refused by the cabinets")
    if done.study is None:
        say("cosim", "nothing was recorded: no round ended")
    else:
        found = f"{done.study.seconds:g} s, {len(done.study.trips)} trips"
        say("cosim", f"{out / TRACE} and the report next to it: {found}")


def tell_traffic(done: Done, given: Given, words: argparse.Namespace) -> None:
    """Says what the delays of a run depend on."""
    if given.step >= 1:
        say("cosim", "steps of 1 s lower SUMO's saturation flow: they are for looking; measure delay with --step 0.1")
    if done.study is not None and (line := discharge.difference(done.study.lanes, words.saturation, words.lost)):
        say("cosim", line)


def main(words: list[str]) -> int:
    """Runs, and returns the exit status."""
    given_words = parser().parse_args(words)
    program = found(given_words.program)
    given = given_of(given_words)
    out = given_words.output
    say_replaced("cosim", out / TRACE)
    out.mkdir(parents=True, exist_ok=True)
    shown = bar(int(given.seconds), "s", smoothing=0.05)
    try:
        done = run(given, program, out, shown.update if shown is not None else lambda count: None)
    finally:
        if shown is not None:
            shown.close()
    keep_names(out, read_street(given_words.scenario))
    tell(done, given, out)
    tell_traffic(done, given, given_words)
    if done.fault is not None:
        raise done.fault
    print((out / f"{REPORT}.txt").read_text(encoding="utf-8"), end="")
    return Status.DONE
