"""The command `./arterial cosim queues`: traffic without SUMO, by queues."""

import argparse
import pathlib
import sys
from collections.abc import Callable
from typing import Any

from ...shared.commandline import Parser, add_json, add_output, add_program, number
from ...shared.fault import Fault
from ...shared.program import answering
from ...shared.saying import say, say_replaced
from ...shared.status import Status
from .. import report
from . import balance, keeping
from . import study as queue_study
from .given import Street, fitted, read_street, read_volumes
from .keeping import TRACE
from .study import Asked, Ran

EXAMPLES = """\
examples:
  ./arterial cosim queues scenarios/street.volumes.toml --scenario scenarios/street.json
  ./arterial cosim queues volumes.toml --scenario street.json --seconds 3600 --warm 600 --seed 2
  ./arterial cosim queues volumes.toml --scenario street.json --json > report.json
  ./arterial cosim queues volumes.toml --scenario street.json -o OUT    # the report, the trace, and what was recorded

docs/QUEUES.md explains the file of volumes and the model."""
STEPS = {"0.1": 1, "0.2": 2, "0.5": 5, "1": 10}
"""How long a step may be, in seconds, and its ticks."""


def parser() -> argparse.ArgumentParser:
    """Returns the reader of the options."""
    words = Parser(
        "cosim queues",
        description="Runs a scenario's cabinets with vehicles that wait in queues: delay, stops, split failures.",
        epilog=EXAMPLES,
    )
    words.add_argument("volumes", help="volumes and routes, in TOML; - is standard input")
    words.add_argument("--scenario", required=True, metavar="FILE", help="the cabinets: a scenario, or a timing sheet")
    words.add_argument(
        "--seconds", type=number(1, 5_529_600), metavar="S",
        help="the length of the run (default: the length of the scenario)",
    )
    words.add_argument(
        "--warm", type=number(0, 5_529_600), default=0, metavar="S",
        help="exclude trips that start earlier (default: 0)",
    )
    words.add_argument(
        "--step", choices=STEPS, default="1", help="seconds between two samples of the detectors (default: 1)"
    )
    words.add_argument(
        "--seed", type=number(0, 4_294_967_295), default=1, metavar="N", help="the seed of random arrivals (default: 1)"
    )
    words.add_argument("--policy", type=pathlib.Path, metavar="FILE",
                       help="a Python file whose function step(street) drives the cabinets")  # fmt: skip
    words.add_argument(
        "--keep-inputs", action="store_true", help="keep the scenario's inputs of detectors and push buttons"
    )
    add_json(words)
    add_output(words, "a folder for the report, session.trace and study.json", metavar="FOLDER")
    add_program(words)
    return words


def asked_of(words: argparse.Namespace, seconds: float) -> Asked:
    """Returns the settings of a run by the options."""
    step = STEPS[words.step]
    if round(seconds * 10) % step:
        raise Fault(f"{seconds:g} s is not a whole number of steps of {words.step} s")
    if words.warm >= seconds:
        raise Fault(f"--warm {words.warm} leaves nothing of {seconds:g} s to measure")
    return Asked(seconds, step, words.seed, words.warm, words.keep_inputs, words.output is not None)


def maker_of(path: pathlib.Path | None, scenario: dict[str, Any]) -> queue_study.Makes | None:
    """Returns the function that makes a policy of a street, None if a policy isn't given."""
    if path is None:
        return None
    from .. import policies

    cabinets, community, file = len(scenario["cabinets"]), scenario.get("community", "public"), path
    return lambda street: policies.Policy(file, policies.Street(cabinets, street.waiting, community))


def ran(words: argparse.Namespace) -> tuple[Ran, Street]:
    """Runs what the words ask for; returns the result of the run, and the street."""
    from ...shared.progress import bar

    volumes, street = read_volumes(words.volumes), read_street(words.scenario)
    asked = asked_of(words, queue_study.seconds_of(street.scenario, words.seconds))
    program = str(answering(words.program, lambda line: say("cosim", line), is_long=True))
    shown = bar(round(asked.seconds * 10) // asked.step, "step")
    advance: Callable[[int], None] = (lambda step: None) if shown is None else lambda step: shown.update(1)
    try:
        made, whole = maker_of(words.policy, street.scenario), fitted(volumes, street)
        for line in balance.doubts(whole):
            say("cosim", line)
        return queue_study.run(program, whole, street.scenario, asked, advance, made), street
    finally:
        if shown is not None:
            shown.close()


def does(words: argparse.Namespace) -> int:
    """Does what the words ask for."""
    came, street = ran(words)
    folder = pathlib.Path(words.output or ".")
    study = queue_study.study_of(came, folder / TRACE)
    value = keeping.value_of(came, study, street)
    if words.output is not None:
        say_replaced("cosim", study.trace)
        keeping.write(folder, came, study, street, value)
    sys.stdout.write(report.json_text(value) if words.json else report.text(value))
    sys.stdout.flush()
    return Status.DONE


def main(given: list[str]) -> int:
    """Does what the words ask for, and returns the exit status."""
    return does(parser().parse_args(given))
