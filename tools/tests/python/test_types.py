"""A user's code is checked by mypy against the types of the package: right code passes, wrong code is found."""

import os
import pathlib
import shutil
import subprocess

import pytest

from .conftest import TOP

SECONDS = 280
RIGHT = '''
import asyncio

import arterial
import arterial.env


def served(path: str, phase: int) -> float:
    """The mean green of a phase."""
    trace: arterial.Trace = arterial.run(path, workers=2)
    greens = trace.cabinet(1).between(0, 600).greens()
    return float(greens[greens.phase == phase].green_s.mean())


def drive(scenario: arterial.Scenario) -> list[str]:
    """What a cabinet shows after a car came."""
    with arterial.live(scenario) as street:
        street.vehicle(1, phase=4)
        step = street.tick(10)
        outcome: arterial.Outcome = street.load(1, [["phase", 2, 8, 43]])
        assert outcome.accepted or outcome.rule is not None
        return [it.vehicles for it in step.frames]


async def later() -> float:
    async with arterial.live_async(arterial.Scenario(rounds=5)) as street:
        step = await street.tick(10)
        return step.time_s


def learn() -> float:
    with arterial.env.StreetEnv("street.json", "volumes.toml", reward={"delay": 1.0}) as env:
        observation, info = env.reset(seed=1)
        observation, reward, terminated, truncated, info = env.step([1, 1])
        return reward + info["delay_s"] + float(observation.sum())


def refusal(given: dict[str, object]) -> int | None:
    try:
        arterial.run(given)
    except arterial.Refused as fault:
        return fault.rule
    return None


print(asyncio.run(later()), [it.words for it in arterial.Plan.read("plan.toml").check()])
'''
WRONG = {
    "arterial.run(5)": "arg-type",
    "arterial.run({}).greenz()": "attr-defined",
    "arterial.live({}).vehicle('1', 2)": "arg-type",
    "arterial.Scenario()": "call-arg",
    "x: str = arterial.check('t').line": "assignment",
}
"""Lines that mypy refuses, with the code of each."""


@pytest.mark.skipif(shutil.which("mypy") is None, reason="mypy is missing: apt-get install -y mypy")
def test_mypy_accepts_right_code_and_finds_wrong_code(tmp_path):
    """Strictly; the cache is that of the test of the tools' own types."""
    cache = pathlib.Path(os.environ.get("XDG_CACHE_HOME") or "~/.cache").expanduser() / "arterial" / "mypy-user"
    (tmp_path / "right.py").write_text(RIGHT)
    (tmp_path / "wrong.py").write_text("import arterial\n\n" + "".join(f"{line}\n" for line in WRONG))
    ran = subprocess.run(
        ["mypy", "--strict", "--ignore-missing-imports", "--follow-imports=silent", "--cache-dir", cache, "right.py",
         "wrong.py"],
        cwd=tmp_path, env=os.environ | {"MYPYPATH": str(TOP / "tools")}, capture_output=True, text=True,
        timeout=SECONDS,
    )  # fmt: skip
    lines = [it for it in ran.stdout.splitlines() if ": error: " in it]
    assert [it.split(":")[0] for it in lines] == ["wrong.py"] * len(WRONG), ran.stdout + ran.stderr
    assert [it.rpartition("[")[2].rstrip("]") for it in lines] == list(WRONG.values())
