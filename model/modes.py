"""The mode of a tick, and the phases that it brings to Green.

docs/DEFINITIONS.md, "A tick: command, clock and mode": `mode_sought`, `mode_commanded`, `mode_reached`, `goal_in`.
"""

from model import plan
from model.past import Past
from model.preempts import preempt, stage_now
from model.sides import Tables
from model.words import ENDING, FLASH, FREE, START, Kind, Lights, Mode

START_FRAMES = 60
FLASH_COMMAND = 255
GOALS = frozenset((Kind.SEEK, Kind.ENDING, Kind.ENTRY, Kind.TRACK, Kind.DWELL, Kind.EXIT))
"""The modes in which the rings bring certain phases to Green and no others."""


def commanded(past: Past, command: int) -> Mode:
    """Returns the mode that the pattern in command asks for."""
    if command == FLASH_COMMAND:
        return ENDING
    if not plan.is_defined(past.tables, command):
        return FREE
    frame, in_step = past.last.frame, Mode(Kind.COORD, command)
    if frame.mode == in_step and frame.version == past.version:
        return in_step
    return Mode(Kind.SEEK, command)


def sought(past: Past, command: int, preempts: dict[int, int]) -> Mode:
    """Returns the mode before the colours are known."""
    last = past.last
    if last.frame.mode == START:
        if last.mode_run < START_FRAMES:
            return START
        return FLASH if command == FLASH_COMMAND else commanded(past, command)
    if last.frame.mode == FLASH:
        return FLASH if command == FLASH_COMMAND else START
    return stage_now(past, preempts) or commanded(past, command)


def reached(tables: Tables, mode: Mode, lights: Lights) -> Mode:
    """Returns the mode once the colours are known: a pattern is picked up where both of its coordinated phases are
    Green, flash begins where nothing is on."""
    if mode.kind is Kind.SEEK and plan.coordinated(tables, mode.number) <= lights.green:
        return Mode(Kind.COORD, mode.number)
    return FLASH if mode == ENDING and not lights.on else mode


def goal(tables: Tables, mode: Mode) -> frozenset[int]:
    """Returns the phases that a mode with a goal brings to Green."""
    if mode.kind is Kind.SEEK:
        return plan.coordinated(tables, mode.number)
    if mode.kind is Kind.ENDING:
        return frozenset()
    row = preempt(tables, mode.number)
    if mode.kind is Kind.EXIT:
        return row.exit
    return row.dwell if mode.kind is Kind.DWELL else row.entry
