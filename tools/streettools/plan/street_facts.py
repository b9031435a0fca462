"""What speed and width ask of yellow changes, red clearances and pedestrian clearances, after the FHWA Signal Timing
Manual, the formula of the ITE and the MUTCD."""

import math

from .names import Phase

FEET_IN_METRE, MILES_IN_KILOMETRE = 3.28084, 0.621371
REACTION, DECELERATION, GRAVITY = 1.0, 10.0, 32.2
"""Perception and reaction in seconds, deceleration and gravity in feet per second squared."""

FEET_PER_SECOND = 5280 / 3600
VEHICLE = 20.0
"""The length of a vehicle in feet."""

WALKING = 3.5
"""How many feet a second people walk (MUTCD)."""


def yellow_due(phase: Phase, metric: bool) -> float | None:
    """Returns the yellow change in seconds that the speed and the grade of an approach ask, to tenths; None where no
    speed is known.

    It is reaction + speed / (2 deceleration + 2 gravity grade)."""
    if not phase.speed:
        return None
    miles = phase.speed * (MILES_IN_KILOMETRE if metric else 1)
    slowing = 2 * DECELERATION + 2 * GRAVITY * (phase.grade or 0) / 100
    return round(max(3.0, REACTION + miles * FEET_PER_SECOND / slowing), 1)


def red_due(phase: Phase, metric: bool) -> float | None:
    """Returns the red clearance in seconds, to tenths, that the width crossed and the speed ask: (width + length of a
    vehicle) / speed. None where no speed or no width is known."""
    if not phase.speed or not phase.width:
        return None
    miles = phase.speed * (MILES_IN_KILOMETRE if metric else 1)
    feet = phase.width * (FEET_IN_METRE if metric else 1)
    return round((feet + VEHICLE) / (miles * FEET_PER_SECOND), 1)


def clearance_due(phase: Phase, metric: bool) -> int | None:
    """Returns the pedestrian clearance in whole seconds that a crossing's length asks, rounded up; None where no length
    is known."""
    if not phase.crossing:
        return None
    feet = phase.crossing * (FEET_IN_METRE if metric else 1)
    return math.ceil(round(feet / WALKING, 3))
