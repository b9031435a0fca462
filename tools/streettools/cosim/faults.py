"""What can't be done in a run with traffic, beside what all tools share."""

from ..shared.fault import Fault


class Conflict(Fault):
    """Two links whose paths cross had way at once, by what SUMO had in force."""
