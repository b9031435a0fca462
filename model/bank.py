"""The vehicle detectors of a field file: when each calls, and which of its edges count.

docs/FIELD-FILE.md, "What a detector calls". Each is found by looking back over the rounds.
"""

from dataclasses import dataclass, field

EDGES_OVER = 60
"""Over how many rounds edges are counted for the third diagnostic."""


@dataclass(frozen=True)
class BankItem:
    """A detector of the bank, its times in rounds; 0 leaves a diagnostic out."""

    cabinet: int
    detector: int
    phase: int
    delay: int
    extend: int
    no_activity: int
    max_presence: int
    erratic: int


@dataclass
class Rounds:
    """The results of a detector's pulses, round by round; the place 0 is before all rounds."""

    is_pulsed: list[bool] = field(default_factory=lambda: [False])
    is_active: list[bool] = field(default_factory=lambda: [False])
    edges: list[int] = field(default_factory=lambda: [0])


def rounds_of(pulses: list[list[bool]]) -> Rounds:
    """Returns the results of the pulses of each round from 1 on."""
    told, is_on = Rounds(), False
    for given in pulses:
        edges = 0
        for on in given:
            edges += on and not is_on
            is_on = on
        told.is_pulsed.append(bool(given))
        told.is_active.append(is_on or any(given))
        told.edges.append(edges)
    return told


def in_a_row(holds: list[bool], number: int) -> int:
    """Returns for how many latest rounds in a row, up to a round and from round 1 at the earliest, something holds."""
    lasted = 0
    while lasted < number and holds[number - lasted]:
        lasted += 1
    return lasted


def rows_of(holds: list[bool]) -> list[int]:
    """Returns `in_a_row` of each round; if it holds, one more than in the round before."""
    counts = [0]
    for held in holds[1:]:
        counts.append(counts[-1] + 1 if held else 0)
    return counts


@dataclass
class Detected:
    """What a detector does in each round: whether it has failed, whether it calls, and how many of its edges count."""

    is_failed: list[bool]
    calls: list[bool]
    edges: list[int]


def detected(item: BankItem, pulses: list[list[bool]]) -> Detected:
    """Returns what a detector does in each round."""
    told = rounds_of(pulses)
    quiet, present = rows_of([not it for it in told.is_pulsed]), rows_of(told.is_active)
    last = range(1, len(told.edges))

    def is_failed(number: int) -> bool:
        recent = sum(told.edges[max(1, number - EDGES_OVER + 1) : number + 1])
        return (
            (item.no_activity > 0 and quiet[number] >= item.no_activity)
            or (item.max_presence > 0 and present[number] >= item.max_presence)
            or (item.erratic > 0 and recent > item.erratic)
        )

    failed = [False, *map(is_failed, last)]
    past_delay = [False, *(present[number] > item.delay for number in last)]
    lately = (any(past_delay[max(1, number - item.extend) : number + 1]) for number in last)
    calls = [False, *(fails or late for fails, late in zip(failed[1:], lately))]
    return Detected(failed, calls, [0 if fails else edges for fails, edges in zip(failed, told.edges)])
