"""The words for reasons, calls and ends, and where docs/TICK.md has the rule of each."""

from model.calls import Caller

from ..look.called import Called
from .reasons import Kind, Reason

PAGE = "docs/TICK.md"

RULES = {
    Kind.DISABLED: "words-and-counts", Kind.START_UP: "mode", Kind.FLASH: "mode", Kind.ENDING: "mode",
    Kind.SEEK: "certain-phases", Kind.PREEMPT: "preempts", Kind.OMITTED: "demand", Kind.UNCALLED: "demand",
    Kind.REST: "window", Kind.ROOM: "room", Kind.MINIMUM: "served", Kind.WALK: "served", Kind.FLASHING: "served",
    Kind.EXTENDED: "gap", Kind.HELD: "reason", Kind.REQUEST: "reason", Kind.CLEARANCE: "intervals",
    Kind.TURN: "what-begins",
    Kind.REVERT: "can-begin", Kind.NOTHING_NEXT: "next-phase", Kind.BEGINS: "what-begins",
    Kind.ENDS: "what-ends", Kind.UNKNOWN: "order",
}  # fmt: skip
"""The place in docs/TICK.md of the rule of each reason."""

CALLERS = {
    Caller.DETECTOR: "a vehicle on its detector",
    Caller.LOCKED: "a vehicle that has left its detector (locked call)",
    Caller.BUTTON: "a push button",
    Caller.MINIMUM_RECALL: "minimum recall",
    Caller.MAXIMUM_RECALL: "maximum recall",
    Caller.PEDESTRIAN_RECALL: "pedestrian recall",
    Caller.COORDINATED: "coordination: it is a coordinated phase",
}

ENDINGS = {
    "gap": "gap", "maximum": "maximum", "force point": "its force point (yield)", "priority": "a priority request",
    "split filled": "its split is filled", "force-off": "force-off", "seek": "seek", "preempt": "a preempt",
    "on the way to flash": "flash is commanded",
}  # fmt: skip
"""How a green ended, in words."""

COMINGS = {
    "call": "called", "dual entry": "by dual entry: it is not called, and its barrier group is entered",
    "start-up": "by its start-up option", "seek": "as a coordinated phase, while seeking", "preempt": "by a preempt",
}  # fmt: skip
"""How a green begins, in words."""


AT_BARRIER = "at the barrier it waits for the other ring: "
"""How a reason begins that is about the other ring."""

NEXT = {"no call": "no conflicting phase is called", "no room": "no conflicting phase that is called has room"}
"""Why nothing follows a green that may end, in words."""


def rule(reason: Reason) -> str:
    """Returns where the rule of a reason is."""
    return f"{PAGE}#{RULES[reason.kind]}"


def listed(items: list[str]) -> str:
    """Returns words as a list in a sentence."""
    return items[0] if len(items) == 1 else f"{', '.join(items[:-1])} and {items[-1]}"


def called_by(by: tuple[Caller, ...]) -> str:
    """Returns the words for what calls a phase; a vehicle is named once."""
    shown = [it for it in by if it is not Caller.LOCKED or Caller.DETECTOR not in by]
    return listed([CALLERS[it] for it in shown])


class Sentences:
    """The words for reasons of a phase of a cabinet, by their names."""

    def __init__(self, names: Called, cabinet: int, phase: int, is_green: bool) -> None:
        self.names, self.cabinet, self.phase, self.is_green = names, cabinet, phase, is_green

    def phases(self, numbers: tuple[int, ...]) -> str:
        """Returns the words for phases."""
        if len(numbers) != 1:
            return f"phases {listed([str(it) for it in numbers])}" if numbers else "no phase"
        name = self.names.phase(self.cabinet, numbers[0])
        return f"phase {numbers[0]} ({name})" if name else f"phase {numbers[0]}"

    def subject(self, reason: Reason) -> str:
        """Returns the words for the phases that a reason is about."""
        if reason.phases == (self.phase,):
            return "it"
        return f"{AT_BARRIER if reason.across else ''}{self.phases(reason.phases)}"

    def reason(self, it: Reason) -> str:
        """Returns a reason in words."""
        return {**self.of_modes(it), **self.of_others(it), **self.of_itself(it)}[it.kind]

    def of_modes(self, it: Reason) -> dict[Kind, str]:
        """Returns the words for reasons that a mode gives."""
        own = "its green stays: " if self.is_green else ""
        preempt = self.names.preempt(self.cabinet, it.number)
        return {
            Kind.START_UP: "the cabinet starts up: nothing is on until its end, at which phases with start-up 3 or 4 "
            "come first",
            Kind.FLASH: "the cabinet is in flash",
            Kind.ENDING: "flash is commanded: each green ends as soon as it is served, and none begins",
            Kind.SEEK: f"{own}the cabinet seeks pattern {it.number}: only the coordinated {self.phases(it.phases)} may "
            "turn green until both are green",
            Kind.PREEMPT: f"{own}{preempt} is in its {it.word}: only {self.phases(it.phases)} may turn green",
        }

    def of_others(self, it: Reason) -> dict[Kind, str]:
        """Returns the words for reasons that another phase gives, or the phase itself while it is green."""
        who = self.subject(it)
        end = "its force point isn't reached" if it.word == "force point" else "its maximum isn't over"
        return {
            Kind.MINIMUM: f"{who} has its minimum green",
            Kind.WALK: f"{who} shows walk",
            Kind.FLASHING: f"{who} has its pedestrian clearance (flashing don't walk)",
            Kind.EXTENDED: f"{who} is green: there was no gap yet, and {end}",
            Kind.HELD: f"{who} is coordinated and keeps its green until its force point",
            Kind.REQUEST: f"{AT_BARRIER if it.across else ''}priority request {it.number} holds "
            f"{self.phases(it.phases)} past {'its' if len(it.phases) == 1 else 'their'} force point, at most "
            f"{it.ticks / 10:g} s (extension limit)",
            Kind.CLEARANCE: f"{who} is in its clearance (yellow change, red clearance)",
            Kind.TURN: f"{who} {'come' if len(it.phases) > 1 else 'comes'} first in the sequence",
            Kind.REST: f"coordination: {who} rest until the window ends, {it.ticks / 10:g} s from here by the "
            "counter",
        }

    def of_itself(self, it: Reason) -> dict[Kind, str]:
        """Returns the words for reasons that are about the phase itself."""
        came, ended = COMINGS.get(it.word, it.word), ENDINGS.get(it.word, it.word)
        if it.word == "priority":
            ended = f"priority request {it.number} ends greens that are served, so that the coordinated phases come"
        return {
            Kind.DISABLED: "it is not enabled in the tables in force",
            Kind.OMITTED: f"the split of pattern {it.number} omits it",
            Kind.UNCALLED: "nothing calls it: no vehicle, no push button, no recall",
            Kind.ROOM: f"it has no room before its force point in this cycle: {it.ticks / 10:g} s too few",
            Kind.REVERT: "it must be red for its red revert, and for one tick at least",
            Kind.NOTHING_NEXT: f"it rests in green: {NEXT.get(it.word)}",
            Kind.BEGINS: f"it turns green at this tick, {came}",
            Kind.ENDS: f"it turns yellow at this tick: {ended}",
            Kind.UNKNOWN: "the reason isn't known",
        }
