"""A broken rule as a sentence with its numbers, and what would mend it: rings, lists, sequences, times, preempts,
downloads."""

from collections.abc import Iterable

from ..shared.tables import ALL, Tables
from . import rules, street_rules
from ..shared.cells import RINGS, value
from .fields import STARTUPS, UNIT_FIELDS, Unit
from .layout import concurrent, least_green, least_service, sides_by_phase
from .names import Intersection


def seconds(ticks: int) -> str:
    """Returns a time as people write it."""
    return f"{ticks / 10:g} s"


def many(phases: Iterable[object]) -> str:
    """Returns phases, or other numbers, in a row: 2, 5 and 6."""
    words = [str(it) for it in phases]
    return " and ".join(filter(None, (", ".join(words[:-1]), words[-1]))) if words else "none"


def service_words(tables: Tables, phase: int) -> str:
    """Returns the parts of a phase's minimum service, in words."""
    walk, clear = (value(tables, ("phase", phase, column)) for column in (2, 3))
    if least_service(tables, phase) > least_green(tables, phase):
        return f"walk {walk} + flashing don't walk {clear}"
    return f"minimum green {value(tables, ('phase', phase, 4))}"


def clearance_words(tables: Tables, phase: int) -> str:
    """Returns yellow change and red clearance of a phase."""
    yellow, red = (value(tables, ("phase", phase, column)) / 10 for column in (8, 9))
    return f"yellow {yellow:g} + red {red:g}"


class Sentences:
    """The sentences about one cabinet's tables, with the names of its phases."""

    def __init__(self, tables: Tables, known: Intersection | None = None, before: Tables | None = None):
        self.tables, self.known, self.before = tables, known or Intersection(), before

    def of(self, broken: rules.Broken) -> str:
        """Returns the sentence of a broken rule."""
        return getattr(self, f"rule_{broken.rule}")(broken.row)

    def phase(self, number: int) -> str:
        """Returns a phase with its name."""
        return self.known.phase_name(number)

    def listed(self, phase: int) -> tuple:
        """Returns the list of concurrent phases of a phase."""
        return value(self.tables, ("phase", phase, 23))

    def ring(self, phase: int) -> int:
        """Returns the ring of a phase."""
        return value(self.tables, ("phase", phase, 22))

    def rule_1(self, row: int) -> str:
        """The ring is 1 or 2."""
        return (
            f"{self.phase(row)} is enabled, but its ring is {self.ring(row)}, and a cabinet has rings 1 and 2; draw "
            "it in `rings`, or leave it out there"
        )

    def rule_2(self, row: int) -> str:
        """The list holds phases, and not its own."""
        strange = [it for it in self.listed(row) if it not in ALL]
        own = "itself" if row in self.listed(row) else ""
        wrong = " and ".join(
            filter(
                None,
                (
                    own,
                    f"{many(strange)}, which {'is not a phase' if len(strange) == 1 else 'are not phases'}"
                    if strange
                    else "",
                ),
            )
        )
        return f"{self.phase(row)} may be on with {wrong}; its list is {many(self.listed(row))}: remove that"

    def rule_3(self, row: int) -> str:
        """Each phase of the list has this one in turn."""
        other = next(it for it in sorted(concurrent(self.tables, row)) if row not in self.listed(it))
        return (
            f"{self.phase(row)} may be on with {self.phase(other)}, but not the other way round: {other} lists "
            f"{many(self.listed(other))}; put {row} into the list of {other}, or remove {other} from that of {row}"
        )

    def rule_4(self, row: int) -> str:
        """The list names only phases of the other ring."""
        other = next(it for it in sorted(concurrent(self.tables, row)) if self.ring(it) == self.ring(row))
        return (
            f"{self.phase(row)} and {self.phase(other)} are both in ring {self.ring(row)}, which shows one phase at a "
            f"time, yet {row} lists {other} as one that may be on with it; remove it, or put one of them into the "
            "other ring"
        )

    def rule_5(self, row: int) -> str:
        """Some phase of the list is enabled."""
        return (
            f"no enabled phase may be on with {self.phase(row)} (its list is {many(self.listed(row))}); each "
            "barrier group needs a phase in both rings: draw `-` in the other ring, and a placeholder phase that "
            "nothing calls is added"
        )

    def rule_6(self, row: int) -> str:
        """Phases of a ring with a concurrent phase in common have the same ones."""
        other = street_rules.partner_in_ring(self.tables, row)
        assert other is not None
        mine, theirs = (sorted(concurrent(self.tables, it)) for it in (row, other))
        return (
            f"{self.phase(row)} may be on with {many(mine)}, and {self.phase(other)} of the same ring with "
            f"{many(theirs)}; they share a phase, so they are in one barrier group and must have the same "
            "concurrent phases"
        )

    def rule_7(self, row: int) -> str:
        """There are two sides or more."""
        enabled = self.tables.enabled()
        what = f"phases {many(enabled)} are all in one barrier group" if enabled else "no phase is enabled"
        return (
            f"{what}; there must be at least two barrier groups, each with a phase in both rings, "
            'as in `rings = ["2 | 4", "6 | 8"]`'
        )

    def rule_8(self, row: int) -> str:
        """Each ring of a sequence has each of its enabled phases once, and nothing else."""
        for ring in RINGS:
            order, due = value(self.tables, ("sequence", row, ring)), street_rules.of_ring(self.tables, ring)
            if sorted(order) == due:
                continue
            missing = [it for it in due if it not in order]
            extra = [it for it in dict.fromkeys(order) if it not in due]
            twice = [it for it in due if order.count(it) > 1]
            wrong = [
                f"{many(missing)} {'is' if len(missing) == 1 else 'are'} missing" if missing else "",
                f"{many(extra)} {'is' if len(extra) == 1 else 'are'} not enabled in this ring" if extra else "",
                f"{many(twice)} {'is' if len(twice) == 1 else 'are'} listed more than once" if twice else "",
            ]
            return (
                f"sequence {row} has {' '.join(map(str, order)) or 'nothing'} in ring {ring}, whose enabled phases "
                f"are {many(due)}: "
                + "; ".join(filter(None, wrong))
            )
        raise AssertionError("the sequence keeps the rule")

    def rule_9(self, row: int) -> str:
        """The phases of a side are together, and the sides are in one order in both rings."""
        side = sides_by_phase(self.tables)
        for ring in RINGS:
            order = value(self.tables, ("sequence", row, ring))
            for at, phase in enumerate(order):
                behind = [it for it in order[at + 1 :] if side[it] == side[phase]]
                between = order[at + 1 : order.index(behind[0])] if behind else ()
                if between:
                    return (
                        f"sequence {row} parts phases {phase} and {behind[0]} of ring {ring} by {many(between)}, "
                        "which is on another side of the barrier; the phases of a side come one after another"
                    )
        turns = [[many(sorted(it)) for it in street_rules.side_turns(self.tables, row, ring)] for ring in RINGS]
        return (
            f"sequence {row} takes the sides of the barrier as {' | '.join(turns[0])} in ring 1, and as "
            f"{' | '.join(turns[1])} in ring 2; both rings cross each barrier together, so the order is the same in "
            "both"
        )

    def rule_10(self, row: int) -> str:
        """The yellow change is 3.0 s or more."""
        yellow = value(self.tables, ("phase", row, 8))
        hint = " (are whole seconds meant? A cell has tenths of a second)" if 3 <= yellow <= 6 else ""
        return f"{self.phase(row)} has a yellow change of {seconds(yellow)}{hint}; it must be 3 s or more"

    def rule_11(self, row: int) -> str:
        """The red revert is no longer than the minimum service and clearance of any other phase."""
        other = street_rules.sooner(self.tables, row)
        assert other is not None
        least = least_service(self.tables, other) + self.tables.clearance(other)
        return (
            f"{self.phase(row)} has a red revert of {seconds(value(self.tables, ('phase', row, 10)))}, but "
            f"{self.phase(other)} may have ended after {seconds(least)} ({service_words(self.tables, other)} + "
            f"{clearance_words(self.tables, other)}); make the red revert that or less"
        )

    def rule_12(self, row: int) -> str:
        """Phases that turn green as start-up ends are concurrent."""
        others = [it for it in street_rules.start_up(self.tables) if it != row and it not in self.listed(row)]
        word = STARTUPS[value(self.tables, ("phase", row, 20))]
        return (
            f"{self.phase(row)} starts up {word}, and so {'does' if len(others) == 1 else 'do'} "
            f"{' and '.join(map(self.phase, others))}, which may "
            'not be on with it; let one of them start up "red"'
        )

    def rule_13(self, row: int) -> str:
        """The correction mode is 2, 3 or 4, and its limits are 1 or more."""
        wrong = []
        if value(self.tables, ("unit", 1)) == 1:
            wrong.append('the correction of offsets is "other"; it must be "dwell", "shortway" or "add only"')
        for name, it in UNIT_FIELDS.items():
            if it.column in (2, 3, 4) and value(self.tables, ("unit", it.column)) < 1:
                wrong.append(f"{name} is 0; it must be {1 / Unit.TENTHS.value:g} s or more")
        return "; ".join(wrong)

    def rule_20(self, row: int) -> str:
        """Track, dwell and exit of a preempt hold enabled phases, none twice, all concurrent."""
        name = self.known.preempts.get(row, "")
        preempt = f"preempt {row}" + (f" ({name})" if name else "")
        for column, word in street_rules.SETS.items():
            phases = value(self.tables, ("preempt", row, column))
            if street_rules.goes_together(self.tables, phases):
                continue
            off = [it for it in phases if it not in self.tables.enabled()]
            if off:
                return (
                    f"{preempt} has {many(off)} among its {word} phases, which {'is' if len(off) == 1 else 'are'} not "
                    "enabled"
                )
            twice = [it for it in dict.fromkeys(phases) if phases.count(it) > 1]
            if twice:
                return f"{preempt} has {many(twice)} twice among its {word} phases"
            one, other = next((a, b) for a in phases for b in phases if a != b and b not in self.listed(a))
            return (
                f"{preempt} is to show {self.phase(one)} and {self.phase(other)} together ({word}), which may not be "
                "on together"
            )
        raise AssertionError("the preempt keeps the rule")

    def rule_21(self, row: int) -> str:
        """A download leaves the enabled phases, their rings and their lists as they are."""
        new, old = self.tables, self.before
        assert old is not None
        on = [row in tables.enabled() for tables in (new, old)]
        if on[0] != on[1]:
            what = f"turns {self.phase(row)} {'on' if on[0] else 'off'}"
        elif self.ring(row) != value(old, ("phase", row, 22)):
            what = f"moves {self.phase(row)} from ring {value(old, ('phase', row, 22))} to ring {self.ring(row)}"
        else:
            lists = [many(sorted(concurrent(tables, row))) for tables in (old, new)]
            what = f"changes what may be on with {self.phase(row)}: {lists[0]} before, {lists[1]} now"
        return f"the download {what}; a cabinet accepts that only in flash: command flash first (pattern 255)"

    def rule_22(self, row: int) -> str:
        """Where walk is 0, so is the pedestrian clearance."""
        clear = value(self.tables, ("phase", row, 3))
        return (
            f"{self.phase(row)} has a pedestrian clearance of {clear} s without a walk; give it a walk, or take the "
            "clearance out"
        )
