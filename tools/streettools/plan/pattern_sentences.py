"""The sentences of rules 14 to 19, which ask of patterns: splits and offsets, with what each phase needs and which has
time to spare."""

from ..shared.tables import Tables
from . import pattern_rules, rules
from ..shared.cells import value
from .layout import Layout, least_service
from .names import Intersection
from .sentences import Sentences, clearance_words, many, seconds, service_words


DWELL, SHORTWAY = 2, 3
ASKED = " (the rule asks it in every mode of correction)"


def ceiling(ticks: int) -> int:
    """Returns ticks as whole seconds, rounded up."""
    return -(-ticks // 10)


def spare(laid: Layout, phase: int) -> int:
    """Returns the whole seconds that a phase can give away."""
    if laid.is_omitted(phase):
        return laid.time(phase) // 10
    room = laid.window_room() if phase in laid.coordinated else laid.room(phase)
    return max(0, min(room // 10, laid.time(phase) // 10))


class PatternSentences(Sentences):
    """The sentences about one cabinet's tables, patterns among them."""

    def laid(self, row: int) -> Layout:
        """Returns a pattern laid over its cycle."""
        return Layout(self.tables, row)

    def rule_14(self, row: int) -> str:
        """The split of a pattern is 1 to 32, and its sequence has phases."""
        split, sequence = (value(self.tables, ("pattern", row, column)) for column in (4, 5))
        wrong = []
        if not 1 <= split <= 32:
            wrong.append(f"it runs split {split}, and splits are 1 to 32")
        if not 1 <= sequence <= 16:
            wrong.append(f"it runs sequence {sequence}, and sequences are 1 to 16")
        elif not pattern_rules.has_sequence(self.tables, row):
            wrong.append(f"it runs sequence {sequence}, which is empty in both rings")
        return f"pattern {row} has a cycle of {value(self.tables, ('pattern', row, 2))} s, but " + "; ".join(wrong)

    def rule_15(self, row: int) -> str:
        """The offset is less than the cycle."""
        cycle, offset = (value(self.tables, ("pattern", row, column)) for column in (2, 3))
        return (
            f"pattern {row} has an offset of {offset} s in a cycle of {cycle} s; it must be less: {offset % cycle} s "
            "is the same moment"
        )

    def rule_16(self, row: int) -> str:
        """The split has one coordinated phase in each ring, concurrent, neither of them omitted."""
        laid = self.laid(row)
        pair = laid.coordinated
        by_ring = {ring: [it for it in pair if self.ring(it) == ring] for ring in (1, 2)}
        head = f"pattern {row} (split {laid.split}) coordinates {many(pair)}"
        for ring, phases in by_ring.items():
            if len(phases) != 1:
                return (
                    f"{head}: {many(phases)} of ring {ring}; it needs one phase of each ring that may be on together, "
                    "as 2 and 6"
                )
        one, other = by_ring[1][0], by_ring[2][0]
        if other not in self.listed(one):
            return f"{head}, which may not be on together; they must be in one barrier group"
        omitted = next(it for it in pair if laid.is_omitted(it))
        return f"{head}, but its split mode leaves {self.phase(omitted)} out; a coordinated phase can't be omitted"

    def rule_17(self, row: int) -> str:
        """The times of each ring add up to the cycle, and on each side the sums of both rings are equal."""
        laid = self.laid(row)
        for ring, order in enumerate(laid.orders, 1):
            total = sum(map(laid.time, order))
            if total != laid.cycle:
                sums = " + ".join(f"{laid.time(it) // 10}" for it in order)
                much, way = abs(total - laid.cycle) // 10, "take {} s off" if total > laid.cycle else "give {} s more"
                return (
                    f"pattern {row} (split {laid.split}): the splits of ring {ring}, phases {many(order)}, come to "
                    f"{sums} = {total // 10} s, but the cycle is {laid.cycle // 10} s; {way.format(much)}"
                )
        for side in laid.sides:
            phases = [laid.of_side(side, ring) for ring in (1, 2)]
            totals = [sum(map(laid.time, it)) // 10 for it in phases]
            if totals[0] != totals[1]:
                return (
                    f"pattern {row} (split {laid.split}): up to the barrier phases {many(phases[0])} of ring 1 have "
                    f"{totals[0]} s, and {many(phases[1])} of ring 2 {totals[1]} s; both rings cross the barrier "
                    "together, so these must be the same"
                )
        raise AssertionError("the pattern keeps the rule")

    def rule_18(self, row: int) -> str:
        """A phase that isn't coordinated or omitted has time for its minimum service, with room for the clearances."""
        laid = self.laid(row)
        return "\n".join(self.short(laid, phase) for phase in laid.waited() if laid.room(phase) < 0)

    def short(self, laid: Layout, phase: int) -> str:
        """Returns what a phase with too short a split needs, and where it may come from."""
        missing = ceiling(-laid.room(phase))
        need = laid.time(phase) - laid.room(phase)
        if laid.last_end(phase) == laid.slots[phase][1] - laid.tables.clearance(phase):
            ends = clearance_words(laid.tables, phase)
        else:
            slowest = max(laid.side(phase), key=laid.tables.clearance)
            ends = f"{clearance_words(laid.tables, slowest)} of phase {slowest} at the barrier"
        head = f"pattern {laid.pattern} gives {self.phase(phase)} a split of {laid.time(phase) // 10} s"
        body = f"{service_words(laid.tables, phase)} + {ends} need {seconds(need)}; give it {missing} s more"
        return f"{head}, but {body}{self.giver(laid, phase, missing)}"

    def giver(self, laid: Layout, phase: int, missing: int) -> str:
        """Returns from where seconds may come: a phase of the same side of the ring, or else of the ring."""
        order = next(it for it in laid.orders if phase in it)
        near = [it for it in order if it != phase and it in laid.side(phase)]
        for it in sorted(near, key=lambda it: -spare(laid, it)):
            if spare(laid, it) >= missing:
                return f", e.g. from phase {it}, which has {spare(laid, it)} s to spare"
        far = [it for it in order if it not in laid.side(phase)]
        best = max(far, key=lambda it: spare(laid, it), default=None)
        if best is not None and spare(laid, best) >= missing:
            return (
                f", e.g. from phase {best}, which has {spare(laid, best)} s to spare (then in both rings, since it "
                "is in another barrier group)"
            )
        if sum(spare(laid, it) for it in order if it != phase) >= missing:
            return "; no single phase of its ring has that much to spare: --fix finds out whether several together have"
        return (
            f"; its ring doesn't have that much to spare: it needs a longer cycle than {laid.cycle // 10} s, or a "
            "shorter service"
        )

    def rule_19(self, row: int) -> str:
        """The coordinated phases stay green long enough together."""
        laid = self.laid(row)
        one, other = laid.coordinated
        head = f"pattern {row} coordinates {self.phase(one)} and {self.phase(other)}"
        if laid.window < 0:
            return (
                f"{head}, but they are never green together: the later one starts (local zero) after the other has "
                f"ended; their greens must overlap for {seconds(max(laid.window_needs().values()))}: change the splits "
                "or the sequence"
            )
        shared = f"from local zero, the later of their starts, both are green for {seconds(laid.window)}"
        return f"{head}: {shared}, but {self.why_short(laid)}; {self.longer(laid)}"

    def why_short(self, laid: Layout) -> str:
        """Returns why the green of the coordinated phases together is too short."""
        mode, add, skip = (value(self.tables, ("unit", column)) for column in (1, 3, 4))
        what, _ = max(laid.window_needs().items(), key=lambda it: it[1])
        if what == "add":
            asked = ASKED if mode == DWELL else ""
            return (
                f"while coordination corrects its offset, a cycle may be lengthened by add_limit, {seconds(add)}"
                f"{asked}, which this green must have room for"
            )
        asked = "" if mode == SHORTWAY else ASKED
        skipped = "while coordination corrects its offset, a cycle may be shortened by skip_limit, "
        skipped += f"{seconds(skip)}{asked}"
        if what == "skip":
            return f"{skipped} (a skip), which takes twice that, {seconds(2 * skip)}, of this green"
        phase = int(what.split()[1])
        return (
            f"{skipped} (a skip): {seconds(max(0, laid.window - skip))} of this green are left then, and "
            f"{self.phase(phase)} needs {service_words(self.tables, phase)} = "
            f"{seconds(least_service(self.tables, phase))}"
        )

    def longer(self, laid: Layout) -> str:
        """Returns the nearest limits that pass, and how much longer a green would pass."""
        add, skip = (value(self.tables, ("unit", column)) for column in (3, 4))
        service = max(least_service(self.tables, phase) for phase in laid.coordinated)
        passing = {"add_limit": (add, laid.window), "skip_limit": (skip, min(laid.window // 2, laid.window - service))}
        lower = {name: most for name, (now, most) in passing.items() if now > most}
        missing = ceiling(max(laid.window_needs().values()) - laid.window)
        green = f"the splits of {many(laid.coordinated)} so long that this green has {missing} s more (as --fix does)"
        if any(most < 1 for most in lower.values()):
            return f"make {green}"
        limits = " and ".join(f"{name} {most / 10:g} s or less" for name, most in lower.items())
        return f"make {limits}, or {green}"


def sentences(tables: Tables, known: Intersection, broken: rules.Broken, before: Tables | None = None) -> list[str]:
    """Returns the sentences of a broken rule: of rule 18 one for each phase, of any other one."""
    return PatternSentences(tables, known, before).of(broken).split("\n")
