"""The faults that a cabinet may have for a test: each changes one rule of the independent model while it runs."""

from model import agent, cabinet, counter, goals, lesser, orders, rings, tick, walks
from model.past import stage_of
from model.stage import Answer
from model.tables import rows
from model.words import Colour, Signal

REAL = {"signal_next": lesser.signal_next, "target": orders.target, "call_stage": cabinet.Cabinet.call_stage,
        "beginning": rings.Rings.beginning, "held": rings.Rings.held}  # fmt: skip


def with_yellow(time):
    """Makes yellow change last a time that a function says."""

    def runs_out(past, p):
        shown = past.last.frame.lights.of[p]
        if shown not in (Colour.YELLOW, Colour.CLEAR):
            return None
        began = rows(past.latched(p))[p]
        if past.run(p) < (time(past, began.yellow) if shown is Colour.YELLOW else began.red_clear):
            return None
        return Colour.CLEAR if shown is Colour.YELLOW and rows(past.tables)[p].red_clear else Colour.RED

    rings.runs_out = tick.runs_out = runs_out


def yellow_short():
    """Yellow change is 0.2 s short."""
    with_yellow(lambda past, yellow: yellow - 2)


def preempt_cuts_yellow():
    """A preempt ends a yellow change after 1 s."""
    with_yellow(lambda past, yellow: min(yellow, 10) if stage_of(past.last.frame.mode) else yellow)


def walk_cut():
    """A walk ends 1 s early."""

    def signal_next(past, p, row):
        real = REAL["signal_next"](past, p, row)
        is_walk = real is Signal.WALK and past.last.frame.signals.of[p] is Signal.WALK
        return Signal.FLASH if is_walk and past.signal_run(p) >= rows(past.signal_latched(p))[p].walk - 10 else real

    lesser.signal_next = walks.signal_next = signal_next


def no_dual_entry():
    """No phase joins by dual entry."""
    rings.Rings.joins = lambda self, p: False


def barrier_crossed():
    """A ring that is done doesn't wait for the other ring at the barrier."""

    def held(self, ring, p):
        found = REAL["held"](self, ring, p)
        return None if found is rings.Hold.BARRIER else found

    def beginning(self):
        begun = set(REAL["beginning"](self))
        used = {self.row[p].ring for p in begun}
        for ring in rings.RINGS:
            if ring not in self.on and ring not in used:
                begun |= set([p for p in sorted(self.demand) if self.row[p].ring == ring and self.can_begin(p)][:1])
        return begun

    rings.Rings.held, rings.Rings.beginning = held, beginning


def offset_late():
    """Local zero is a second late."""

    def target(past, mode, clock):
        return REAL["target"](past, mode, (clock - 10) % 864_000)

    orders.target = target


def download_in_parts():
    """Each part of a download comes into force as it arrives."""

    def call_stage(self, call):
        outcome = REAL["call_stage"](self, call)
        if isinstance(call, agent.Part) and outcome.answer is Answer.STAGED:
            self.controller.install(self.stage.staged)
        return outcome

    cabinet.Cabinet.call_stage = call_stage


def counter_skips_anywhere():
    """The counter skips and waits outside of its window too."""

    def step(may, laid, before, target, cycle):
        early = (target - before - 1) % laid.cycle
        if early == 0:
            return 1
        adds = may.mode == counter.ADD_ONLY or -(-(laid.cycle - early) // may.add) <= -(-early // may.skip)
        if adds or may.mode == counter.DWELL:
            return 0 if cycle.has_moved and cycle.stands < may.add else 1
        return 2 if cycle.skips < may.skip else 1

    tick.step = step


def no_red_revert():
    """A phase turns green again at once."""

    def is_startable(past, p):
        return p in past.last.frame.lights.red

    rings.is_startable = goals.is_startable = is_startable


def minimum_short():
    """A green ends a second before its minimum."""

    def has_least_green(past, p, row):
        return past.run(p) >= rows(past.latched(p))[p].least_green - 10

    lesser.has_least_green = has_least_green


def gap_late():
    """A green ends half a second after its gap."""
    rings.Rings.has_gap = lambda self, p: self.quiet.get(p, 0) >= self.row[p].passage + 5


def maximum_from_green():
    """The maximum counts from the green, not from the call of a conflicting phase."""

    def reason(self, p):
        if self.has_gap(p):
            return rings.Ending.GAP
        is_over = self.opposed.get(p, 0) and self.past.run(p) >= self.row[p].maximum
        return rings.Ending.MAXIMUM if is_over else None

    rings.Rings.reason = reason


MUTANTS = {
    it.__name__.replace("_", "-"): it
    for it in (
        yellow_short, preempt_cuts_yellow, walk_cut, no_dual_entry, barrier_crossed, offset_late, download_in_parts,
        counter_skips_anywhere, no_red_revert, minimum_short, gap_late, maximum_from_green,
    )
}  # fmt: skip
