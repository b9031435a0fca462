"""A cabinet: its controller, its download stage and its agent, and the lines of what comes to it.

docs/TRACE.md, "How a trace is read".
"""

from collections.abc import Iterator
from dataclasses import dataclass

from model import agent
from model.agent import Ask, ask_of
from model.controller import Controller
from model.lines import accepted_line, frame_line, refused_line, reply_line
from model.past import Moment
from model.priority import Request
from model.scenario import Button, Detector, Input, PreemptInput
from model.shown import Shown
from model.stage import Answer, Outcome, Stage

FIELDS, POLLS, LOADS, PRIORITY, TICKS = range(5)
"""The passes: what comes from the street, on the three streams of frames, and ticks."""


@dataclass
class Reply:
    """A reply and the pass that brought what it answers."""

    stream: int
    octets: bytes


class Cabinet:
    """A cabinet of a run."""

    def __init__(self, number: int, controller: Controller, community: bytes) -> None:
        self.number = number
        self.controller = controller
        self.community = community
        self.stage = Stage()
        self.replies: list[Reply] = []

    def tell(self, given: Input) -> None:
        """Takes an input from the street."""
        if isinstance(given, Detector):
            self.controller.detector(given.phase, given.on)
        elif isinstance(given, Button):
            self.controller.button(given.phase)
        elif isinstance(given, PreemptInput):
            self.controller.preempt(given.number, given.on)

    def call_stage(self, call: agent.LoadCall) -> Outcome:
        """Makes a call of the stage, and puts tables in force that were accepted."""
        stage, controller = self.stage, self.controller
        in_force, flashing = controller.past.tables, controller.is_flashing
        if isinstance(call, agent.Begin):
            return stage.begin(call.load, in_force)
        if isinstance(call, agent.Part):
            return stage.part(call.load, call.part, call.cells)
        if isinstance(call, agent.Verify):
            return stage.verify(call.load, call.total, in_force, flashing)
        outcome = stage.finish(call.load, in_force, flashing)
        if outcome.answer is Answer.ACCEPTED:
            controller.install(stage.staged)
        return outcome

    def obey(self, order: agent.Order) -> None:
        """Does what a binding of a Set asks for."""
        if isinstance(order, agent.Command):
            self.controller.command(order.pattern)
        elif isinstance(order, agent.SetClock):
            self.controller.set_clock(order.clock)
        elif isinstance(order, Request):
            self.controller.request(order)
        else:
            self.controller.cancel(order.number)

    def act_on(self, ask: Ask) -> Outcome | None:
        """Does what a message asks for; returns what the stage answered, None where it wasn't asked."""
        if ask.wish is None or isinstance(ask.wish, agent.Fault):
            return None
        if isinstance(ask.wish, list):
            for order in ask.wish:
                self.obey(order)
            return None
        return self.call_stage(ask.wish)

    def load_line(self, call: agent.Wish, outcome: Outcome | None) -> Iterator[bytes]:
        """Yields the line of a download that ends with a call, if it does."""
        if outcome is None:
            return
        if outcome.answer is Answer.ACCEPTED:
            yield accepted_line(self.number, call.load, self.controller.past.version)
        elif outcome.answer is Answer.REFUSED:
            yield refused_line(self.number, call.load, outcome.broken)

    def frame(self, stream: int, octets: bytes) -> Iterator[bytes]:
        """Takes a frame on a stream, and yields its lines."""
        ask = ask_of(octets, self.community, self.controller.past.tables)
        if ask is None:
            yield reply_line(self.number, stream, None)
            return
        outcome = self.act_on(ask)
        yield from self.load_line(ask.wish, outcome)
        reply = agent.answer(ask, Shown(self.controller, self.stage), outcome)
        self.replies.append(Reply(stream, reply))
        yield reply_line(self.number, stream, reply)

    def tick(self) -> Iterator[bytes]:
        """Takes a tick, and yields its line if it has one."""
        moment, has_line = self.controller.tick()
        if has_line:
            yield self.line_of(moment)

    def line_of(self, moment: Moment) -> bytes:
        """Returns the line of a moment."""
        return frame_line(self.number, moment.number, moment.frame)
