"""The command `./arterial look`: does what its words ask for. What takes a while to import is imported where it is
needed."""

from ..shared.fault import Fault
from ..shared.status import Status
from . import known
from .reading import read
from .words import parser

MOST = 36_000
"""A picture over time has at most an hour, in ticks: more isn't readable on a page."""


def cabinet_of(reader, number):
    """Returns a cabinet's number, which the trace must have."""
    if not 1 <= number <= reader.cabinets:
        raise Fault(f"the trace has no cabinet {number}")
    return number


def span(words, reader, usual):
    """Returns the first and the last tick to look at, which the trace must have."""
    start, whole = words.first, reader.rounds * reader.ticks
    end = min(whole, start + usual if words.last is None else words.last)
    if start >= whole:
        raise Fault(f"the trace ends at tick {whole}")
    if end <= start:
        raise Fault("the last tick must come after the first")
    if words.command != "offset" and end - start > MOST:
        raise Fault(f"at most {MOST} ticks (an hour) fit into this picture")
    return start, end


def street_of(words, reader):
    """Returns the cabinets of the street that is asked for, which the trace must have, in its order."""
    cabinets = [cabinet_of(reader, it) for it in words.cabinets or range(1, reader.cabinets + 1)]
    if len(set(cabinets)) < len(cabinets):
        raise Fault("a cabinet is named twice")
    if words.travel and len(words.travel) != len(cabinets) - 1:
        raise Fault(f"{len(cabinets)} cabinets have {len(cabinets) - 1} times of travel between them")
    return cabinets


def rings(words, reader, names):
    """Draws a cabinet's rings."""
    from . import rings

    number = cabinet_of(reader, words.cabinet)
    seen = rings.collect(reader, number, *span(words, reader, 1800), names.partners(number))
    reader.finish()
    rings.draw(seen, words.output, names, words.start)


def coordination(words, reader, names):
    """Draws a street."""
    from . import coordination, planned

    cabinets = street_of(words, reader)
    if words.planned and not words.travel:
        raise Fault("--planned goes with --travel")
    plan = planned.read(words.planned) if words.planned else None
    look = coordination.View(*span(words, reader, 3000), sum(words.travel or ()), words.phases, names)
    corners = coordination.collect(reader, cabinets, look)
    reader.finish()
    coordination.draw(corners, words.travel, words.output, plan, words.start)


def offset(words, reader, names):
    """Draws how an offset is brought about."""
    from . import offset

    seen = offset.collect(reader, cabinet_of(reader, words.cabinet), *span(words, reader, reader.rounds * reader.ticks))
    reader.finish()
    offset.draw(seen, words.output, names, words.start)


def page(words, reader, names):
    """Writes a page."""
    from .page import writing

    writing.write(reader, names, writing.Asked(street_of(words, reader), words.travel, words.start), words.output)


def report(words, reader, names):
    """Writes the report."""
    from ..shared.saying import printed
    from . import report

    value = report.collect(reader, names)
    reader.finish()
    if words.output is None:
        printed(report.text(value, words.json, names))
        return
    from ..shared import files

    with files.output(words.output) as out:
        out.write(report.text(value, words.json, names))


def events(words, reader, names):
    """Writes the event log."""
    from ..shared import files
    from ..shared.saying import say
    from . import events

    reader.answered()
    with files.output(words.output) as out:
        events.write(reader, words.start, out, names)
        reader.finish()
    for number in range(1, reader.cabinets + 1):
        if names.left_out(number):
            say("look", f"{names.cabinet(number)}: {names.left_out(number)}")


DOES = {it.__name__: it for it in (rings, coordination, offset, page, report, events)}

TRAFFIC = ("paths", "purdue", "splits", "queues")
"""Pictures of a run with traffic, whose input is its folder (docs/QUEUES.md)."""


def main(arguments):
    """Does what the words ask for, and returns the exit status."""
    if arguments and arguments[0] in TRAFFIC:
        from ..cosim.pictures.command import main as draw

        return draw(arguments)
    words = parser().parse_args(arguments)
    read(words.trace, not words.no_check, lambda it: shown(words, it))
    return Status.DONE


def shown(words, reader):
    """Shows a trace as the words ask for."""
    names = known.names_of(words, reader)
    known.settle(words, names, reader)
    DOES[words.command](words, reader, names)
