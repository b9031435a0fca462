"""At each local zero both coordinated phases are green; so is each of them wherever the counter is below its force
point."""

from collections.abc import Iterator

from model.plan import is_defined, plan
from model.promises.told import Street
from model.words import Kind


def zeros(street: Street) -> Iterator[str]:
    """Tells what a street shows against this promise."""
    for seen in street.seen:
        if seen.mode.kind is not Kind.COORD:
            continue
        tables, number = street.tables(seen), seen.mode.number
        if not is_defined(tables, number):
            yield f"tick {seen.tick}: pattern {number} isn't defined"
            continue
        laid = plan(tables, number)
        for p in sorted(laid.coordinated):
            if seen.counter < laid.force[p] and seen.colours[p - 1] != "G":
                told = f"phase {p} shows {seen.colours[p - 1]}"
                yield f"tick {seen.tick}: {told} at counter {seen.counter} of pattern {number}"
