"""What a check finds in the schedules of day plans: as in the schedule of one day, for each of them."""

from collections.abc import Iterator
from dataclasses import replace

from ..shared.tables import Tables
from . import schedule_checks
from .findings import Finding
from .reading import Street


def of_days(street: Street, tables: list[Tables]) -> Iterator[Finding]:
    """Yields what is doubtful in the schedules of the day plans but the first, which is the street's own."""
    if not street.day_plans:
        return
    own = {str(it) for it in schedule_checks.all_of(street, tables)}
    try:
        for plan in street.day_plans[1:]:
            street.on(plan)
            for it in schedule_checks.all_of(street, tables):
                if str(it) not in own:
                    yield replace(it, words=f"day plan {plan.name!r}: {it.words}")
    finally:
        street.on(street.day_plans[0])
