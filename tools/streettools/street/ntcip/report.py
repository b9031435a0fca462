"""The objects of the event log, globalReport of NTCIP 1201: their instances, what is read, what a Set may put in."""

from collections.abc import Callable
from functools import partial

from ...shared.ber import COUNTER, NAME, NULL, OCTETS, OPAQUE, Arcs, Field, arcs_of, field, name_content
from ...shared.cells import Lists, Numbers
from ...shared.oids import GLOBAL
from .eventlog import ANDED, CLASSES, CONFIGS, DISABLED, LOG, LOG_SIZE, MOST_ROWS, ON_CHANGE, Class, Config, Event
from .instances import Provider
from .judging import Kind, Names, Seconds, number_in
from .pdus import text, whole
from .reads import Front, Read, constant, kept, rows

REPORT = GLOBAL + (4,)
CONFIG, ROWS, CLASS = REPORT + (2, 1), REPORT + (4, 1), REPORT + (6, 1)
"""The rows of eventLogConfigTable, eventLogTable and eventClassTable."""
ANY_NUMBER, LONGEST_TEXT = Numbers(-(1 << 31), (1 << 31) - 1), 255
CONFIG_KINDS: dict[int, Kind] = {
    2: Numbers(1, CLASSES), 3: Numbers(ON_CHANGE, ANDED), 4: ANY_NUMBER, 5: ANY_NUMBER, 6: Names(), 7: Names(),
    8: Numbers(DISABLED, LOG),
}  # fmt: skip
CLASS_KINDS: dict[int, Kind] = {2: Numbers(0, MOST_ROWS), 3: Seconds(), 4: Lists(LONGEST_TEXT)}
"""What the columns take that can be set."""
PARTS = {2: "class_", 3: "mode", 4: "first", 5: "second", 6: "compared", 7: "logged", 8: "action"}
"""The part of a configuration that each column is."""


def settable() -> dict[Arcs, Kind]:
    """Returns what each object takes that can be set."""
    found = {CONFIG + (column, row): kind for column, kind in CONFIG_KINDS.items() for row in range(1, CONFIGS + 1)}
    return found | {CLASS + (column, row): it for column, it in CLASS_KINDS.items() for row in range(1, CLASSES + 1)}


# what is read


def of_config(told: Callable[[Config], Field]) -> Callable[[int], Read]:
    """Returns what reads a column of the configurations."""
    return lambda row: kept(lambda front: told(front.log.configs[row]))


def of_class(told: Callable[[Class], Field]) -> Callable[[int], Read]:
    """Returns what reads a column of the classes."""
    return lambda row: kept(lambda front: told(front.log.classes[row]))


def named(arcs: Arcs) -> Field:
    """Returns the name of an object as a value."""
    return Field(NAME, name_content(arcs))


def number_of_row(row: int) -> Read:
    """Returns what reads the number of a row."""
    return constant(whole(row))


def report() -> dict[Arcs, Read]:
    """Returns the objects whose instances are always there."""
    sizes = {1: CONFIGS, 3: LOG_SIZE, 5: CLASSES}
    made = {REPORT + (it, 0): constant(whole(size)) for it, size in sizes.items()}
    configs = {1: number_of_row, 9: of_config(lambda it: whole(it.status))}
    configs |= {column: of_config(partial(part_of, column)) for column in PARTS}
    classes = {
        1: number_of_row, 2: of_class(lambda it: whole(it.limit)), 3: of_class(lambda it: whole(it.cleared, COUNTER)),
        4: of_class(lambda it: text(it.description)), 5: of_class(lambda it: whole(len(it.rows))),
        6: of_class(lambda it: whole(it.count, COUNTER)),
    }  # fmt: skip
    return made | rows(CONFIG, CONFIGS, configs) | rows(CLASS, CLASSES, classes)


def part_of(column: int, config: Config) -> Field:
    """Returns a column of a configuration."""
    value = getattr(config, PARTS[column])
    return named(value) if isinstance(CONFIG_KINDS[column], Names) else whole(value)


class Rows:
    """The rows of the log as the instances of a column: the index is the class, and the number in it from 1 on. The
    oldest event of a class is number 1."""

    def __init__(self, told: Callable[[Event], Field] | None, place: int = 0) -> None:
        self.told, self.place = told, place

    def has(self, front: Front, index: Arcs) -> bool:
        """Tells whether there is a row."""
        its = front.log.classes.get(index[0]) if len(index) == 2 else None
        return its is not None and 1 <= index[1] <= len(its.rows)

    def after(self, front: Front, index: Arcs) -> Arcs | None:
        """Returns the first row after an index."""
        for number, its in front.log.classes.items():
            least = index[1] + 1 if index[:1] == (number,) and len(index) > 1 else 1
            if index[:1] <= (number,) and least <= len(its.rows):
                return number, least
        return None

    async def read(self, front: Front, index: Arcs) -> Field:
        """Returns a column of a row; without `told` it is an arc of the index."""
        number, row = index
        return self.told(front.log.classes[number].rows[row - 1]) if self.told else whole(index[self.place])


def logged(event: Event) -> Field:
    """Returns the value that was logged, encoded with its tag and length; NULL in place of one that wasn't."""
    return Field(OPAQUE, field(NULL, b"") if event.value is None else field(*event.value))


def log_rows() -> dict[Arcs, Provider]:
    """Returns the columns of the log."""
    columns: dict[int, Provider] = {
        1: Rows(None, 0), 2: Rows(None, 1), 3: Rows(lambda it: whole(it.config)),
        4: Rows(lambda it: whole(it.seconds, COUNTER)), 5: Rows(logged),
    }  # fmt: skip
    return {ROWS + (column,): it for column, it in columns.items()}


# what is set


def is_of_report(name: Arcs) -> bool:
    """Tells whether a name is one of the event log's."""
    return name[: len(REPORT)] == REPORT


def put(front: Front, name: Arcs, value: Field) -> None:
    """Sets an object that takes the value."""
    column, row = name[-2:]
    if name[:-2] == CONFIG:
        config = front.log.configs[row]
        is_name = isinstance(CONFIG_KINDS[column], Names)
        setattr(config, PARTS[column], arcs_of(value.content) if is_name else number_in(value))
        config.restart()
        return
    its = front.log.classes[row]
    if value.tag == OCTETS:
        its.description = value.content
    elif column == 2:
        its.limit_to(number_in(value))
    else:
        its.clear(number_in(value))
