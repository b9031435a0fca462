"""A map written from a network: what can be found there, and what the user has to give."""

import itertools
from collections.abc import Iterable, Sequence
from dataclasses import dataclass, field

from ..shared.fault import Fault
from ..shared.tables import Tables
from .checks import may_be_on
from .compass import Compass, LinkPhase, by_nema
from .network import CROSSING, STRAIGHT, Link, Network

LENGTH = 15


@dataclass
class Question:
    """What can't be decided: of which movement of which signal, and in which words; `how` are the options that answer
    it."""

    signal: str
    movement: str
    words: str
    how: str

    def __str__(self) -> str:
        return f"signal {self.signal}: {self.words} ({self.how})"


@dataclass
class Row:
    """A movement of a map that is made. `yields` names the movements to which it gives way; `is_said` means that the
    user gave its phase, `may_yield` that the user lets it give way."""

    name: str
    phase: int | None
    links: list[Link] = field(default_factory=list)
    yields: list[str] = field(default_factory=list)
    permissive: int | None = None
    is_said: bool = False
    may_yield: bool = False
    is_weak: bool = False

    @property
    def walk(self) -> bool:
        """Tells whether persons walk there."""
        return self.links[0].turn == CROSSING

    def phases(self) -> list[int]:
        """Returns the phases under which the movement may have way, as far as they are known."""
        return [it for it in (self.phase, self.permissive) if it is not None]


def rows_of(told: list[LinkPhase]) -> list[Row]:
    """Gathers links by movement."""
    rows: dict[str, Row] = {}
    for it in told:
        row = rows.setdefault(it.name, made_of(it, it.name))
        if (row.phase, row.permissive) != (it.phase, it.permissive):
            name = f"{it.name}{it.phase}"
            row = rows.setdefault(name, made_of(it, name))
        row.links.append(it.link)
        row.is_weak = row.is_weak or it.is_weak
    return list(rows.values())


def made_of(it: LinkPhase, name: str) -> Row:
    """Returns a movement without links, by what was found of one of them."""
    return Row(name, it.phase, permissive=it.permissive, is_said=it.is_said, is_weak=it.is_weak)


Place = tuple[str, str]
"""A signal and a movement."""


@dataclass(frozen=True)
class Said:
    """What the user says: the way of phase 2 (0 north, 1 east ..; None: looked for at each signal), phases by movement,
    movements that may yield, whether left turns are permissive in addition to their phases, the metres of a detector,
    and the tables of the cabinets (none: those of std8)."""

    main: int | None = None
    phases: dict[Place, int] = field(default_factory=dict)
    yields: frozenset[Place] = frozenset()
    is_permissive: bool = False
    length: float = LENGTH
    tables: Sequence[Tables] = ()


class Maker:
    """Makes a map of a network by what the user says."""

    def __init__(self, network: Network, said: Said = Said()) -> None:
        self.network, self.said = network, said
        self.questions: list[Question] = []
        self.used: set[Place] = set()
        if said.tables and len(said.tables) != len(network.links):
            signals, cabinets = len(network.links), len(said.tables)
            words = f"{network.path.name} has {signals} signals, and the scenario {cabinets} cabinets"
            raise Fault(f"{words}: a signal has one cabinet, in the order of their names")

    def tables(self, cabinet: int) -> Tables:
        """Returns the tables of a cabinet."""
        return self.said.tables[cabinet - 1] if self.said.tables else Tables()

    def text(self, source: str) -> str:
        """Returns the map's text."""
        parts = [f'network = "{source}"\n']
        for cabinet, signal in enumerate(self.network.links, 1):
            parts.append(self.signal(signal, cabinet))
        for option, places in (("--phase", self.said.phases), ("--yields", self.said.yields)):
            if unused := next((it for it in places if it not in self.used), None):
                raise Fault(f"{option}: signal {unused[0]} has no movement {unused[1]}")
        return "\n".join(parts)

    def told(self, signal: str, tables: Tables) -> list[LinkPhase]:
        """Returns what is found of a signal's links, together with the user's answers."""
        program = self.network.programs.get(signal)
        if program is not None and program.kind == "NEMA":
            found = by_nema(self.network, signal)
        else:
            found = Compass(self.network, signal, self.said.main, self.said.is_permissive, tables.enabled()).told()
        for it in found:
            if (signal, it.name) in self.said.phases:
                self.used.add((signal, it.name))
                it.phase, it.why, it.is_said = self.said.phases[signal, it.name], "", True
        return found

    def signal(self, signal: str, cabinet: int) -> str:
        """Returns the part of a signal."""
        tables = self.tables(cabinet)
        told = self.told(signal, tables)
        rows = rows_of(told)
        self.ask_phases(signal, told)
        self.let_yield(signal, rows, tables)
        served = {phase for row in rows for phase in row.phases()}
        idle = [phase for phase in tables.enabled() if phase not in served]
        lines = ["[[signal]]", f'id = "{signal}"', f"cabinet = {cabinet}"]
        lines += [f"idle = {idle}"] if idle else []
        for row in rows:
            lines += ["", *self.movement(row)]
        for phase in sorted({row.phase for row in rows if row.phase is not None}):
            if lanes := lanes_of(row for row in rows if row.phase == phase and not row.walk):
                lines += ["", "[[signal.detector]]", f"phase = {phase}", listed("lanes", lanes)]
                lines.append(f"length = {self.said.length:g}")
        return "\n".join(lines) + "\n"

    def ask_phases(self, signal: str, told: list[LinkPhase]) -> None:
        """Asks for the phases that weren't found."""
        for name, why in {it.name: it.why for it in told if it.phase is None}.items():
            how = f"--phase '{signal} {name}=N'"
            self.questions.append(Question(signal, name, f"which phase has {name}? {why}", how))

    def let_yield(self, signal: str, rows: list[Row], tables: Tables) -> None:
        """Lets turns yield to pedestrians and to opposing vehicles, if SUMO has them give way and the user didn't give
        a phase; the user decides about others that cross and may be on at once."""
        for row in rows:
            if (signal, row.name) in self.said.yields:
                self.used.add((signal, row.name))
                row.may_yield = True
        of = {link: row for row in rows for link in row.links}
        asked: set[tuple[str, str]] = set()
        for a, b in self.network.conflicts(signal):
            one, other = of[a], of[b]
            for p, q in itertools.product(one.phases(), other.phases()):
                if may_be_on(p, q, tables) and not self.is_sound((one, a, p), (other, b, q)):
                    if (one.name, other.name) not in asked:
                        asked.add((one.name, other.name))
                        self.ask_clash(signal, (one, a, p), (other, b, q))

    def is_sound(self, one: tuple[Row, Link, int], other: tuple[Row, Link, int]) -> bool:
        """Tells whether one of two crossing links gives way to the other; lets it, if that is what the user wants or
        what the rules of the road say."""
        ways = ((*one, *other), (*other, *one))
        if any(self.gives_way(*it) for it in ways):
            return True
        for row, a, _, first, b, _ in ways:
            is_turn = a.turn != STRAIGHT and self.network.meets(a, b) and not (row.is_said or first.is_said)
            if not row.walk and self.network.gives_way(a, b) and (row.may_yield or row.is_weak or is_turn):
                row.yields.append(first.name)
                return True
        return False

    def gives_way(self, row: Row, a: Link, phase: int, first: Row, b: Link, _: int) -> bool:
        """Tells whether a link gives way to another by what the map has."""
        is_permissive = phase == row.permissive and self.network.meets(a, b)
        return self.network.gives_way(a, b) and (first.name in row.yields or is_permissive)

    def ask_clash(self, signal: str, one: tuple[Row, Link, int], other: tuple[Row, Link, int]) -> None:
        """Asks what the user wants for two movements that cross and may be on at once."""
        (row, a, p), (first, b, q) = one, other
        on = f"both have phase {p}" if p == q else f"their phases {p} and {q} may be on at once"
        yielding = next((it for it, x, y in ((row, a, b), (first, b, a)) if self.network.gives_way(x, y)), row)
        asked = first if first.is_said and not row.is_said else row
        how = f"--phase '{signal} {asked.name}=N' gives another phase"
        if not yielding.walk:
            how += f", --yields '{signal} {yielding.name}' lets it give way"
        self.questions.append(Question(signal, asked.name, f"{row.name} and {first.name} cross, and {on}", how))

    def movement(self, row: Row) -> list[str]:
        """Returns the lines of a movement."""
        phase = '"?"' if row.phase is None else row.phase
        lines = ["[[signal.movement]]", f'name = "{row.name}"', f"phase = {phase}"]
        lines += ["walk = true"] if row.walk else []
        lines += [listed("yields", row.yields)] if row.yields else []
        lines += [f"permissive = {row.permissive}"] if row.permissive is not None else []
        return [*lines, listed("links", [it.name for it in row.links])]


def lanes_of(rows: Iterable[Row]) -> list[str]:
    """Returns the lanes from which some movements lead, each once."""
    return list(dict.fromkeys(link.start for row in rows for link in row.links))


def listed(name: str, items: list[str]) -> str:
    """Returns a list of texts as TOML."""
    return f"{name} = [{', '.join(chr(34) + it + chr(34) for it in items)}]"
