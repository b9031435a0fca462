"""The variants of a study, each by its number: every value of each parameter with every value of the others, each
sample, each seed."""

import math
from dataclasses import dataclass, replace
from typing import Any

from .study import Study
from .values import Kind, Option

Cells = tuple[tuple[int, tuple[Any, ...]], ...]
"""Cells with their values, each with the number of its cabinet."""


Placed = tuple[int, Cells, str | None]
"""A variant that isn't only a place of the grid: its place, the cells that are put after its values, and the scenario
that is run as it is, without the values of parameters: None for the variant's own, "" for the study's base, else the
name of a file."""
Asked = int | Placed
"""Which variant is run: its place in the grid, or more."""


@dataclass(frozen=True)
class Variant:
    """A variant: its place from 0 on, the value of each parameter in the study's order, the seed, and cells that are
    put after the values."""

    index: int
    values: tuple[Any, ...]
    seed: int | None
    cells: Cells = ()

    def shown(self) -> list[Any]:
        """Returns the values as the table shows them."""
        return [it.name if isinstance(it, Option) else it for it in self.values]


class Variants:
    """All variants of a study. None is kept: each is made from its place."""

    def __init__(self, study: Study) -> None:
        self.study = study
        self.grid = [it.values.count() for it in study.parameters if it.values.kind is not Kind.RANDOM]
        self.seeds = study.seeds or (None,)

    def count(self) -> int:
        """Returns how many variants there are."""
        return math.prod(self.grid) * self.study.samples * len(self.seeds)

    def at(self, index: int) -> Variant:
        """Returns a variant by its place: the first parameter changes slowest, then the sample, then the seed."""
        rest, seed = divmod(index, len(self.seeds))
        rest, sample = divmod(rest, self.study.samples)
        places = []
        for count in reversed(self.grid):
            rest, place = divmod(rest, count)
            places.append(place)
        values = []
        for it in self.study.parameters:
            if it.values.kind is Kind.RANDOM:
                values.append(it.values.drawn(self.study.sample_seed, sample))
            else:
                values.append(it.values.at(places.pop()))
        return Variant(index, tuple(values), self.seeds[seed])

    def of(self, asked: Asked) -> Variant:
        """Returns a variant by its place in the grid, or by more."""
        if isinstance(asked, int):
            return self.at(asked)
        index, cells, base = asked
        if base is None:
            return replace(self.at(index), cells=cells)
        return Variant(index, (Option("", (), base or None),), self.seeds[index % len(self.seeds)], cells)
