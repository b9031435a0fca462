"""The objects of the front by their types, each with what provides its instances: fixed ones, or rows that come and go.

An object type is a column of a table or a scalar. Its name is followed by the index of an instance, of one or two arcs.
"""

import bisect
from collections.abc import Iterator
from typing import Protocol

from ...shared.ber import Arcs, Field
from .reads import Front, Read

INDEX_ARCS = (1, 2)
"""How many arcs an index may have."""


class Provider(Protocol):
    """Provides the instances of an object type."""

    def has(self, front: Front, index: Arcs) -> bool:
        """Tells whether there is an instance with this index."""

    def after(self, front: Front, index: Arcs) -> Arcs | None:
        """Returns the first index of an instance after an index, which needs not be one; None after the last."""

    async def read(self, front: Front, index: Arcs) -> Field:
        """Returns the value of an instance that there is."""


class Fixed:
    """Instances that are always there."""

    def __init__(self, reads: dict[Arcs, Read]) -> None:
        self.reads, self.order = reads, sorted(reads)

    def has(self, front: Front, index: Arcs) -> bool:
        """Tells whether there is an instance with this index."""
        return index in self.reads

    def after(self, front: Front, index: Arcs) -> Arcs | None:
        """Returns the first index after an index."""
        place = bisect.bisect_right(self.order, index)
        return self.order[place] if place < len(self.order) else None

    async def read(self, front: Front, index: Arcs) -> Field:
        """Returns the value of an instance."""
        return await self.reads[index](front)


def fixed(reads: dict[Arcs, Read]) -> dict[Arcs, Provider]:
    """Returns the object types of instances that are always there, whose last arc is their index."""
    found: dict[Arcs, dict[Arcs, Read]] = {}
    for name, read in reads.items():
        found.setdefault(name[:-1], {})[name[-1:]] = read
    return {name: Fixed(its) for name, its in found.items()}


class Objects:
    """Object types in the order of a walk. None of their names begins with that of another."""

    def __init__(self, types: dict[Arcs, Provider]) -> None:
        self.types, self.order = types, sorted(types)

    def found(self, name: Arcs) -> tuple[Provider, Arcs] | None:
        """Returns the provider of the type that a name is of, and the index; None if it is of none."""
        for arcs in INDEX_ARCS:
            if provider := self.types.get(name[:-arcs]):
                return provider, name[-arcs:]
        return None

    def has(self, front: Front, name: Arcs) -> bool:
        """Tells whether a name is that of an instance."""
        found = self.found(name)
        return found is not None and found[0].has(front, found[1])

    async def read(self, front: Front, name: Arcs) -> Field:
        """Returns the value of an instance that there is."""
        found = self.found(name)
        assert found is not None, name
        return await found[0].read(front, found[1])

    def following(self, front: Front, name: Arcs) -> Arcs | None:
        """Returns the name of the first instance after a name, None after the last."""
        place = bisect.bisect_right(self.order, name)
        if place and name[: len(self.order[place - 1])] == self.order[place - 1]:
            place -= 1
        for type_ in self.order[place:]:
            index = name[len(type_) :] if name[: len(type_)] == type_ else ()
            if (after := self.types[type_].after(front, index)) is not None:
                return type_ + after
        return None

    def fixed_names(self) -> Iterator[Arcs]:
        """Yields the names of the instances that are always there, in the order of a walk."""
        for name in self.order:
            its = self.types[name]
            if isinstance(its, Fixed):
                yield from (name + index for index in its.order)
