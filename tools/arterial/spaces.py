"""The spaces of observations and actions, and what an environment derives from: gymnasium's if it is installed, else
small classes with the same use."""

import abc
from typing import TYPE_CHECKING, Any

import numpy

if TYPE_CHECKING:

    class Env:
        """What an environment derives from."""

else:
    try:
        from gymnasium import Env
    except ImportError:
        Env = object


class Space(abc.ABC):
    """What all spaces have: `shape`, `dtype`, `sample()`, `contains(x)`, `seed(n)`, and `x in space`."""

    def __init__(self, shape: tuple[int, ...], dtype: Any) -> None:
        self.shape, self.dtype = shape, numpy.dtype(dtype)
        self._random = numpy.random.default_rng()

    def seed(self, seed: int | None = None) -> int | None:
        """Seeds `sample`."""
        self._random = numpy.random.default_rng(seed)
        return seed

    @abc.abstractmethod
    def sample(self) -> Any:
        """Returns an element at random."""

    @abc.abstractmethod
    def contains(self, x: Any) -> bool:
        """Tells whether a value is an element."""

    def __contains__(self, x: Any) -> bool:
        return self.contains(x)

    def whole(self, x: Any) -> Any:
        """Returns a value as an array of whole numbers of this shape, None if it isn't one."""
        found = numpy.asarray(x)
        return found if found.shape == self.shape and found.dtype.kind in "iub" else None


class Box(Space):
    """Arrays of numbers between two bounds."""

    def __init__(self, low: float, high: float, shape: tuple[int, ...], dtype: Any) -> None:
        super().__init__(shape, dtype)
        self.low, self.high = numpy.full(shape, low, dtype), numpy.full(shape, high, dtype)

    def sample(self) -> Any:
        most = numpy.where(numpy.isfinite(self.high), self.high, self.low + 100.0)
        return self._random.uniform(self.low, most).astype(self.dtype)

    def contains(self, x: Any) -> bool:
        found = numpy.asarray(x)
        return bool(found.shape == self.shape and (found >= self.low).all() and (found <= self.high).all())

    def __repr__(self) -> str:
        return f"Box({self.low.min():g}, {self.high.max():g}, {self.shape}, {self.dtype})"


class MultiDiscrete(Space):
    """Arrays of whole numbers from 0 to below the numbers of `nvec`."""

    def __init__(self, nvec: Any) -> None:
        self.nvec = numpy.asarray(nvec, dtype=numpy.int64)
        super().__init__(self.nvec.shape, numpy.int64)

    def sample(self) -> Any:
        return self._random.integers(0, self.nvec)

    def contains(self, x: Any) -> bool:
        found = self.whole(x)
        return found is not None and bool((found >= 0).all() and (found < self.nvec).all())

    def __repr__(self) -> str:
        return f"MultiDiscrete({self.nvec.tolist()})"


class MultiBinary(Space):
    """Arrays of 0 and 1."""

    def __init__(self, shape: tuple[int, ...]) -> None:
        super().__init__(shape, numpy.int8)

    def sample(self) -> Any:
        return self._random.integers(0, 2, self.shape, dtype=numpy.int8)

    def contains(self, x: Any) -> bool:
        found = self.whole(x)
        return found is not None and bool(((found == 0) | (found == 1)).all())

    def __repr__(self) -> str:
        return f"MultiBinary({self.shape})"


def box(shape: tuple[int, ...]) -> Any:
    """Returns the space of arrays of numbers from 0 on."""
    try:
        from gymnasium import spaces
    except ImportError:
        return Box(0.0, float("inf"), shape, numpy.float32)
    return spaces.Box(0.0, float("inf"), shape, numpy.float32)


def choices(counts: list[int]) -> Any:
    """Returns the space of one choice for each of several things."""
    try:
        from gymnasium import spaces
    except ImportError:
        return MultiDiscrete(counts)
    return spaces.MultiDiscrete(counts)


def switches(shape: tuple[int, ...]) -> Any:
    """Returns the space of arrays of 0 and 1."""
    try:
        from gymnasium import spaces
    except ImportError:
        return MultiBinary(shape)
    return spaces.MultiBinary(shape)
