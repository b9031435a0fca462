"""Judges traces by the independent model: what a trace shows, without any rule of a tick."""

import os
from typing import NamedTuple

from streettools.shared.independent import has_model

from .errors import Missing
from .runs import text_of_trace
from .traces import Trace


class Judgement(NamedTuple):
    """Whether a trace keeps the promises of traces: true in an `if` and an `assert` exactly if it keeps all of them.

    - `broken`: one sentence for each place at which a promise is broken.
    """

    broken: tuple[str, ...]

    def __bool__(self) -> bool:
        return not self.broken


def judge(trace: "Trace | str | bytes | os.PathLike[str]") -> Judgement:
    """Returns where a trace breaks a promise: conflicting phases together, a wrong clearance time, tables that aren't a
    whole download, a local zero without its greens, an offset that isn't met in time (docs/GUARANTEES.md).

    The independent model in plain Python (`model/promises`) finds these places; it isn't proved. It reads the lines and
    the tables of the trace, and uses no rule of a tick, so it can also read a trace that `check` doesn't accept.
    `trace` is a `Trace`, the text of one, or the path of a file. Raises `Missing` if the model isn't installed: a wheel
    doesn't contain it.

    >>> import arterial
    >>> trace = arterial.run({"version": 1, "rounds": 1, "ticks": 60, "cabinets": [{"base": "max8"}]})
    >>> bool(arterial.judge(trace))
    True
    >>> bool(arterial.judge(trace.text.replace(b"F 1 60 RG", b"F 1 60 GG")))
    False
    """
    text = text_of_trace(trace)
    if not has_model():
        raise Missing("the independent model is missing: checkouts and installations have it, wheels don't")
    from model.promises.judging import broken_promises

    return Judgement(tuple(broken_promises(text)))


__all__ = ["Judgement", "judge"]
