"""The engine with stand-ins for workers: a Ctrl-C in the middle of a batch, a result that is lost with its worker, a
batch with which workers die."""

import os
import signal
from types import SimpleNamespace

import pytest
from streettools.sweep.crew import Lost
from streettools.sweep.engine import Engine, Job


class AtOnce:
    """Workers that are done with each batch as soon as it is sent; with the second one a Ctrl-C comes."""

    address = "here"

    def __init__(self):
        self.sent = []
        self.deadly = None

    def count(self):
        return 1

    def submit(self, indexes, over):
        self.sent.append(indexes)
        ticket = tuple(indexes)
        over(ticket)
        if len(self.sent) == 2 and self.deadly is None:
            os.kill(os.getpid(), signal.SIGINT)
        return ticket

    def waits(self, ticket, over):
        self.sent.append(ticket)

    def rows(self, ticket):
        if self.deadly in ticket:
            raise Lost
        return [["done", index] for index in ticket]


class Kept:
    """A journal that keeps its rows in a list."""

    def __init__(self):
        self.rows = []

    def add(self, rows):
        self.rows += rows


def engine(crew):
    """Returns an engine over workers, with a journal in memory."""
    keys = SimpleNamespace(prepared=SimpleNamespace(columns=[0], study=SimpleNamespace(own=[])))
    return Engine(crew, keys, Kept(), lambda count: None)


def test_a_ctrl_c_ends_between_two_batches_and_each_row_that_was_taken_is_kept():
    one, before = engine(AtOnce()), signal.getsignal(signal.SIGINT)
    with pytest.raises(KeyboardInterrupt):
        one.run(iter([(index, f"key {index}") for index in range(1000)]))
    assert one.journal.rows and len(one.journal.rows) < 1000
    assert one.journal.rows == [(f"key {it}", ["done", it]) for it in range(len(one.journal.rows))]
    assert signal.getsignal(signal.SIGINT) is before


def test_a_result_that_was_lost_with_its_worker_is_waited_for_again():
    one = engine(AtOnce())
    one.crew.rows = lambda ticket: None
    one.take("a ticket", Job([7], ["key 7"], 0.0))
    assert one.journal.rows == [] and one.jobs == {"a ticket": Job([7], ["key 7"], 0.0)}
    assert one.crew.sent == ["a ticket"]


def test_a_batch_with_which_workers_die_is_taken_apart_to_find_the_run():
    one = engine(AtOnce())
    one.crew.deadly = 5
    one.run(iter([(index, f"key {index}") for index in range(8)]), 8)
    rows = dict(one.journal.rows)
    assert len(rows) == 8
    assert rows.pop("key 5") == ["failed", "its worker died, four times", None, None]
    assert all(row[0] == "done" for row in rows.values())
