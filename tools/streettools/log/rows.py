"""Reads the rows of a log, block by block, and keeps those of each device in a file of its own.

A block is read at once by pandas; if that isn't possible, line by line. A row keeps its tick since 1970, its code and
its parameter in 16 bytes, so the memory that is needed is that of a block, and later that of one device.
"""

import csv
import gzip
import io
import os
import pathlib
from collections.abc import Iterator
from dataclasses import dataclass, field
from typing import Any, Protocol

import numpy as np
import pandas as pd

from ..shared.fault import Fault
from . import layout as layouts
from . import times
from .findings import Findings
from .layout import Layout

ROW = np.dtype([("tick", "<i8"), ("code", "<i4"), ("parameter", "<i4")])
BLOCK = 1 << 23
LONGEST_LINE = 1 << 16
MOST_NUMBER = 1 << 30
MOST_DEVICES = 4096
GZIP, PARQUET = b"\x1f\x8b", b"PAR1"
MOST_BYTES = 1 << 36
"""How many bytes of text are read at the most, 64 GB, also out of a compressed file."""


class Stream(Protocol):
    """What blocks are read from."""

    def read(self, size: int = -1, /) -> bytes:
        """Reads some bytes."""


@dataclass
class Given:
    """How a user says that a log is written."""

    columns: str | None = None
    day_first: bool | None = None


@dataclass
class Spool:
    """The rows of each device in a folder, in the order of the log; and what was found."""

    folder: pathlib.Path
    findings: Findings
    counts: dict[str, int] = field(default_factory=dict)
    rows: int = 0
    doubts: list[str] = field(default_factory=list)
    has_tenths: bool = False

    def path(self, device: str) -> pathlib.Path:
        """Returns the file of a device."""
        return self.folder / f"{list(self.counts).index(device)}.rows"

    def keep(self, device: str, rows: Any) -> None:
        """Keeps rows of a device."""
        if device not in self.counts:
            if len(self.counts) == MOST_DEVICES:
                raise Fault(f"the log has more than {MOST_DEVICES:,} devices: is the column of devices another one?")
            self.counts[device] = 0
        self.counts[device] += len(rows)
        self.rows += len(rows)
        with open(self.path(device), "ab") as out:
            rows.tofile(out)

    def of(self, device: str) -> Any:
        """Returns the rows of a device."""
        return np.fromfile(self.path(device), ROW)


def blocks(stream: Stream, path: str) -> Iterator[bytes]:
    """Yields whole lines of a stream, in blocks."""
    rest, total = b"", 0
    while True:
        try:
            piece = stream.read(BLOCK)
        except (OSError, EOFError) as fault:
            raise Fault(f"{path}: it can't be decompressed: {fault}") from None
        total += len(piece)
        if total > MOST_BYTES:
            raise Fault(f"{path}: it has more than 64 GB")
        if not piece:
            if rest:
                yield rest
            return
        end = piece.rfind(b"\n") + 1
        if end == 0:
            rest += piece
        else:
            yield rest + piece[:end]
            rest = piece[end:]
        if len(rest) > LONGEST_LINE + BLOCK:
            raise Fault(f"{path}: a line has more than {BLOCK:,} bytes: it isn't a text of rows")


class Reader:
    """Reads the rows of a file in CSV into a spool."""

    def __init__(self, path: str, spool: Spool, given: Given, advance: Any = None) -> None:
        self.path, self.spool, self.given, self.advance = path, spool, given, advance
        self.layout: Layout | None = None
        self.line = 0

    def read(self, stream: Stream) -> None:
        """Reads all rows."""
        for block in blocks(stream, self.path):
            if self.layout is None:
                block = self.begun(block)
            self.take(block)
            if self.advance:
                self.advance(len(block))
        if self.layout is None:
            raise Fault(f"{self.path}: it is empty")

    def begun(self, block: bytes) -> bytes:
        """Finds out how rows are written, and returns the block without the lines before them."""
        block = block.removeprefix(b"\xef\xbb\xbf")
        if b"\0" in block[:4096]:
            raise Fault(f"{self.path}: it is not a text: expected CSV (also with gzip) or Parquet")
        lines = block.split(b"\n", layouts.PROBED)[: layouts.PROBED]
        texts = [it.decode("utf-8", "replace").rstrip("\r")[:LONGEST_LINE] for it in lines]
        found = layouts.layout(texts, self.given.columns, self.given.day_first, self.path)
        if found.is_doubtful:
            self.spool.doubts.append(
                "dates could be read as month/day or day/month; month/day is taken (--day-first for the other)"
            )
        self.layout, self.line = found, found.header
        return block.split(b"\n", found.header)[-1] if found.header else block

    def take(self, block: bytes) -> None:
        """Keeps the rows of a block."""
        assert self.layout is not None
        lines = block.count(b"\n") + (not block.endswith(b"\n") and block != b"")
        rows = self.at_once(block, lines)
        if rows is None:
            rows = self.one_by_one(block)
        self.keep(*rows)
        self.line += lines

    def at_once(self, block: bytes, lines: int) -> tuple[Any, Any, Any, Any] | None:
        """Returns ticks, devices, codes and parameters of a block if each of its lines is a row; else None."""
        it = self.layout
        assert it is not None
        places = [it.time, it.code, it.parameter] + ([] if it.device is None else [it.device])
        texts = {place: "category" for place in (it.time, it.device) if place is not None}
        try:
            table = pd.read_csv(
                io.BytesIO(block), header=None, names=list(range(it.width)), usecols=sorted(places), dtype=texts,
                sep=it.delimiter, skip_blank_lines=False, na_filter=False, engine="c", skipinitialspace=True,
            )  # fmt: skip
        except (ValueError, pd.errors.ParserError, UnicodeDecodeError, OverflowError):
            return None
        numbers = [table[it.code], table[it.parameter]]
        if len(table) != lines or any(column.dtype != np.int64 for column in numbers):
            return None
        codes, parameters = (column.to_numpy() for column in numbers)
        if any(len(column) and (column.min() < 0 or column.max() >= MOST_NUMBER) for column in (codes, parameters)):
            return None
        ticks = self.ticks_of(table[it.time])
        if ticks is None:
            return None
        devices = None if it.device is None else table[it.device]
        return ticks, devices, codes, parameters

    def ticks_of(self, column: Any) -> Any:
        """Returns the ticks of a column of times; None if one isn't a time."""
        assert self.layout is not None
        texts = column.cat.categories
        found = np.empty(len(texts), np.int64)
        finer = np.zeros(len(texts), bool)
        try:
            for place, text in enumerate(texts):
                found[place], finer[place] = times.moment(str(text).strip(), self.layout.style)
        except ValueError:
            return None
        places = column.cat.codes.to_numpy()
        self.count_finer(int(np.count_nonzero(finer[places])))
        return found[places]

    def count_finer(self, count: int) -> None:
        """Counts times that are finer than a tick."""
        self.spool.findings.add("finer", "", count=count)

    def one_by_one(self, block: bytes) -> tuple[Any, Any, Any, Any]:
        """Returns ticks, devices, codes and parameters of the lines of a block that are rows, and counts the others."""
        it = self.layout
        assert it is not None
        ticks, devices, codes, parameters = [], [], [], []
        most = max(place for place in (it.time, it.device, it.code, it.parameter) if place is not None)
        for number, line in enumerate(block.decode("utf-8", "replace").split("\n"), self.line + 1):
            text = line.rstrip("\r")
            if layouts.is_remark(text):
                continue
            words = layouts.words_of(text[:LONGEST_LINE], it.delimiter)
            try:
                if len(words) <= most:
                    raise ValueError
                tick, is_finer = times.moment(words[it.time], it.style)
                code, parameter = number_of(words[it.code]), number_of(words[it.parameter])
            except ValueError:
                self.spool.findings.add("malformed", f"line {number} of {os.path.basename(self.path)}")
                continue
            self.count_finer(int(is_finer))
            ticks.append(tick)
            codes.append(code)
            parameters.append(parameter)
            devices.append("" if it.device is None else words[it.device])
        column = None if it.device is None else pd.Series(devices, dtype="category")
        return np.array(ticks, np.int64), column, np.array(codes, np.int64), np.array(parameters, np.int64)

    def keep(self, ticks: Any, devices: Any, codes: Any, parameters: Any) -> None:
        """Keeps rows, device by device."""
        rows = np.empty(len(ticks), ROW)
        rows["tick"], rows["code"], rows["parameter"] = ticks, codes, parameters
        self.spool.has_tenths = self.spool.has_tenths or bool(np.any(ticks % 10))
        if devices is None:
            if len(rows):
                self.spool.keep("", rows)
            return
        places = devices.cat.codes.to_numpy()
        order = np.argsort(places, kind="stable")
        ends = np.searchsorted(places[order], np.arange(len(devices.cat.categories) + 1))
        for number, name in enumerate(devices.cat.categories):
            part = rows[order[ends[number] : ends[number + 1]]]
            if len(part):
                self.spool.keep(plain(str(name)), part)


def number_of(word: str) -> int:
    """Returns a number without a sign, which may have `.0` after it; ValueError if it isn't one."""
    whole = word.removesuffix(".0")
    if not layouts.is_number(whole):
        raise ValueError
    return int(whole)


def plain(device: str) -> str:
    """Returns the name of a device without blanks around it, and without zeros before a number."""
    found = device.strip()
    return str(int(found)) if layouts.is_number(found) else found


def read_parquet(path: str, spool: Spool, given: Given) -> None:
    """Reads a file in Parquet, batch by batch, through the reader of CSV."""
    try:
        import pyarrow.parquet as parquet
    except ModuleNotFoundError:
        raise Fault(f"{path}: a file in Parquet needs Python's package pyarrow (pip install pyarrow)") from None
    try:
        file = parquet.ParquetFile(path)
        reader, is_first = Reader(path, spool, given), True
        for batch in file.iter_batches():
            text = batch.to_pandas().to_csv(index=False, header=is_first).encode()
            reader.take(reader.begun(text) if is_first else text)
            is_first = False
    except Fault:
        raise
    except Exception as fault:  # pyarrow has many kinds
        raise Fault(f"{path}: it can't be read as Parquet: {' '.join(str(fault).split())[:200]}") from None


def read(path: str, spool: Spool, given: Given, advance: Any = None) -> None:
    """Reads a log into a spool."""
    with open(path, "rb") as file:
        magic = file.read(4)
        file.seek(0)
        if magic == PARQUET:
            read_parquet(path, spool, given)
        elif magic.startswith(GZIP):
            with gzip.open(file) as stream:
                Reader(path, spool, given, advance).read(stream)
        else:
            Reader(path, spool, given, advance).read(file)


csv.field_size_limit(LONGEST_LINE)
