"""A merge in steps, of which a person sees how far it is."""

from __future__ import annotations

import os
import time
from typing import Any, Callable, Iterator, Optional, Sequence

from ._parts import Input, Judged, Piece, split_inputs, tables_of
from ._refused import Refused
from ._shards import MOST
from ._table import Table

# So many bytes take less than a second, as a rule.
_FEW = MOST
# How many bytes are a shard, and which part of the work is done when all inputs are split, and when all shards are merged.
_SHARD = 4_000_000
_SPLIT, _MERGED = 0.3, 0.9
_WIDTH = 30


class Bar:
    """A bar on a terminal that tells how much of some work is done. It is shown once more than a second of work remains.

    >>> import io
    >>> to = io.StringIO()
    >>> bar = Bar(to, clock=iter([0.0, 1.0, 3.0]).__next__)
    >>> bar.tell(0.6)
    >>> bar.tell(0.25)
    >>> to.getvalue()
    '\\r[#######                       ] 25%, 9 s left'
    >>> bar.end()
    >>> to.getvalue().endswith(' \\r')
    True
    """

    def __init__(self, to: Any, clock: Optional[Callable[[], float]] = None) -> None:
        self._to, self._shown = to, ""
        self._clock = clock or time.monotonic
        self._began = self._clock()

    def tell(self, part: float) -> None:
        """Tells that this part of the work is done, of which the whole is 1."""
        left = (self._clock() - self._began) * (1 - part) / part if part else 0.0
        text = f"[{'#' * int(_WIDTH * part):{_WIDTH}}] {int(100 * part)}%, {left:.0f} s left"
        if text != self._shown and (left > 1 or self._shown):
            self._write(text.ljust(len(self._shown)))
            self._shown = text

    def end(self) -> None:
        """Clears the bar."""
        if self._shown:
            self._write(" " * len(self._shown) + "\r")

    def _write(self, text: str) -> None:
        self._to.write(f"\r{text}")
        self._to.flush()


def _size_of(it: Input) -> int:
    """Returns how many bytes an input has, which aren't read here."""
    return len(it) if isinstance(it, bytes) else os.path.getsize(it)


def are_many(inputs: Sequence[Input]) -> bool:
    """Returns whether a merge of inputs may take more than a second."""
    return sum(map(_size_of, inputs)) > _FEW


def _batches(inputs: Sequence[Input], sizes: Sequence[int]) -> Iterator[tuple[list[Input], int]]:
    """Returns the inputs in batches, of a shard's bytes or of one larger input, each with its bytes."""
    batch: list[Input] = []
    size = 0
    for it, own in zip(inputs, sizes):
        batch.append(it)
        size += own
        if size >= _SHARD:
            yield batch, size
            batch, size = [], 0
    if batch:
        yield batch, size


def merged_in_steps(inputs: Sequence[Input], judged: Judged, tell: Callable[[float], None]) -> Table:
    """Returns the table of inputs, which is made shard by shard, and tells after each step which part of the work is done.

    Raises:
        Refused: an input isn't accepted. It isn't told which one.
    """
    sizes = list(map(_size_of, inputs))
    total = sum(sizes) or 1
    count = total // _SHARD + 1
    shards: list[list[Piece]] = [[] for _ in range(count)]
    done = 0
    for batch, size in _batches(inputs, sizes):
        for pieces, more in zip(shards, split_inputs(batch, count, judged)):
            pieces += more
        done += size
        tell(_SPLIT * done / total)
    tables: list[Piece] = []
    for number, pieces in enumerate(shards, 1):
        tables += tables_of(judged.merged(pieces))
        pieces.clear()
        tell(_SPLIT + (_MERGED - _SPLIT) * number / count)
    return judged.merged(tables)
