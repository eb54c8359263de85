"""Inputs that are split by name, and merged shard by shard: on one machine, or on many."""

from __future__ import annotations

import os
from typing import Iterable, Iterator, NamedTuple, Optional, Sequence, Tuple, Union

from ._inputs import Environment, environment_file, given_inputs
from ._library import LIST, PROJECT, TABLE
from ._merge import extras_of, merge
from ._refused import Refused
from ._shards import MOST, lines_by_shard
from ._table import Table

# A table costs a merge, and lines that many times its size cost more.
_PAYS = 4

# A path, or the bytes of a list.
Input = Union[str, "os.PathLike[str]", bytes]
# The kind of an input, and its bytes.
Piece = Tuple[int, bytes]


class Judged(NamedTuple):
    """How inputs are judged: the environment file, the dependency group, and the extras."""

    environment: bytes
    group: Optional[str]
    extras: tuple[str, ...]

    @classmethod
    def of(cls, environment: Environment, group: Optional[str], extras: Iterable[str]) -> Judged:
        """Returns how the arguments of `merge` say it, which are refused as there."""
        names = extras_of(extras)
        judged = cls(environment_file(environment, names), group, names)
        judged.merged([])
        return judged

    def merged(self, pieces: Sequence[Piece]) -> Table:
        """Returns the table of inputs."""
        of_kind: dict[int, list[bytes]] = {LIST: [], PROJECT: [], TABLE: []}
        for kind, data in pieces:
            of_kind[kind].append(data)
        return merge(
            lists=of_kind[LIST],
            projects=of_kind[PROJECT],
            tables=of_kind[TABLE],
            environment=self.environment,
            group=self.group,
            extras=self.extras,
        )


def _read(it: Input) -> Piece:
    """Returns the kind and the bytes of an input.

    Raises:
        Refused: it has more bytes than an input may have.
    """
    (given,) = given_inputs((), [it], (), ()) if isinstance(it, bytes) else given_inputs([it], (), (), ())
    if len(given.data) > MOST:
        raise Refused("refused input 1 code 56")
    return given.kind, given.data


def lists_of(texts: Iterable[bytes]) -> Iterator[Piece]:
    """Returns lists of at most as many bytes as an input may have, with the lines of these, which have no more either."""
    found: list[bytes] = []
    size = 0
    for text in filter(None, texts):
        if size + len(text) > MOST:
            yield LIST, b"\n".join(found)
            found, size = [], 0
        found.append(text)
        size += len(text) + 1
    if found:
        yield LIST, b"\n".join(found)


def tables_of(table: Table) -> list[Piece]:
    """Returns a table as inputs."""
    return [(TABLE, it.lines.encode()) for it in table.cut(MOST)] if table else []


def split_inputs(inputs: Iterable[Input], count: int, judged: Judged) -> list[list[Piece]]:
    """Returns for each shard the lines of inputs that are in it, and tables of what else there is."""
    texts: list[list[bytes]] = [[] for _ in range(count)]
    read = list(map(_read, inputs))
    others = [it for it in read if it[0] != LIST]
    # (lists are joined first, since many are small)
    for _, data in lists_of(data for kind, data in read if kind == LIST):
        for text, lines in zip(texts, lines_by_shard(data, count)):
            if lines:
                text.append(b"\n".join(lines))
    found = [list(lists_of(it)) for it in texts]
    for pieces, table in zip(found, judged.merged(others).shards(count) if others else ()):
        pieces += tables_of(table)
    return found


def _size(pieces: Iterable[Piece]) -> int:
    return sum(len(data) for _, data in pieces)


def smaller(shards: list[list[Piece]], judged: Judged) -> list[list[Piece]]:
    """Returns for each shard what is in it, or its table where that is much smaller. That is tried on the shard with most bytes: if its table isn't, no other is made."""
    at = max(range(len(shards)), key=lambda it: _size(shards[it]))
    if _size(tables_of(judged.merged(shards[at]))) * _PAYS > _size(shards[at]):
        return shards
    return [min(it, tables_of(judged.merged(it)), key=_size) for it in shards]


def shard_of(sent: Iterable[Sequence[Piece]], judged: Judged) -> tuple[Table, ...]:
    """Returns the table of a shard, of what stands in it of each part; or several, where its text would have more bytes than an input may have."""
    return tuple(judged.merged([piece for pieces in sent for piece in pieces]).cut(MOST))


def refusal(inputs: Iterable[Input], judged: Judged) -> tuple[int, Optional[Refused]]:
    """Returns how many inputs stand in front of the first that is refused, and how it is refused; or how many there are, and None."""
    number = 0
    for it in inputs:
        try:
            merge(*(() if isinstance(it, bytes) else (it,)), lists=[it] if isinstance(it, bytes) else (), **judged._asdict())
        except Refused as refused:
            return number, refused
        number += 1
    return number, None
