"""Merges on a cluster, by the engine `dask` (Debian's python3-distributed; by pip, `tubrambutan[dask]`).

Tasks read the inputs. Each part of them is split by name, as by `tubrambutan.split`, and each shard is merged on its own. What a task gives depends on its inputs
alone, so a task may run twice and a worker may be lost: the bytes are the same.
"""

from __future__ import annotations

import importlib
from typing import Any, Iterable, Optional, Protocol, Sequence

from ._inputs import Environment
from ._parts import Input, Judged, Piece, refusal, shard_of, smaller, split_inputs
from ._refused import Refused
from ._shards import count_of
from ._table import Table

# (without their types, which only some releases of the engine have)
_dask: Any = importlib.import_module("dask")
_distributed: Any = importlib.import_module("distributed")


class Shard(Protocol):
    """A shard on the cluster, which is one of the engine's futures (`distributed.Future`)."""

    def result(self) -> tuple[Table, ...]:
        """Returns the tables of the shard, once they are made: one, or several where the text of one would have more than 16,777,216 bytes."""


def _sent(inputs: Iterable[Input], count: int, judged: Judged) -> list[list[Piece]]:
    """Returns what a part of the inputs sends to each shard."""
    return smaller(split_inputs(inputs, count, judged), judged)


def _refused_as_one(parts: Sequence[Any], judged: Judged, fault: Refused, client: Any) -> Refused:
    """Returns the refusal of one merge of all inputs, one of which is refused."""
    front = 0
    for number, refused in client.gather(client.compute([_dask.delayed(refusal)(part, judged) for part in parts])):
        front += number
        if refused is not None:
            return Refused(refused.text.replace(" input 1 ", f" input {front + 1} "), refused.subject, refused.is_text)
    # (no input is at fault, but memory)
    return Refused(f"refused code {' '.join(map(str, fault.codes))}")


def merge(
    inputs: Any,
    count: int,
    *,
    environment: Environment = None,
    group: Optional[str] = None,
    extras: Iterable[str] = (),
    client: Any = None,
    progress: bool = False,
) -> list[Shard]:
    r"""Merges a bag of inputs on a cluster, and returns the shards of their table, which stay there: `result()` brings one here. Joined they are the table of one merge.

    Each partition of the bag is a part, which one task reads and splits. It sends its lines to the shards, or their tables where these are much smaller. A task holds the inputs of
    a part, or what is sent to one shard, and no more. So a bag has some parts for each worker, and the count is such that a shard is no larger than a part.

    >>> import dask.bag, distributed, tubrambutan.dask
    >>> with distributed.Client(processes=False, n_workers=1, dashboard_address=None):
    ...     bag = dask.bag.from_sequence([b"flask>=2\ndjango", b"attrs\nFlask<3", b"flask!=2.1"], npartitions=2)
    ...     tables = [table for shard in tubrambutan.dask.merge(bag, 2) for table in shard.result()]
    >>> tables[0] | tables[1] == tubrambutan.merge(lists=["attrs\ndjango\nflask>=2,!=2.1,<3"])
    True

    Args:
        inputs: a `dask.bag.Bag` of paths, and of bytes, which are those of lists. Workers open the paths, whose names tell the kinds as in `tubrambutan.merge`.
        count: the number of shards.
        environment: as in `tubrambutan.merge`. The environment of this interpreter counts, and not those of the workers.
        group: as in `tubrambutan.merge`.
        extras: as in `tubrambutan.merge`.
        client: the engine's client (`distributed.Client`), by default the current one. Its workers import this package, and are spawned: a library call may not come
            from a forked child.
        progress: whether the engine's progress bar is shown on standard output.

    Raises:
        Refused: an input isn't accepted, as in one merge of all in their order. All inputs are read a second time to find the first at fault.
        ValueError: the count is below 1, or the engine is told to fork its workers; and as in `tubrambutan.merge`.
        OSError: a worker can't read a file.
        TypeError: an argument has another type.
    """
    if _dask.config.get("distributed.worker.multiprocessing-method", "spawn") == "fork":
        raise ValueError("workers are spawned and not forked: set distributed.worker.multiprocessing-method to spawn")
    if not hasattr(inputs, "to_delayed"):
        raise TypeError(f"inputs must be a dask.bag.Bag, not {type(inputs).__name__}")
    judged = Judged.of(environment, group, extras)
    used = _distributed.get_client() if client is None else client
    parts, sending = inputs.to_delayed(), _dask.delayed(_sent, nout=count_of(count))
    sent = [list(sending(part, count, judged)) for part in parts]
    shards = used.compute([_dask.delayed(shard_of)(list(pieces), judged) for pieces in zip(*sent)])
    if progress:
        with used.as_current():
            _distributed.progress(shards, notebook=False)
    faults = [it for it in [shard.exception() for shard in shards] if it is not None]
    if not faults:
        return list(shards)
    raise _refused_as_one(parts, judged, faults[0], used) if isinstance(faults[0], Refused) else faults[0]
