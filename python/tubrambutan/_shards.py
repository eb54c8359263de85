"""Lists that are split by the names on their lines."""

from __future__ import annotations

from typing import AnyStr, Iterable, Sequence

from . import _library
from ._inputs import text_bytes
from ._refused import Refused

# The most bytes that an input may have, and how many lines never have more, with their line feeds.
MOST = 16_777_216
_LINES = 255


def count_of(count: object) -> int:
    """Returns the number of shards that an argument is."""
    if isinstance(count, bool) or not isinstance(count, int):
        raise TypeError(f"count must be an int, not {type(count).__name__}")
    if not 0 < count < 1 << 64:
        raise ValueError(f"count must be 1 or more, not {count}")
    return count


def lines_by_shard(data: bytes, count: int) -> list[list[bytes]]:
    """Returns the requirement lines of a list by the shards of their names."""
    # (one list more: of the lines that are blank or comments)
    found: list[list[bytes]] = [[] for _ in range(count + 1)]
    take = [lines.append for lines in found]
    for line, number in zip(data.split(b"\n"), _library.line_shards(data, count)):
        take[number](line)
    return found[:-1]


def shards_of_names(names: Sequence[str], count: int) -> Iterable[int]:
    """Returns the shard of each name, as that of a line on which the name stands alone."""
    for begin in range(0, len(names), _LINES):
        some = names[begin : begin + _LINES]
        try:
            yield from _library.line_shards("\n".join(some).encode(), count)
        except Refused as refused:
            at = refused.line or 1
            raise Refused(refused.text.replace(f" input 1 line {at}", ""), repr(some[at - 1])) from None


def split(text: AnyStr, count: int) -> list[AnyStr]:
    r"""Splits a list of requirements by name: each line goes to the shard of the name on it, whether its marker holds or not, in the order of the list.

    Which shard a name has depends on the name and the count alone, as in `Table.shards`. So the shards of many lists may be merged one by one. Lines that are blank or comments are left out.
    Each line of a shard ends with a line feed.

    >>> import tubrambutan
    >>> lists = ["flask>=2\n# a comment\ndjango<5; os_name == 'other'\nattrs\n", "Flask<3\nDJANGO>=4\n"]
    >>> shards = [tubrambutan.merge(lists=texts) for texts in zip(*(tubrambutan.split(text, 2) for text in lists))]
    >>> shards == list(tubrambutan.merge(lists=lists).shards(2))
    True

    Args:
        text: the text of a list, or its bytes.
        count: how many shards there are, 1 or more.

    Raises:
        Refused: a line begins with no name, is too long, or isn't UTF-8. What stands behind its name isn't read. The list may have more bytes than an input.
        ValueError: the text is the name of a file, or the count is below 1.
        TypeError: an argument has another type.
    """
    data = text_bytes(text, "split")
    shards = (b"".join(line + b"\n" for line in lines) for lines in lines_by_shard(data, count_of(count)))
    return [it if isinstance(text, bytes) else it.decode("utf-8", "surrogatepass") for it in shards]
