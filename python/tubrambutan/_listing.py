"""The requirements of inputs, one by one, with their places."""

from __future__ import annotations

from typing import Iterable, Iterator, Optional

from . import _library
from ._inputs import Given, placed
from ._library import PROJECT, TABLE
from ._merge import merge
from ._parts import lists_of
from ._refused import Refused
from ._why import Claim, clashes


def _of_list(given: Given, environment: bytes) -> Iterator[Claim]:
    """Returns the requirements of a list, whether their markers hold or not."""
    path = given.places if isinstance(given.places, str) else None
    try:
        # (of a single shard all requirement lines have the number 0)
        shards = _library.line_shards(given.data, 1)
    except Refused:
        # (a merge tells the first fault, which may stand before)
        merge(lists=[given.data], environment=environment)
        raise
    for number, (line, shard) in enumerate(zip(given.data.split(b"\n"), shards), 1):
        if shard == 0:
            try:
                # (a list's lines may end in two bytes, and a requirement alone has no line's end)
                yield Claim(given.number, number, _library.requirement_text(line.removesuffix(b"\r")), path)
            except Refused as refused:
                raise Refused(refused.text.replace(" line 1 ", f" line {number} ")) from None


def _of_project(given: Given, environment: bytes, group: Optional[str]) -> Iterable[Claim]:
    """Returns the requirements of a project file that apply."""
    names = merge(projects=[given.data], environment=environment, group=group)
    # (`clashes` tells the requirements on each package that isn't open, so two URLs more are demanded of each)
    conflicts = (f"{name} @ x:1\n{name} @ x:2".encode() for name in names)
    lists = [data for _, data in lists_of(conflicts)]
    found = clashes(lists=lists, projects=[given.data], environment=environment, group=group)
    path = given.places if isinstance(given.places, str) else None
    own = (it._replace(input=given.number, path=path) for reason in found for it in reason.claims if it.is_text)
    return sorted(own, key=lambda it: it.line)


def listed(inputs: Iterable[Given], environment: bytes, group: Optional[str]) -> Iterator[Claim]:
    """Returns the requirements of lists, and those of project files that apply, in their order.

    Raises:
        Refused: a requirement or a project file can't be read, or an input is a printed table, which has no requirements.
    """
    for given in inputs:
        try:
            if given.kind == TABLE:
                raise Refused("refused input 1 code 64")
            yield from _of_project(given, environment, group) if given.kind == PROJECT else _of_list(given, environment)
        except Refused as refused:
            raise placed(refused, [given]) from None
