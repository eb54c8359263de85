"""Merging."""

from __future__ import annotations

from typing import Iterable, Optional, Sequence

from ._inputs import Environment, Given, Path, Source, Text, buffer_of, environment_file, given_inputs, group_of, placed
from ._library import TABLE
from ._names import canonicalize_name
from ._refused import Refused
from ._table import Table, lines_of


def extras_of(extras: object) -> tuple[str, ...]:
    """Returns the normalized names of extras, each once, in order; a text alone in their place would be taken letter by letter."""
    if isinstance(extras, (str, bytes)) or not isinstance(extras, Iterable):
        raise TypeError(f"extras must be a list of names, also for one, not {type(extras).__name__}")
    names = list(extras)
    for name in names:
        if not isinstance(name, str):
            raise TypeError(f"extras must have names, not {type(name).__name__}")
    return tuple(sorted({canonicalize_name(name) for name in names}))


def _with_extra(environment: bytes, extra: str) -> bytes:
    """Returns an environment file with an extra more."""
    return environment + f'\nextra = "{extra}"\n'.encode()


def _merged(environment: bytes, inputs: Sequence[Given], group: bytes, more: Sequence[bytes] = ()) -> str:
    """Returns the text of the table of inputs, and of printed tables more."""
    try:
        return buffer_of(environment, inputs, group, more).merged()
    except Refused as refused:
        raise placed(refused, inputs) from None


def _merged_extras(environment: bytes, inputs: Sequence[Given], group: bytes, extras: Sequence[str]) -> str:
    """Returns the text of the join of the tables of each extra. Its header names none of them. Printed tables are joined in the environment
    without an extra."""
    judged = [it for it in inputs if it.kind != TABLE]
    of_each = [_merged(_with_extra(environment, extra), judged, group) for extra in extras]
    return _merged(environment, [it for it in inputs if it.kind == TABLE], b"", [lines_of(text).encode() for text in of_each])


def table_of(inputs: Sequence[Given], environment: Environment, group: Optional[str], extras: Iterable[str]) -> Table:
    """Returns the table of all that inputs demand."""
    asked, names = group_of(group), extras_of(extras)
    file = environment_file(environment, names)
    if len(names) > 1:
        return Table(_merged_extras(file, inputs, asked, names), file, names)
    for name in names:
        file = _with_extra(file, name)
    return Table(_merged(file, inputs, asked), file)


def merge(
    *paths: Path,
    lists: Iterable[Source] = (),
    projects: Iterable[Text] = (),
    tables: Iterable[Text] = (),
    environment: Environment = None,
    group: Optional[str] = None,
    extras: Iterable[str] = (),
) -> Table:
    r"""Merges files, lists of requirements, project files and printed tables into the table of all that they demand.

    Positional arguments are paths of files. Their names tell their kinds: `.toml` ends the name of a project file, `.table` that of
    a printed table, and every other file is a list. `lists`, `projects` and `tables` take texts or bytes in place of files, and `lists` also `Lines`. The environment
    is a mapping of the eleven variables of PEP 508, and perhaps `extra`, to their texts, or an environment file (its text, its bytes,
    or an `os.PathLike`). By default it is `default_environment()`. In whatever order inputs are handed in, the table is the same.

    `group` names a dependency group (PEP 735), which counts in place of the dependencies of each project file. `extras` names extras: one is
    the `extra` of the environment. Of several, all inputs are judged with each one, and what they demand is joined; such a table has
    `lines` and no `text`, since the header of a printed table names one extra at most.

    >>> import tubrambutan
    >>> project = '[project]\nname = "demo"\ndependencies = ["Flask>=2.0"]\noptional-dependencies = {dev = ["pytest"], docs = ["sphinx"]}'
    >>> table = tubrambutan.merge(lists=["flask!=2.1"], projects=[project])
    >>> [str(it) for it in table["flask"].ranges]
    ['before 2 to before 2.1', 'before 2.1.post0.dev0 to end']
    >>> tubrambutan.merge(tables=[table.text]) == table
    True
    >>> list(tubrambutan.merge(projects=[project], extras=["dev", "docs"]))
    ['flask', 'pytest', 'sphinx']

    Raises:
        Refused: an input isn't accepted in the environment, or the environment isn't valid.
        InvalidName: the group or an extra isn't a name.
        OSError: a file can't be read.
        ValueError: a text is the name of a file, or a mapping as environment has an extra, and `extras` names some.
        TypeError: an argument has another type.
    """
    return table_of(given_inputs(paths, lists, projects, tables), environment, group, extras)
