"""Tables, and what they demand of each package."""

from __future__ import annotations

import contextlib
import functools
import html
import itertools
import os
import re
import secrets
from typing import Iterable, Iterator, Mapping, NamedTuple, Sequence, TypeVar, Union

from ._cuts import Range, range_of
from ._library import TABLE, Inputs
from ._names import canonicalize_name
from ._refused import InvalidName
from ._shards import count_of, shards_of_names
from ._texts import encoded, many_in, path_in, text_in
from ._version import Version, text_of

AnyVersion = TypeVar("AnyVersion", bound=Union[Version, str])
# The last line of the header of a printed table begins so, behind the end of the line before it.
_LAST_OF_HEADER = "\nenv extra="
_OF_NAME = re.compile(r"(\S+) (open|none|conflict)")
_ENTRY = re.compile(r"[^ \n].*\n(?: .*\n)*")
# How many packages a table of HTML shows, and how many demands of each.
_SHOWN = 50
# What the library answers of a name and a version: whether all that is demanded is met, by a pre-release in the second case.
_FINAL, _NOTHING_ASKED, _PRE_RELEASE = 1, 2, 3


def lines_of(text: str) -> str:
    """Returns a printed table without its header."""
    end = text.index("\n", text.index(_LAST_OF_HEADER) + 1)
    return text[end + 1 :]


def _asked(name: str) -> str:
    """Returns a name that a question may begin with, which a space ends."""
    return canonicalize_name(name) if " " in text_in(name, "name") else name


def _admitted(inputs: Inputs, asked: Sequence[tuple[str, Union[Version, str]]], prereleases: bool) -> Iterator[bool]:
    """Returns of each name with a version whether the version meets what the inputs demand."""
    answers = inputs.answers([f"{_asked(name)} {text_of(version)}" for name, version in asked])
    if _NOTHING_ASKED in answers:
        name, version = asked[answers.index(_NOTHING_ASKED)]
        canonicalize_name(name)
        Version(text_of(version))
    return (answer == _FINAL or (answer == _PRE_RELEASE and prereleases) for answer in answers)


class _Unchanged:
    """What is as it was made: no attribute can be set."""

    def __setattr__(self, name: str, value: object) -> None:
        raise AttributeError(f"a {type(self).__name__} can't be changed, and so not its {name}")

    def __delattr__(self, name: str) -> None:
        raise AttributeError(f"a {type(self).__name__} can't be changed, and so not its {name}")


class Package(_Unchanged):
    """What a table demands of a package. Immutable.

    >>> import tubrambutan
    >>> demo = tubrambutan.merge(lists=["demo[b,a] @ https://x.test/demo.whl"])["demo"]
    >>> demo.name, demo.verdict, demo.extras, demo.urls
    ('demo', 'open', ('a', 'b'), ('https://x.test/demo.whl',))

    Attributes:
        name: the normalized name.
        verdict: `open`; `none`, where no version whatever meets all demands; or `conflict`, where two different URLs are demanded.
        extras: the extras, in order.
        urls: the URLs, in order.
        texts: the texts that `===` demands, in order.
        ranges: the versions that every clause but `===` admits, as sorted ranges.
    """

    name: str
    verdict: str
    extras: tuple[str, ...]
    urls: tuple[str, ...]
    texts: tuple[str, ...]
    ranges: tuple[Range, ...]
    _given: tuple[str, bytes]
    _inputs: Inputs

    def __init__(self, text: str, environment: bytes) -> None:
        first, *lines = text.split("\n")[:-1]
        found = _OF_NAME.fullmatch(first)
        if not found:
            raise AssertionError(f"no line of a name: {first!r}")
        items: dict[str, list[str]] = {"extra": [], "url": [], "text": [], "range": []}
        for line in lines:
            kind, _, item = line[2:].partition(" ")
            items[kind].append(item)
        self.__dict__.update(
            name=found[1],
            verdict=found[2],
            extras=tuple(items["extra"]),
            urls=tuple(items["url"]),
            texts=tuple(items["text"]),
            ranges=tuple(map(range_of, items["range"])),
            _given=(text, environment),
            # (the lines of one name are a table too)
            _inputs=Inputs(environment, [(TABLE, encoded(text))]),
        )

    def admits(self, version: Union[Version, str], prereleases: bool = False) -> bool:
        """Returns whether a version meets all that is demanded, and is no pre-release unless these are wanted. In a conflict none does.

        >>> import tubrambutan
        >>> demo = tubrambutan.merge(lists=["demo~=1.4"])["demo"]
        >>> demo.admits("1.5"), demo.admits("1.5rc1"), demo.admits("1.5rc1", prereleases=True), demo.admits("2")
        (True, False, True, False)

        Raises:
            InvalidVersion: the text isn't a version.
            Refused: what is demanded has more than 16,777,216 bytes, which no input may have.
        """
        return next(_admitted(self._inputs, [(self.name, version)], prereleases))

    def filter(self, versions: Iterable[AnyVersion], prereleases: bool = False) -> Iterator[AnyVersion]:
        """Returns the versions that are admitted, in their order. One call of the library answers for all of them.

        >>> import tubrambutan
        >>> demo = tubrambutan.merge(lists=["demo~=1.4", "demo!=1.5"])["demo"]
        >>> list(demo.filter(["1.3", "1.4", "1.5", "1.6rc1", "1.6"]))
        ['1.4', '1.6']

        Raises:
            InvalidVersion: one of them isn't a version.
            TypeError: one of them is neither a version nor a text, or a text stands in place of many.
            Refused: what is demanded has more than 16,777,216 bytes, which no input may have.
        """
        them = many_in(versions, "versions", "versions")
        return itertools.compress(them, _admitted(self._inputs, [(self.name, it) for it in them], prereleases))

    def __eq__(self, other: object) -> bool:
        if not isinstance(other, Package):
            return NotImplemented
        return self._given[0] == other._given[0]

    def __hash__(self) -> int:
        return hash(self._given[0])

    def __reduce__(self) -> tuple[type[Package], tuple[str, bytes]]:
        return Package, self._given

    def __repr__(self) -> str:
        return f"<Package {self.name} {self.verdict}>"


class Difference(NamedTuple):
    """How another table differs from a table, by package. It is true where it names any.

    Attributes:
        added: the names that the other table alone has.
        removed: the names that it hasn't.
        narrowed: the names of which it demands all that the table does, and more.
        widened: the names of which the table demands all that it does, and more.
        changed: the names that changed otherwise.
    """

    added: tuple[str, ...]
    removed: tuple[str, ...]
    narrowed: tuple[str, ...]
    widened: tuple[str, ...]
    changed: tuple[str, ...]

    def __bool__(self) -> bool:
        return any(names for names in self)


class Table(_Unchanged, Mapping[str, Package]):
    """The table of all that inputs demand in an environment: a mapping of names to what is demanded of each package. Immutable.

    Tables are equal where their texts are. A name needn't be normalized.

    >>> import tubrambutan
    >>> table = tubrambutan.merge(lists=["Zope.Interface>=5\\nattrs"])
    >>> list(table), len(table), "zope_interface" in table
    (['attrs', 'zope-interface'], 2, True)
    >>> table["zope_interface"].name
    'zope-interface'

    `a | b` has all demands of a and all of b, whose environments must be the same. `a <= b` says that joining b to a changes nothing: a
    demands all that b demands.

    >>> one, other = tubrambutan.merge(lists=["demo>=1"]), tubrambutan.merge(lists=["demo<2"])
    >>> (one | other)["demo"].ranges, (one | other) <= one, one <= other
    ((Range(low=Cut('before 1'), high=Cut('before 2.dev0')),), True, False)

    A table of several extras is the join of their tables. It has `lines`, and no `text`, since a header names one extra at most.

    Attributes:
        extras: the extras in whose environments the markers were judged, in order, if they are several; else none.
    """

    extras: tuple[str, ...]
    _printed: str
    _environment: bytes

    def __init__(self, text: str, environment: bytes, extras: tuple[str, ...] = ()) -> None:
        self.__dict__.update(_printed=text, _environment=environment, extras=extras)

    @property
    def text(self) -> str:
        """The printed table, its header too, which is an input of `merge` again where it has at most 16,777,216 bytes.

        Raises:
            AttributeError: the table is one of several extras.
        """
        if self.extras:
            raise AttributeError(f"a table of the extras {', '.join(self.extras)} has no text, since a header names one extra at most: take its lines")
        return self._printed

    @functools.cached_property
    def lines(self) -> str:
        """The printed table without its header, which is an input of `merge` too."""
        return lines_of(self._printed)

    @functools.cached_property
    def _entries(self) -> dict[str, str]:
        """The lines of each name."""
        return {entry.partition(" ")[0]: entry for entry in _ENTRY.findall(self.lines)}

    @functools.cached_property
    def _inputs(self) -> Inputs:
        return Inputs(self._environment, [(TABLE, encoded(self._printed))])

    def __getitem__(self, name: str) -> Package:
        try:
            entry = self._entries.get(name) or self._entries[canonicalize_name(name)]
        except (InvalidName, KeyError, TypeError):
            raise KeyError(name) from None
        return Package(entry, self._environment)

    def __iter__(self) -> Iterator[str]:
        return iter(self._entries)

    def __len__(self) -> int:
        return len(self._entries)

    def admits_each(self, versions: Iterable[tuple[str, Union[Version, str]]], prereleases: bool = False) -> list[bool]:
        """Returns of each name with a version whether the version meets all that is demanded of the package, and is no pre-release unless these are
        wanted. One call of the library answers for all of them, and reads the table once. A package of which nothing is demanded admits every version
        but pre-releases, and with `prereleases` these too.

        >>> import tubrambutan
        >>> table = tubrambutan.merge(lists=["demo~=1.4"])
        >>> table.admits_each([("Demo", "1.5"), ("demo", "2"), ("other", "1.0")])
        [True, False, True]

        Raises:
            InvalidName: a name isn't valid.
            InvalidVersion: a version isn't valid.
            TypeError: versions has other things than pairs of a name and a version.
            Refused: the table has more than 16,777,216 bytes, which no input may have.
        """
        asked = many_in(versions, "versions", "pairs of a name and a version")
        if not all(isinstance(it, (tuple, list)) and len(it) == 2 for it in asked):
            raise TypeError("versions is pairs of a name and a version")
        return list(_admitted(self._inputs, asked, prereleases))

    def __or__(self, other: Table) -> Table:
        if not isinstance(other, Table):
            return NotImplemented
        if self.extras != other.extras:
            raise ValueError("tables of several extras are joined where their extras are the same")
        tables = [(TABLE, encoded(it._printed)) for it in (self, other)]
        return Table(Inputs(self._environment, tables).merged(), self._environment, self.extras)

    def __le__(self, other: Table) -> bool:
        return self | other == self if isinstance(other, Table) else NotImplemented

    def __ge__(self, other: Table) -> bool:
        return other <= self if isinstance(other, Table) else NotImplemented

    def diff(self, other: Table) -> Difference:
        """Returns how another table of the same environment differs.

        >>> import tubrambutan
        >>> old, new = tubrambutan.merge(lists=["a\\nb>=1\\nc"]), tubrambutan.merge(lists=["b>=2\\nc\\nd"])
        >>> old.diff(new)
        Difference(added=('d',), removed=('a',), narrowed=('b',), widened=(), changed=())

        Raises:
            Refused: the environments differ.
            TypeError: the other one is no table.
        """
        if not isinstance(other, Table):
            raise TypeError(f"other must be a Table, not {type(other).__name__}")
        both = self | other
        kinds: dict[str, list[str]] = {kind: [] for kind in Difference._fields}
        for name in both:
            ours, theirs = self._entries.get(name), other._entries.get(name)
            if ours != theirs:
                whole = both._entries[name]
                kind = "added" if ours is None else "removed" if theirs is None else "narrowed" if whole == theirs else "widened"
                kinds["changed" if ours and theirs and whole not in (ours, theirs) else kind].append(name)
        return Difference(*(tuple(kinds[kind]) for kind in Difference._fields))

    def _of_entries(self, entries: Iterable[str]) -> Table:
        """Returns the table of some of the entries, which are in order."""
        header = self._printed[: len(self._printed) - len(self.lines)]
        return Table(header + "".join(entries), self._environment, self.extras)

    def cut(self, most: int) -> Iterator[Table]:
        """Returns tables whose texts have no more bytes than that, if those of one name haven't. They have the names of this one among them, in order. (Public
        for the package alone.)"""
        whole = len(encoded(self._printed))
        if whole <= most:
            yield self
            return
        head = whole - len(encoded(self.lines))
        found: list[str] = []
        size = head
        for entry in self._entries.values():
            more = len(encoded(entry))
            if found and size + more > most:
                yield self._of_entries(found)
                found, size = [], head
            found.append(entry)
            size += more
        yield self._of_entries(found)

    def shards(self, count: int) -> tuple[Table, ...]:
        """Returns tables that have the names of this one among them: each name is in one. Joined they are this table.

        Which shard a name is in depends on the name and the count alone, as in `split`.

        >>> import tubrambutan
        >>> table = tubrambutan.merge(lists=["attrs\\nflask>=2\\ndjango<5"])
        >>> one, other, third = table.shards(3)
        >>> one | other | third == table, len(one) + len(other) + len(third)
        (True, 3)

        Raises:
            ValueError: the count is below 1.
            TypeError: the count is no int.
            Refused: a name has more than 65,536 bytes, which no line may have.
        """
        found: list[list[str]] = [[] for _ in range(count_of(count))]
        for number, entry in zip(shards_of_names(list(self._entries), count), self._entries.values()):
            found[number].append(entry)
        return tuple(map(self._of_entries, found))

    def save(self, path: Union[str, os.PathLike[str]]) -> None:
        """Writes the printed table to a file: beside it first, and then in its place, so that no part of a table remains where writing fails.

        Raises:
            OSError: the file can't be written.
            AttributeError: the table is one of several extras, which has no text.
        """
        text, target = self.text, path_in(path, "path")
        folder, name = os.path.split(target)
        beside = os.path.join(folder, f".{name}.{secrets.token_hex(8)}")
        try:
            with open(beside, "xb") as file:
                file.write(encoded(text))
            os.replace(beside, target)
        except BaseException:
            with contextlib.suppress(FileNotFoundError):
                os.unlink(beside)
            raise

    def __eq__(self, other: object) -> bool:
        if not isinstance(other, Table):
            return NotImplemented
        return self.extras == other.extras and self._printed == other._printed

    def __hash__(self) -> int:
        return hash(self._printed)

    def __reduce__(self) -> tuple[type[Table], tuple[str, bytes, tuple[str, ...]]]:
        return type(self), (self._printed, self._environment, self.extras)

    def __repr__(self) -> str:
        return f"<Table of {len(self)} packages>"

    def _repr_html_(self) -> str:
        """Returns a table of HTML for notebooks: the first packages, and how many more there are.

        >>> import tubrambutan
        >>> tubrambutan.merge(lists=["demo[x]<2"])._repr_html_().splitlines()[1]
        '<tr><td>demo</td><td>open</td><td>extra x<br>range before 0.dev0 to before 2.dev0</td></tr>'
        """
        rows = ["<table><tr><th>package</th><th>verdict</th><th>demands</th></tr>"]
        for entry in itertools.islice(self._entries.values(), _SHOWN):
            first, *lines = (html.escape(line) for line in entry.split("\n")[:-1])
            shown = "<br>".join(line.strip() for line in lines[:_SHOWN]) + ("<br>.." if len(lines) > _SHOWN else "")
            name, _, verdict = first.partition(" ")
            rows.append(f"<tr><td>{name}</td><td>{verdict}</td><td>{shown}</td></tr>")
        more = len(self) - _SHOWN
        return "\n".join([*rows, f"</table>{f'<p>and {more:,} more</p>' if more > 0 else ''}"])
