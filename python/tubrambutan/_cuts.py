"""Cuts between versions, and ranges between cuts."""

from __future__ import annotations

import functools
from typing import NamedTuple, Optional, Union

from ._version import Version, text_of

_KINDS = ("before", "after", "past")


@functools.total_ordering
class Cut:
    """A cut: which versions are under it, and which are above. Cuts are in the order of what is under them. Immutable.

    `before V` has under it all versions below V; `after V` these and all that are the same as V in order; `past R` all of the release R, its
    post-releases and those with local version labels too, and all below; `end` all versions.

    >>> from tubrambutan import Cut
    >>> cut = Cut("before 3.dev0")
    >>> cut.kind, str(cut.version), cut.has_below("2.9"), cut.has_below("3.0a1")
    ('before', '3.dev0', True, False)
    >>> sorted([Cut("end"), Cut("past 1"), Cut("before 1.post5"), Cut("after 1")])
    [Cut('after 1'), Cut('before 1.post5'), Cut('past 1'), Cut('end')]

    Raises:
        ValueError: the text is no cut.
        InvalidVersion: what follows the kind isn't a version.
    """

    # (the version and the order stand there once they were asked for)
    __slots__ = ("_kind", "_given", "_version", "_order", "__weakref__")
    _kind: str
    _given: str
    _version: Version
    _order: tuple[bytes, bool, bytes, bool]

    def __init__(self, text: str) -> None:
        if not isinstance(text, str):
            raise TypeError(f"text must be a str, not {type(text).__name__}")
        self._kind, _, self._given = text.partition(" ")
        if not (self._kind in _KINDS if self._given else text == "end"):
            raise ValueError(f"{text!r} is no cut: write before, after or past and a version, or end")
        if self._given:
            self._version = Version(self._given)
            if self._kind == "past" and self._version != Version(self._version.base_version):
                raise ValueError(f"{text!r} is no cut: past stands before a release alone")

    @classmethod
    def _of_printed(cls, text: str) -> Cut:
        """Returns a cut that stands in a printed table."""
        found = cls.__new__(cls)
        found._kind, _, found._given = text.partition(" ")
        return found

    @property
    def kind(self) -> str:
        """`before`, `after`, `past` or `end`."""
        return self._kind

    @property
    def version(self) -> Optional[Version]:
        """The version, for `past` a release alone; None at the end."""
        try:
            return self._version
        except AttributeError:
            if not self._given:
                return None
            self._version = Version(self._given)
            return self._version

    def has_below(self, version: Union[Version, str]) -> bool:
        """Returns whether a version is under the cut.

        Raises:
            InvalidVersion: the text isn't a version.
        """
        text = text_of(version)
        Version(text)
        return Cut._of_printed(f"before {text}") < self

    def _key(self) -> tuple[bytes, bool, bytes, bool]:
        """Returns what the order goes by: all versions of a release have its key in front, and lie before what is past it."""
        try:
            return self._order
        except AttributeError:
            version = self.version
            if version is None:
                # (no key begins with such bytes)
                self._order = (b"\xff" * 16, True, b"", True)
            else:
                is_past = self._kind == "past"
                self._order = (Version(version.base_version).key, is_past, b"" if is_past else version.key, self._kind == "after")
            return self._order

    def __str__(self) -> str:
        return f"{self._kind} {self.version}" if self._given else self._kind

    def __repr__(self) -> str:
        return f"Cut({str(self)!r})"

    def __reduce__(self) -> tuple[type[Cut], tuple[str]]:
        return type(self), (str(self),)

    def __eq__(self, other: object) -> bool:
        if not isinstance(other, Cut):
            return NotImplemented
        return self._key() == other._key()

    def __lt__(self, other: Cut) -> bool:
        if not isinstance(other, Cut):
            return NotImplemented
        return self._key() < other._key()

    def __hash__(self) -> int:
        return hash(self._key())


class Range(NamedTuple):
    """The versions under the cut `high` and not under the cut `low`.

    >>> import tubrambutan
    >>> (versions,) = tubrambutan.merge(lists=["flask==2.*"])["flask"].ranges
    >>> versions, str(versions)
    (Range(low=Cut('before 2.dev0'), high=Cut('before 3.dev0')), 'before 2.dev0 to before 3.dev0')
    >>> versions.has("2.1"), versions.has("3.0")
    (True, False)
    """

    low: Cut
    high: Cut

    def has(self, version: Union[Version, str]) -> bool:
        """Returns whether a version is in the range.

        Raises:
            InvalidVersion: the text isn't a version.
        """
        return self.high.has_below(version) and not self.low.has_below(version)

    def __str__(self) -> str:
        return f"{self.low} to {self.high}"


def range_of(text: str) -> Range:
    """Returns the range that a line of a printed table writes."""
    low, _, high = text.partition(" to ")
    return Range(Cut._of_printed(low), Cut._of_printed(high))
