"""Versions."""

from __future__ import annotations

import itertools
from typing import Callable, Iterable, Optional, Union

from . import _library
from ._refused import InvalidVersion, Refused, of_text
from ._texts import encoded, many_in, text_in

_PHASES = ("a", "b", "rc")


class Version:
    """A version (PEP 440). Versions are equal where they are the same in order, as `1.0` and `1.0.0`. Immutable.

    >>> from tubrambutan import Version
    >>> str(Version(" v1.0-ALPHA.1"))
    '1.0a1'
    >>> Version("1.0") == Version("1.0.0"), Version("1.0.dev1") < Version("1.0a1") < Version("1.0")
    (True, True)
    >>> sorted(Version.read_all(["1.10", "1.9", "1.10rc1"]))
    [<Version('1.9')>, <Version('1.10rc1')>, <Version('1.10')>]
    >>> version = Version("1!2.0rc3.post4.dev5+ubuntu.6")
    >>> version.epoch, version.release, version.pre, version.post, version.dev, version.local
    (1, (2, 0), ('rc', 3), 4, 5, 'ubuntu.6')

    Raises:
        InvalidVersion: the text isn't a version, or has a number above 18446744073709551615.
        TypeError: it is no text.
    """

    # (the text and the numbers stand there once they were asked for)
    __slots__ = ("_given", "_key_bytes", "_text", "_numbers", "__weakref__")
    _given: str
    _key_bytes: bytes
    _text: str
    _numbers: tuple[int, ...]

    def __init__(self, version: str) -> None:
        if not isinstance(version, str):
            text_in(version, "version")
        self._given = version
        try:
            self._key_bytes = _library.version_key(encoded(version))
        except Refused as refused:
            raise of_text(InvalidVersion, refused, version) from None

    @classmethod
    def read_all(cls, versions: Iterable[str]) -> list[Version]:
        """Returns the versions that texts spell, all read in one call of the library.

        >>> from tubrambutan import Version
        >>> Version.read_all(["1.0", "2"])
        [<Version('1.0')>, <Version('2')>]

        Raises:
            InvalidVersion: one of them isn't a version; the first such is told.
            TypeError: one of them is no text, or a text stands in place of many.
        """
        texts = many_in(versions, "versions", "texts")
        try:
            keys = _library.version_keys(texts)
        except TypeError:
            for text in texts:
                text_in(text, "versions")
            raise
        new: Callable[[type[Version]], Version] = cls.__new__
        # (what the loop names is looked up once, and not for each version)
        found, length_at, length, end = list(map(new, itertools.repeat(cls, len(texts)))), _library.length_at, _library.LENGTH, 0
        for text, version in zip(texts, found):
            begin = end + length
            end = begin + length_at(keys, end)[0]
            version._given = text
            version._key_bytes = keys[begin:end] or cls(text)._key_bytes
        return found

    def __str__(self) -> str:
        try:
            return self._text
        except AttributeError:
            self._text = _library.version_text(encoded(self._given))
            return self._text

    def __repr__(self) -> str:
        return f"<Version('{self}')>"

    def __reduce__(self) -> tuple[type[Version], tuple[str]]:
        return type(self), (Version.__str__(self),)

    # (versions alone have such bytes, and to look for them is faster than to ask for the type)
    def __eq__(self, other: object) -> bool:
        try:
            return self._key_bytes == other._key_bytes  # type: ignore[attr-defined, no-any-return]
        except AttributeError:
            return NotImplemented

    def __lt__(self, other: Version) -> bool:
        try:
            return self._key_bytes < other._key_bytes
        except AttributeError:
            return NotImplemented

    def __le__(self, other: Version) -> bool:
        try:
            return self._key_bytes <= other._key_bytes
        except AttributeError:
            return NotImplemented

    def __gt__(self, other: Version) -> bool:
        try:
            return self._key_bytes > other._key_bytes
        except AttributeError:
            return NotImplemented

    def __ge__(self, other: Version) -> bool:
        try:
            return self._key_bytes >= other._key_bytes
        except AttributeError:
            return NotImplemented

    def __hash__(self) -> int:
        return hash(self._key_bytes)

    @property
    def key(self) -> bytes:
        """The key: byte order of keys is the order of versions, and versions that are the same in order have one key."""
        return self._key_bytes

    @property
    def _parts(self) -> tuple[int, ...]:
        try:
            return self._numbers
        except AttributeError:
            self._numbers = _library.version_numbers(encoded(self._given))
            return self._numbers

    @property
    def epoch(self) -> int:
        """The epoch, 0 where none is written."""
        return self._parts[0]

    @property
    def release(self) -> tuple[int, ...]:
        """The numbers of the release, with the zeros at its end."""
        return self._parts[7:]

    @property
    def pre(self) -> Optional[tuple[str, int]]:
        """The phase of the pre-release, `a`, `b` or `rc`, and its number."""
        return (_PHASES[self._parts[1] - 1], self._parts[2]) if self._parts[1] else None

    @property
    def post(self) -> Optional[int]:
        """The number of the post-release."""
        return self._parts[4] if self._parts[3] else None

    @property
    def dev(self) -> Optional[int]:
        """The number of the developmental release."""
        return self._parts[6] if self._parts[5] else None

    @property
    def local(self) -> Optional[str]:
        """The local version label."""
        return Version.__str__(self).partition("+")[2] or None

    @property
    def public(self) -> str:
        """The normal text without the local version label."""
        return Version.__str__(self).partition("+")[0]

    @property
    def base_version(self) -> str:
        """The epoch and the release alone.

        >>> from tubrambutan import Version
        >>> Version("1!2.0rc3+x").base_version
        '1!2.0'
        """
        release = ".".join(map(str, self.release))
        return f"{self.epoch}!{release}" if self.epoch else release

    @property
    def major(self) -> int:
        """The first number of the release."""
        return self.release[0]

    @property
    def minor(self) -> int:
        """The second number of the release, or 0."""
        return self.release[1] if len(self.release) > 1 else 0

    @property
    def micro(self) -> int:
        """The third number of the release, or 0."""
        return self.release[2] if len(self.release) > 2 else 0

    @property
    def is_prerelease(self) -> bool:
        """Whether it is a pre-release or a developmental release."""
        return self.pre is not None or self.dev is not None

    @property
    def is_postrelease(self) -> bool:
        """Whether it is a post-release."""
        return self.post is not None

    @property
    def is_devrelease(self) -> bool:
        """Whether it is a developmental release."""
        return self.dev is not None


def text_of(version: Union[Version, str], argument: str = "version") -> str:
    """Returns a text that spells a version, whatever `str` of a subclass says.

    Raises:
        TypeError: it is neither a version nor a text. The message names the argument.
    """
    if isinstance(version, Version):
        return version._given
    if isinstance(version, str):
        return version
    kind = type(version)
    # (`packaging` has a type of the same name)
    raise TypeError(f"{argument} must be a Version of tubrambutan or a str, not {kind.__module__}.{kind.__qualname__}: pass its str")
