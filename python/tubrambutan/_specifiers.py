"""Version specifiers: clauses, and sets of them."""

from __future__ import annotations

import itertools
from typing import Iterable, Iterator, Optional, Union

from . import _library
from ._cuts import Range, range_of
from ._refused import InvalidSpecifier, InvalidVersion, Refused, of_text
from ._table import AnyVersion
from ._texts import encoded, many_in, text_in
from ._version import Version, text_of

_OPERATORS = ("===", "~=", "==", "!=", "<=", ">=", "<", ">")
# What the library answers of a version: whether all clauses admit it, and then whether it is a pre-release.
_FINAL, _NO_VERSION, _PRE_RELEASE = 1, 2, 3
_FINAL_ALONE = bytes.maketrans(bytes([_PRE_RELEASE]), b"\0")


def _in_order(clauses: Iterable[str]) -> tuple[str, ...]:
    """Returns clauses in their normal form, each once, in one order."""
    return tuple(sorted(set(clauses)))


def _ranges_of(clauses: Iterable[str]) -> tuple[Range, ...]:
    """Returns the ranges of the versions that all clauses but those with `===` admit."""
    return tuple(map(range_of, _library.range_texts(encoded(",".join(clauses)))))


class SpecifierSet:
    """A set of version specifier clauses, with a comma between two (PEP 440): it admits what all of them admit.

    >>> from tubrambutan import SpecifierSet
    >>> versions = SpecifierSet(">=1.0, <2, !=1.5")
    >>> "1.4" in versions, "1.5" in versions, versions.contains("1.6rc1"), versions.contains("1.6rc1", prereleases=True)
    (True, False, False, True)
    >>> list(versions.filter(["0.9", "1.2", "1.5", "1.9"]))
    ['1.2', '1.9']
    >>> versions.ranges
    (Range(low=Cut('before 1'), high=Cut('before 1.5')), Range(low=Cut('before 1.5.post0.dev0'), high=Cut('before 2.dev0')))
    >>> SpecifierSet(">=2,<1").is_empty(), versions <= SpecifierSet(">=1"), SpecifierSet(">=1") <= versions
    (True, True, False)

    Raises:
        InvalidSpecifier: a text between commas is no clause.
        TypeError: the specifiers are no text.
    """

    # (what the clauses say of pre-releases, what they are compared by, and the ranges, stand there once they were asked for)
    __slots__ = ("_clauses", "_prereleases", "_named", "_compared", "_ranges", "__weakref__")
    _clauses: tuple[str, ...]
    _prereleases: Optional[bool]
    _named: bool
    _compared: frozenset[object]
    _ranges: tuple[Range, ...]

    def __init__(self, specifiers: str = "", prereleases: Optional[bool] = None) -> None:
        try:
            self._clauses = _in_order(_library.clause_texts(encoded(text_in(specifiers, "specifiers"))))
        except Refused as refused:
            raise of_text(InvalidSpecifier, refused, specifiers) from None
        self._prereleases = prereleases

    @classmethod
    def _of_normal(cls, clauses: Iterable[str]) -> SpecifierSet:
        """Returns the set of clauses in their normal form."""
        found = cls.__new__(cls)
        found._clauses, found._prereleases = _in_order(clauses), None
        return found

    def __str__(self) -> str:
        return ",".join(self._clauses)

    def __repr__(self) -> str:
        wanted = "" if self._prereleases is None else f", prereleases={self._prereleases}"
        return f"<{type(self).__name__}({str(self)!r}{wanted})>"

    def __reduce__(self) -> tuple[type[SpecifierSet], tuple[str, Optional[bool]]]:
        return type(self), (str(self), self._prereleases)

    @property
    def prereleases(self) -> Optional[bool]:
        """Whether pre-releases are admitted: as it was given, or else whether a clause with `==`, `>=`, `<=`, `~=` or `===` names one."""
        if self._prereleases is not None or not self._clauses:
            return self._prereleases
        try:
            return self._named
        except AttributeError:
            self._named = any(it.prereleases for it in self)
            return self._named

    @prereleases.setter
    def prereleases(self, value: Optional[bool]) -> None:
        self._prereleases = value

    def _answers(self, versions: Iterable[Union[Version, str]]) -> bytes:
        """Returns the answer on each version."""
        texts = [text_of(it) for it in versions]
        answers = _library.admits_each(encoded(str(self)), texts)
        if _NO_VERSION in answers:
            Version(texts[answers.index(_NO_VERSION)])
        return answers

    def contains(self, item: Union[Version, str], prereleases: Optional[bool] = None, installed: Optional[bool] = None) -> bool:
        """Returns whether all clauses admit a version, and it is no pre-release unless these are wanted. A pre-release that is installed and wanted counts as
        the release that it precedes.

        >>> from tubrambutan import SpecifierSet
        >>> versions = SpecifierSet(">=2")
        >>> versions.contains("2a1", prereleases=True), versions.contains("2a1", prereleases=True, installed=True)
        (False, True)

        Raises:
            InvalidVersion: the text isn't a version.
        """
        wants = bool(self.prereleases if prereleases is None else prereleases)
        if installed and wants:
            version = item if isinstance(item, Version) else Version(text_of(item))
            item = Version(version.base_version) if version.is_prerelease else version
        answer = self._answers([item])[0]
        return answer == _FINAL or (answer == _PRE_RELEASE and wants)

    def __contains__(self, item: Union[Version, str]) -> bool:
        return self.contains(item)

    def filter(self, iterable: Iterable[AnyVersion], prereleases: Optional[bool] = None) -> Iterator[AnyVersion]:
        """Returns the versions that the set contains, in their order. One call of the library answers for all of them.

        Raises:
            InvalidVersion: one of them isn't a version.
            TypeError: one of them is neither a version nor a text, or a text stands in place of many.
        """
        versions = many_in(iterable, "iterable", "versions")
        if prereleases is None:
            prereleases = self.prereleases
        answers = self._answers(versions)
        return itertools.compress(versions, answers if prereleases else answers.translate(_FINAL_ALONE))

    def __and__(self, other: Union[SpecifierSet, str]) -> SpecifierSet:
        if isinstance(other, str):
            other = SpecifierSet(other)
        if not isinstance(other, SpecifierSet):
            return NotImplemented
        wanted = {self._prereleases, other._prereleases} - {None}
        if len(wanted) > 1:
            raise ValueError("the sets say different things of pre-releases")
        return SpecifierSet(",".join((*self._clauses, *other._clauses)), wanted.pop() if wanted else None)

    def __iter__(self) -> Iterator[Specifier]:
        return map(Specifier._of_normal, self._clauses)

    def __len__(self) -> int:
        return len(self._clauses)

    def __eq__(self, other: object) -> bool:
        if isinstance(other, (str, Specifier)):
            other = SpecifierSet(str(other))
        if not isinstance(other, SpecifierSet):
            return NotImplemented
        return self._clauses == other._clauses or self._canonical() == other._canonical()

    def __hash__(self) -> int:
        return hash(self._canonical())

    def _canonical(self) -> frozenset[object]:
        """Returns what the clauses are compared by."""
        try:
            return self._compared
        except AttributeError:
            self._compared = frozenset(it._canonical() for it in self)
            return self._compared

    @property
    def ranges(self) -> tuple[Range, ...]:
        """The versions that every clause but `===` admits, pre-releases too, as sorted ranges."""
        try:
            return self._ranges
        except AttributeError:
            self._ranges = _ranges_of(self._clauses)
            return self._ranges

    def _demanded(self) -> Optional[str]:
        """Returns the text of a clause with `===`, if there is one: no version is admitted but the one with this normal text."""
        return next((it.version for it in self if it.operator == "==="), None)

    def is_empty(self) -> bool:
        """Returns whether no version whatever is admitted, pre-releases too."""
        text = self._demanded()
        return not self.ranges if text is None else not self._admits_text(text)

    def _admits_text(self, text: str) -> bool:
        """Returns whether a text is a version that all clauses admit."""
        return _library.admits_each(encoded(str(self)), [text])[0] in (_FINAL, _PRE_RELEASE)

    def __le__(self, other: SpecifierSet) -> bool:
        """Returns whether the other set admits every version that this one admits, pre-releases too."""
        if not isinstance(other, SpecifierSet):
            return NotImplemented
        return _library.clauses_within(encoded(str(self)), encoded(str(other)))

    def __ge__(self, other: SpecifierSet) -> bool:
        return other <= self if isinstance(other, SpecifierSet) else NotImplemented


class Specifier:
    """One version specifier clause (PEP 440).

    >>> from tubrambutan import Specifier
    >>> clause = Specifier("~= 2.2")
    >>> str(clause), clause.operator, clause.version, "2.9" in clause, "3.0" in clause
    ('~=2.2', '~=', '2.2', True, False)

    Raises:
        InvalidSpecifier: the text is no clause.
        TypeError: it is no text.
    """

    __slots__ = ("_set", "__weakref__")
    _set: SpecifierSet

    def __init__(self, spec: str, prereleases: Optional[bool] = None) -> None:
        self._set = SpecifierSet(text_in(spec, "spec"), prereleases)
        if len(self._set) != 1 or "," in spec:
            raise InvalidSpecifier("refused code 57 33 11", repr(spec))

    @classmethod
    def _of_normal(cls, clause: str) -> Specifier:
        """Returns the clause with this normal text."""
        found = cls.__new__(cls)
        found._set = SpecifierSet._of_normal([clause])
        return found

    @property
    def operator(self) -> str:
        """The operator, as `~=`."""
        return next(it for it in _OPERATORS if str(self).startswith(it))

    @property
    def version(self) -> str:
        """What follows the operator: a version's normal text, a prefix as `1.*`, or for `===` a text."""
        return str(self)[len(self.operator) :]

    @property
    def prereleases(self) -> bool:
        """Whether pre-releases are admitted: as it was given, or else whether a clause with `==`, `>=`, `<=`, `~=` or `===` names one."""
        if self._set._prereleases is not None:
            return self._set._prereleases
        if self.operator in ("!=", "<", ">"):
            return False
        try:
            return Version(self.version[:-2] if self.version.endswith(".*") else self.version).is_prerelease
        except InvalidVersion:
            return False

    @prereleases.setter
    def prereleases(self, value: Optional[bool]) -> None:
        self._set._prereleases = value

    def contains(self, item: Union[Version, str], prereleases: Optional[bool] = None) -> bool:
        """Returns whether the clause admits a version, and it is no pre-release unless these are wanted."""
        return self._set.contains(item, self.prereleases if prereleases is None else prereleases)

    def __contains__(self, item: Union[Version, str]) -> bool:
        return self.contains(item)

    def filter(self, iterable: Iterable[AnyVersion], prereleases: Optional[bool] = None) -> Iterator[AnyVersion]:
        """Returns the versions that the clause contains, in their order."""
        return self._set.filter(iterable, self.prereleases if prereleases is None else prereleases)

    def _canonical(self) -> tuple[str, object]:
        # (`~=2.2` and `~=2.2.0` are two clauses, and so are texts behind `===`)
        if self.operator in ("~=", "===") or self.version.endswith(".*"):
            return self.operator, self.version
        return self.operator, Version(self.version)

    def __str__(self) -> str:
        return str(self._set)

    def __repr__(self) -> str:
        return f"<Specifier({str(self)!r})>"

    def __reduce__(self) -> tuple[type[Specifier], tuple[str, Optional[bool]]]:
        return type(self), (str(self), self._set._prereleases)

    def __eq__(self, other: object) -> bool:
        if isinstance(other, str):
            try:
                other = Specifier(other)
            except InvalidSpecifier:
                return NotImplemented
        if not isinstance(other, Specifier):
            return NotImplemented
        return self._canonical() == other._canonical()

    def __hash__(self) -> int:
        return hash(self._canonical())
