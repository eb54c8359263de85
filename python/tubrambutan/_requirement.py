"""Requirements and markers."""

from __future__ import annotations

from typing import Mapping, Optional, Union

from . import _library
from ._environment import completed, file_of
from ._refused import InvalidMarker, InvalidRequirement, InvalidSpecifier, InvalidVersion, Refused, UndefinedComparison, of_text
from ._specifiers import SpecifierSet
from ._texts import encoded, text_in
from ._version import Version, text_of


def _trimmed(text: str) -> str:
    """Returns a text without the white space that may stand around it: spaces and tabs, and one line feed at its end, as `packaging` has it."""
    return text.removesuffix("\n").strip(" \t")


class Marker:
    """An environment marker (PEP 508).

    >>> from tubrambutan import Marker
    >>> marker = Marker("python_version<'4' and extra == 'dev'")
    >>> str(marker)
    'python_version < "4" and extra == "dev"'
    >>> marker.evaluate(), marker.evaluate({"extra": "dev"})
    (False, True)

    Raises:
        InvalidMarker: the text is no marker.
        TypeError: it is no text.
    """

    __slots__ = ("_text", "__weakref__")

    def __init__(self, marker: str) -> None:
        try:
            parts = _library.requirement_parts(b"x;" + encoded(_trimmed(text_in(marker, "marker"))))
        except Refused as refused:
            raise of_text(InvalidMarker, refused, marker) from None
        self._text = parts[-1].partition(" ")[2]

    @classmethod
    def _of_normal(cls, text: str) -> Marker:
        """Returns the marker with this normal text."""
        found = cls.__new__(cls)
        found._text = text
        return found

    def evaluate(self, environment: Optional[Mapping[str, Optional[str]]] = None) -> bool:
        """Returns whether the marker holds in the environment of the interpreter, with the variables of a mapping in place of its own. An `extra` that is
        None is no extra. A `python_full_version` that ends with `+` gets a local version label, as in `packaging`.

        Raises:
            UndefinedComparison: `~=` stands with `extra`, has no version on its left, or can't take the text on its right, as `~= "3"`.
            Refused: a variable is none of the eleven nor `extra`, or has a control character.
            TypeError: the environment is no mapping, or a variable's text is none.
        """
        if environment is not None and not isinstance(environment, Mapping):
            raise TypeError(f"environment must be a mapping, not {type(environment).__name__}")
        variables = completed(environment or {})
        if variables.get("extra", "") is None:
            del variables["extra"]
        file = file_of(variables)
        try:
            return _library.marker_holds(file, encoded(self._text))
        except Refused as refused:
            if refused.codes == (57, 28):
                raise of_text(UndefinedComparison, refused, str(self)) from None
            raise

    def __str__(self) -> str:
        return self._text

    def __repr__(self) -> str:
        return f"<Marker({self._text!r})>"

    def __reduce__(self) -> tuple[type[Marker], tuple[str]]:
        return type(self), (self._text,)

    def __eq__(self, other: object) -> bool:
        if not isinstance(other, Marker):
            return NotImplemented
        return self._text == other._text

    def __hash__(self) -> int:
        return hash(self._text)


class Requirement:
    """A requirement (PEP 508). Its name and its extras are normalized.

    >>> from tubrambutan import Marker, Requirement
    >>> requirement = Requirement("Flask[Async] >=2.0,<3 ; python_version < '4'")
    >>> requirement.name, requirement.extras, str(requirement.specifier), str(requirement.marker), requirement.url
    ('flask', {'async'}, '<3,>=2.0', 'python_version < "4"', None)
    >>> str(requirement)
    'flask[async]<3,>=2.0 ; python_version < "4"'

    The attributes may be set, and the text is made of them.

    >>> requirement.marker = Marker("extra == 'web'")
    >>> str(requirement)
    'flask[async]<3,>=2.0 ; extra == "web"'

    Raises:
        InvalidRequirement: the text is no requirement.
        TypeError: it is no text.

    Attributes:
        name: the normalized name.
        extras: the normalized extras.
        specifier: the clauses.
        url: the URL, as it was written, or None.
        marker: the marker, or None.
    """

    __slots__ = ("name", "extras", "specifier", "url", "marker", "__weakref__")

    def __init__(self, requirement: str) -> None:
        try:
            parts = _library.requirement_parts(encoded(_trimmed(text_in(requirement, "requirement"))))
        except Refused as refused:
            raise of_text(InvalidRequirement, refused, requirement) from None
        extras, clauses, url, marker = set(), [], None, None
        for part in parts:
            kind, _, text = part.partition(" ")
            if kind == "clause":
                clauses.append(text)
            elif kind == "extra":
                extras.add(text)
            elif kind == "marker":
                marker = text
            elif kind == "url":
                url = text
        self.name = parts[0].partition(" ")[2]
        self.extras: set[str] = extras
        self.specifier = SpecifierSet._of_normal(clauses)
        self.url: Optional[str] = url
        self.marker: Optional[Marker] = Marker._of_normal(marker) if marker else None

    def __str__(self) -> str:
        extras = f"[{','.join(sorted(self.extras))}]" if self.extras else ""
        url = f" @ {self.url}" if self.url else ""
        return f"{self.name}{extras}{url}{self.specifier}{f' ; {self.marker}' if self.marker else ''}"

    def __repr__(self) -> str:
        return f"<Requirement({str(self)!r})>"

    def __reduce__(self) -> tuple[type[Requirement], tuple[str], Optional[bool]]:
        return type(self), (str(self),), self.specifier._prereleases

    def __setstate__(self, prereleases: bool) -> None:
        self.specifier.prereleases = prereleases

    def __eq__(self, other: object) -> bool:
        if not isinstance(other, Requirement):
            return NotImplemented
        return (self.name, self.extras, self.specifier, self.url, self.marker) == (other.name, other.extras, other.specifier, other.url, other.marker)

    def __hash__(self) -> int:
        return hash((self.name, frozenset(self.extras), self.specifier, self.url, self.marker))


def requirement_text(requirement: str) -> str:
    """Returns the normal text of a requirement (PEP 508).

    >>> import tubrambutan
    >>> tubrambutan.requirement_text("Requests [security] (>=2.8.1) ; os_name=='nt'")
    'requests[security]>=2.8.1 ; os_name == "nt"'

    Raises:
        InvalidRequirement: the text is no requirement.
    """
    try:
        return _library.requirement_text(encoded(text_in(requirement, "requirement")))
    except Refused as refused:
        raise of_text(InvalidRequirement, refused, requirement) from None


def admits(clause: str, version: Union[Version, str]) -> bool:
    """Returns whether a version specifier clause admits a version (PEP 440), pre-releases too.

    >>> import tubrambutan
    >>> tubrambutan.admits("~=2.2", "2.9"), tubrambutan.admits("~=2.2", "3.0")
    (True, False)

    Raises:
        InvalidSpecifier: the text is no clause.
        InvalidVersion: the text isn't a version.
    """
    try:
        return _library.clause_admits(encoded(text_in(clause, "clause")), encoded(text_of(version)))
    except Refused as refused:
        if refused.input:
            raise of_text(InvalidSpecifier, refused, clause) from None
        raise of_text(InvalidVersion, refused, text_of(version)) from None
