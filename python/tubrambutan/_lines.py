"""Requirements with the places where they stand: of core metadata, and of requirements files as pip reads them."""

from __future__ import annotations

import email
import os
import re
import shlex
from typing import Iterable, Iterator, NamedTuple, Optional, Union

from ._texts import path_in, text_in

_COMMENT = re.compile(r"(?:^|\s+)#.*$")
_OPTION = re.compile(r"(?:^|\s)-")
_QUOTED = re.compile(r"'[^']*'|\"[^\"]*\"")
_INCLUDE = re.compile(r"(?:-r|-c|--requirement|--constraint)(?:\s+|=|(?<=-[rc]))(\S.*)")
# How pip tells a URL from a path.
_URL = re.compile(r"(?:https?|file):", re.I)
_VARIABLE = re.compile(r"\$\{[A-Z0-9_]+\}")


class Line(NamedTuple):
    """A requirement, and where it stands.

    Attributes:
        text: the requirement, in one line.
        file: the file, or what it was read from.
        number: the number of the line in it, counted from 1.
    """

    text: str
    file: str
    number: int


class Lines(tuple[Line, ...]):
    """Requirements with their places: an input of `merge`, among its `lists`. A refusal names the file and the line.

    >>> from tubrambutan import Line, Lines, merge
    >>> merge(lists=[Lines([Line("flask>=2.0", "base.txt", 7), Line("flask<", "more.txt", 3)])])
    Traceback (most recent call last):
        ...
    tubrambutan._refused.Refused: more.txt, line 3: what follows the operator isn't a version, or after `===` isn't an allowed text (code 57 33 12)
    """

    __slots__ = ()

    @property
    def text(self) -> str:
        """The requirements, one a line."""
        return "\n".join(" ".join(line.text.split("\n")) for line in self)


class Metadata(NamedTuple):
    """What core metadata says of a distribution's requirements.

    Attributes:
        name: the name, as it stands there.
        version: the version, as it stands there.
        requires: the requirements, of `Requires-Dist`.
        extras: the extras that the distribution provides, of `Provides-Extra`.
        requires_python: the clauses on the version of Python, or None.
    """

    name: str
    version: str
    requires: Lines
    extras: tuple[str, ...]
    requires_python: Optional[str]


def requirements_of(metadata: Union[str, bytes], file: str = "METADATA") -> Metadata:
    r"""Reads core metadata, as of a file `METADATA` or `PKG-INFO`, by the standard library's `email`.

    >>> import tubrambutan
    >>> found = tubrambutan.requirements_of("Name: demo\nVersion: 1.0\nRequires-Python: >=3.9\nRequires-Dist: flask>=2\nProvides-Extra: dev\n\nText.")
    >>> found.name, found.version, found.requires_python, found.extras, found.requires[0]
    ('demo', '1.0', '>=3.9', ('dev',), Line(text='flask>=2', file='METADATA', number=4))

    Raises:
        ValueError: the metadata has no name or no version.
        UnicodeDecodeError: bytes aren't UTF-8.
    """
    text = metadata.decode() if isinstance(metadata, bytes) else text_in(metadata, "metadata that isn't bytes")
    message = email.message_from_string(text)
    name, version = message["Name"], message["Version"]
    if not name or not version:
        raise ValueError(f"{file} has no Name or no Version")
    head = text.split("\n\n", 1)[0].split("\n")
    numbers = [number for number, line in enumerate(head, 1) if line.lower().startswith("requires-dist:")]
    requires = [Line(" ".join(str(it).split("\n")), file, number) for it, number in zip(message.get_all("Requires-Dist", []), numbers)]
    extras = tuple(str(it) for it in message.get_all("Provides-Extra", []))
    return Metadata(str(name), str(version), Lines(requires), extras, message["Requires-Python"])


class RequirementsFile(NamedTuple):
    """The lines of a requirements file, with those that it includes.

    Attributes:
        requirements: the requirements.
        constraints: those of files that `-c` includes: they hold for packages that something else requires. What `-r` includes in such a file is required.
    """

    requirements: Lines
    constraints: Lines


def _logical(text: str) -> Iterator[tuple[int, str]]:
    """Returns the lines without comments, each with its number; a line that ends with a backslash goes on in the next one."""
    parts: list[str] = []
    begin = 0
    lines = text.splitlines()
    for number, line in enumerate(lines, 1):
        begin = begin if parts else number
        is_comment = _COMMENT.match(line) is not None
        goes_on = line.endswith("\\") and not is_comment
        # (a comment is one behind a line that goes on, too)
        parts.append(line.strip("\\") if goes_on else f" {line}" if is_comment else line)
        if not goes_on or number == len(lines):
            kept = _COMMENT.sub("", "".join(parts)).strip()
            parts = []
            if kept:
                yield begin, kept


def _included(name: str, path: str, number: int) -> str:
    """Returns the path of a file that a line includes by a name, which may stand in quotes as in a shell.

    Raises:
        ValueError: there isn't a name, or more than one, or it is a URL.
    """
    try:
        names = shlex.split(name)
    except ValueError as fault:
        raise ValueError(f"{path}, line {number}: {fault}") from None
    if len(names) != 1:
        raise ValueError(f"{path}, line {number}: {name!r} is not the name of one file")
    if _URL.match(names[0]):
        raise ValueError(f"{path}, line {number}: {names[0]} is a URL, and nothing is fetched: write the path of a file")
    return os.path.join(os.path.dirname(path), names[0])


def _read(path: str, is_constraint: bool, above: tuple[str, ...]) -> Iterator[tuple[bool, Line]]:
    """Returns the lines of a file and of those that it includes, and of each whether it is a constraint: the last option on the way to it says so."""
    above = (*above, os.path.realpath(path))
    with open(path, encoding="utf-8-sig", newline="") as it:
        text = it.read()
    for number, line in _logical(text):
        include = None if _VARIABLE.search(line) else _INCLUDE.fullmatch(line)
        if include:
            inner = _included(include[1], path, number)
            if os.path.realpath(inner) in above:
                raise ValueError(f"{path}, line {number}: {inner} includes itself")
            yield from _read(inner, line.startswith(("-c", "--constraint")), above)
        elif _OPTION.search(_QUOTED.sub("", line)) or _VARIABLE.search(line):
            raise ValueError(f"{path}, line {number}: {line!r} has an option or a variable, which isn't read here")
        else:
            yield is_constraint, Line(line, path, number)


def requirements_file(path: Union[str, os.PathLike[str]]) -> RequirementsFile:
    """Reads a requirements file as pip does: comments behind requirements, lines that go on, and files that `-r` and `-c` include. Nothing is left out, and
    nothing is fetched.

    Raises:
        ValueError: a line has another option, a variable or a URL in place of a file; or a file includes itself. The message names the file and the line. Or
            the file is a URL, a project file or a printed table by its name.
        OSError: a file can't be read.
        UnicodeDecodeError: a file isn't UTF-8.
    """
    name = path_in(path, "path")
    if name.endswith((".toml", ".table")):
        raise ValueError(f"{name} is no requirements file by its name: write merge({name!r}) to read it")
    if _URL.match(name):
        raise ValueError(f"{name} is a URL, and nothing is fetched: write the path of a file")
    found = list(_read(name, False, ()))
    return RequirementsFile(_of_kind(found, False), _of_kind(found, True))


def _of_kind(found: Iterable[tuple[bool, Line]], is_constraint: bool) -> Lines:
    return Lines(line for held, line in found if held == is_constraint)
