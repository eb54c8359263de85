"""What is wrong with the distributions that are installed."""

from __future__ import annotations

import errno
import importlib.metadata
import os
from typing import Iterable, Iterator, Mapping, NamedTuple, Optional, Union

from ._environment import default_environment
from ._inputs import Path
from ._lines import Line, Lines
from ._merge import merge
from ._names import canonicalize_name
from ._refused import InvalidName, InvalidRequirement, InvalidSpecifier, InvalidVersion
from ._requirement import Requirement
from ._specifiers import SpecifierSet
from ._texts import many_in, path_in
from ._version import Version
from ._why import clashes


class Finding(NamedTuple):
    """A package with which something is wrong.

    Attributes:
        package: its normalized name; `python` for the interpreter.
        installed: the version that is installed, or None.
        demands: the requirements that aren't met, or that clash, each with the distribution that has it.
    """

    package: str
    installed: Optional[str]
    demands: tuple[Line, ...]

    def __str__(self) -> str:
        found = f"{self.package} {self.installed}" if self.installed else self.package
        return "\n".join([found, *(f"  {it.text}, of {it.file}" for it in self.demands)])


class Audit(NamedTuple):
    """What is wrong with the distributions that are installed. It is true where anything is.

    Attributes:
        distributions: how many there are.
        missing: packages that are required and aren't installed.
        refused: packages of which another version is installed than is required.
        clashes: packages of which no version whatever meets all requirements, or of which two different URLs are required, installed or not. Each has the
            requirements that clash together, as `why` tells them.
        unread: requirements that can't be read, with the distributions that have them, and texts that stand for versions and aren't valid ones.
    """

    distributions: int
    missing: tuple[Finding, ...]
    refused: tuple[Finding, ...]
    clashes: tuple[Finding, ...]
    unread: tuple[Line, ...]

    def __bool__(self) -> bool:
        return bool(self.missing or self.refused or self.clashes or self.unread)

    def __str__(self) -> str:
        told = [f"{self.distributions} distributions: {'something is wrong' if self else 'nothing is wrong'}"]
        for what, findings in (("not installed", self.missing), ("not the version that is required", self.refused), ("can't be met together", self.clashes)):
            told += [f"{what}: {it}" for it in findings]
        told += [f"can't be read: {it.text}, of {it.file}" for it in self.unread]
        return "\n".join(told)


class _Installed(NamedTuple):
    """A distribution, as its metadata tells it."""

    name: str
    version: str
    requires: tuple[Line, ...]
    requires_python: Optional[str]

    def __str__(self) -> str:
        return f"{self.name} {self.version}"


def _folders(path: Union[Path, Iterable[Path]]) -> list[str]:
    """Returns the folders that are named, which are there."""
    them: list[object] = [path] if isinstance(path, (str, os.PathLike)) else many_in(path, "path", "folders")
    folders = [path_in(it, "path") for it in them]
    for it in folders:
        if not os.path.isdir(it):
            raise NotADirectoryError(errno.ENOTDIR, os.strerror(errno.ENOTDIR), it)
    return folders


def _distributions(path: Union[None, Path, Iterable[Path]]) -> Iterator[_Installed]:
    """Returns the distributions that the interpreter finds, or those in folders; of two with one name the first, which is imported. One whose metadata has no
    name is passed over, as pip does."""
    found = importlib.metadata.distributions() if path is None else importlib.metadata.distributions(path=_folders(path))
    seen = set()
    for it in found:
        about = it.metadata
        try:
            normal = canonicalize_name(about["Name"] if "Name" in about else "")
        except InvalidName:
            continue
        if normal not in seen:
            seen.add(normal)
            requires = tuple(Line(text, f"{normal} {it.version}", number) for number, text in enumerate(it.requires or (), 1))
            yield _Installed(normal, it.version, requires, about["Requires-Python"] if "Requires-Python" in about else None)


def _is_read(text: str) -> bool:
    try:
        Requirement(text)
    except InvalidRequirement:
        return False
    return True


def _is_version(text: str) -> bool:
    try:
        Version(text)
    except InvalidVersion:
        return False
    return True


class _Demanded:
    """The requirements of distributions that apply, by the names that they are on."""

    def __init__(self, lines: Iterable[Line], environment: Mapping[str, str]) -> None:
        self._environment = environment
        self._of_name: dict[str, list[tuple[Line, Requirement]]] = {}
        for line in lines:
            requirement = Requirement(line.text)
            self._of_name.setdefault(requirement.name, []).append((line, requirement))

    def on(self, name: str) -> list[tuple[Line, Requirement]]:
        """Returns those on a name."""
        return [(line, it) for line, it in self._of_name[name] if it.marker is None or it.marker.evaluate(self._environment)]

    def not_met(self, name: str, version: str) -> tuple[Line, ...]:
        """Returns those on a name that don't admit a version."""
        return tuple(line for line, it in self.on(name) if not it.specifier.contains(version, prereleases=True))


def _of_python(installed: Iterable[_Installed], version: str) -> Iterator[Line]:
    """Returns what distributions require of the interpreter and isn't met, or can't be read."""
    for it in installed:
        try:
            if it.requires_python and not SpecifierSet(it.requires_python).contains(version, prereleases=True):
                yield Line(f"python {it.requires_python}", str(it), 1)
        except InvalidSpecifier:
            yield Line(f"python {it.requires_python}", str(it), 1)


def audit(path: Union[None, Path, Iterable[Path]] = None) -> Audit:
    """Returns what is wrong with the distributions that are installed for the running interpreter, or in a folder or several.

    Their requirements that apply in the interpreter's environment, without an extra, are merged. Pre-releases that are installed count as versions.
    Two distributions with one name count once, as the one that is imported.

    >>> import tubrambutan
    >>> tubrambutan.audit([])
    Audit(distributions=0, missing=(), refused=(), clashes=(), unread=())

    Raises:
        NotADirectoryError: a folder isn't there.
    """
    installed = {it.name: it for it in _distributions(path)}
    every = [line for it in installed.values() for line in it.requires]
    read = [line for line in every if _is_read(line.text)]
    unread = [line for line in every if not _is_read(line.text)]
    unread += [Line(it.version, it.name, 1) for it in installed.values() if not _is_version(it.version)]
    environment = default_environment()
    table, demanded = merge(lists=[Lines(read)], environment=environment), _Demanded(read, environment)
    at = {(line.file, line.number): line for line in read}
    clashing = clashes(lists=[Lines(read)], environment=environment)
    there = [name for name in table if name in installed and _is_version(installed[name].version)]
    met = table.admits_each(((name, installed[name].version) for name in there), prereleases=True)
    python = tuple(_of_python(installed.values(), environment["python_full_version"]))

    def finding(name: str, demands: Iterable[Line]) -> Finding:
        return Finding(name, installed[name].version if name in installed else None, tuple(demands))

    refused = [finding(name, demanded.not_met(name, installed[name].version)) for name, is_met in zip(there, met) if not is_met]
    # (of a package with two URLs all clauses may be met)
    refused = [it for it in refused if it.demands]
    return Audit(
        len(installed),
        tuple(finding(name, (line for line, _ in demanded.on(name))) for name in table if name not in installed),
        (*refused, *([Finding("python", environment["python_full_version"], python)] if python else [])),
        tuple(finding(it.name, (at[claim.path or "", claim.line] for claim in it.clash)) for it in clashing),
        tuple(unread),
    )
