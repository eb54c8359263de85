"""Environments of markers."""

from __future__ import annotations

import functools
import os
import platform
import re
import sys
from typing import Any, Mapping, Optional

from ._texts import encoded, text_in

# What a basic string of TOML may not hold as it is.
_ESCAPED = re.compile(r'[\x00-\x1f"\\\x7f]')


def _full_version(info: Any) -> str:
    """Returns the text of a version of an implementation, as PEP 508 makes it."""
    version = f"{info.major}.{info.minor}.{info.micro}"
    return version if info.releaselevel == "final" else f"{version}{info.releaselevel[0]}{info.serial}"


def _repaired(version: str) -> str:
    """Returns a version of an interpreter that was built between two releases, as `3.13.0+`, with a local version label, so that it is one.

    >>> _repaired("3.13.0+"), _repaired("3.13.0")
    ('3.13.0+local', '3.13.0')
    """
    return f"{version}local" if version.endswith("+") else version


def default_environment() -> dict[str, str]:
    """Returns the environment of the running interpreter: the eleven variables of PEP 508, derived as it says, without an `extra`.

    The full version of an interpreter that was built between two releases gets a local version label, as `packaging` gives it one.

    >>> import sys, tubrambutan
    >>> environment = tubrambutan.default_environment()
    >>> environment["sys_platform"] == sys.platform
    True
    >>> environment["extra"] = "dev"
    >>> list(tubrambutan.merge(lists=['pytest; extra == "dev"'], environment=environment))
    ['pytest']
    """
    return {
        "os_name": os.name,
        "sys_platform": sys.platform,
        "platform_machine": platform.machine(),
        "platform_python_implementation": platform.python_implementation(),
        "platform_release": platform.release(),
        "platform_system": platform.system(),
        "platform_version": platform.version(),
        "python_version": ".".join(platform.python_version_tuple()[:2]),
        "python_full_version": _repaired(platform.python_version()),
        "implementation_name": sys.implementation.name,
        "implementation_version": _full_version(sys.implementation.version),
    }


def _string(text: str) -> str:
    """Returns a basic string of TOML."""
    return '"' + _ESCAPED.sub(lambda it: f"\\u{ord(it[0]):04x}", text) + '"'


def completed(environment: Mapping[str, Optional[str]]) -> dict[str, Optional[str]]:
    """Returns the environment of the running interpreter with these variables in place of its own. A full version among them is repaired too.

    >>> completed({"python_full_version": "3.13.0+"})["python_full_version"]
    '3.13.0+local'
    """
    variables: dict[str, Optional[str]] = {**default_environment(), **environment}
    version = variables["python_full_version"]
    if isinstance(version, str):
        variables["python_full_version"] = _repaired(version)
    return variables


# (most markers are judged in few environments)
@functools.lru_cache(maxsize=16)
def _file_of(pairs: tuple[tuple[str, str], ...]) -> bytes:
    """Returns the environment file with these variables and their texts."""
    return encoded("".join(f"{_string(name)} = {_string(text)}\n" for name, text in pairs))


def file_of(environment: Mapping[str, Optional[str]]) -> bytes:
    """Returns the environment file with these variables.

    Raises:
        TypeError: one has no text.
    """
    pairs = []
    for name, text in environment.items():
        if not isinstance(name, str) or not isinstance(text, str):
            text_in(name, "environment: the name of a variable")
            text_in(text, f"environment: the text of {name!r}")
        else:
            pairs.append((name, text))
    return _file_of(tuple(pairs))
