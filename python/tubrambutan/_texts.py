"""Texts as bytes."""

from __future__ import annotations

import os
from typing import Iterable, Sequence, TypeVar, Union

T = TypeVar("T")


def encoded(text: str) -> bytes:
    r"""Returns a text in UTF-8. What can't be written so becomes bytes that aren't UTF-8, which the library refuses.

    >>> encoded("\ud800")
    b'\xed\xa0\x80'
    """
    try:
        return text.encode()
    except UnicodeEncodeError:
        return text.encode("utf-8", "surrogatepass")


def between_zero_bytes(texts: Sequence[str]) -> bytes:
    r"""Returns texts with a zero byte between two. A zero byte within one becomes another byte that no version has either.

    >>> between_zero_bytes(["1.0", "2\x00"])
    b'1.0\x002\x01'
    """
    joined = "\0".join(texts)
    if joined.count("\0") >= len(texts):
        joined = "\0".join(text.replace("\0", "\1") for text in texts)
    return encoded(joined)


def text_in(value: object, argument: str) -> str:
    """Returns the text that an argument is.

    Raises:
        TypeError: it is none. The message names the argument.
    """
    if not isinstance(value, str):
        raise TypeError(f"{argument} must be a str, not {type(value).__name__}")
    return value


def path_in(value: object, argument: str) -> str:
    """Returns the path that an argument is.

    Raises:
        TypeError: it is none. The message names the argument.
    """
    path: Union[str, bytes, None] = os.fspath(value) if isinstance(value, (str, os.PathLike)) else None
    if not isinstance(path, str):
        raise TypeError(f"{argument} must be a str or os.PathLike, not {type(value).__name__}")
    return path


def many_in(value: Iterable[T], argument: str, of: str) -> list[T]:
    """Returns the items of an argument; a text alone in their place would be taken letter by letter.

    Raises:
        TypeError: it has none. The message names the argument.
    """
    if isinstance(value, (str, bytes)) or not isinstance(value, Iterable):
        raise TypeError(f"{argument} must be {of} in a list, also for one, not {type(value).__name__}")
    return list(value)
