"""Inputs as callers hand them in: files, texts, and texts with the places of their lines."""

from __future__ import annotations

import os
from typing import Iterable, Iterator, Mapping, NamedTuple, Optional, Sequence, Union

from ._environment import default_environment, file_of
from ._library import LIST, PROJECT, TABLE, Inputs
from ._lines import Lines
from ._names import canonicalize_name
from ._refused import Refused
from ._texts import encoded, path_in

Path = Union[str, "os.PathLike[str]"]
Text = Union[str, bytes]
Source = Union[str, bytes, Lines]
Environment = Optional[Union[Mapping[str, str], Text, "os.PathLike[str]"]]


def _file(path: Path) -> bytes:
    """Returns the bytes of the file at a path."""
    with open(path, "rb") as file:
        return file.read()


def _kind_of(path: str) -> int:
    """Returns the kind of a file, which the program tells by its name too."""
    return PROJECT if path.endswith(".toml") else TABLE if path.endswith(".table") else LIST


def of_path(path: object) -> tuple[int, bytes, str]:
    """Returns the kind of the file at a path, its bytes, and the path."""
    name = path_in(path, "a path")
    return _kind_of(name), _file(name), name


_TWO_EXTRAS = "extras are given (--extra), and the environment has one too: give all of them in extras (--extra), and none in the environment"
# How the file with a name is read where a text is wanted, by the argument.
_READS = {"environment": "environment=pathlib.Path({!r})", "split": "pathlib.Path({!r}).read_text()"}
# Where a list stands in an object that isn't one.
_LISTS_IN = {"RequirementsFile": "requirements", "Metadata": "requires"}


def text_bytes(text: object, argument: str) -> bytes:
    """Returns the bytes of a text or of bytes, which this argument has."""
    if isinstance(text, bytes):
        return text
    if not isinstance(text, str):
        kind = type(text).__name__
        hint = f": hand in its `{_LISTS_IN[kind]}`" if kind in _LISTS_IN else "" if argument in _READS else ": files are positional arguments of merge"
        raise TypeError(f"{argument} takes texts and bytes, not {kind}{hint}")
    if "\n" not in text and os.path.isfile(text):
        how = _READS.get(argument, "merge({!r})").format(text)
        raise ValueError(f"{argument} takes texts, and {text!r} is the name of a file: write {how} to read the file, or end the text with a line feed")
    return encoded(text)


def _texts(texts: object, argument: str) -> Iterator[tuple[bytes, Union[None, str, Lines]]]:
    """Returns the bytes of the texts of an argument of `merge`, with the places of those that have some; one alone in their place would be
    taken letter by letter."""
    if isinstance(texts, (str, bytes, Lines)) or not isinstance(texts, Iterable):
        raise TypeError(f"{argument} must be a list of texts, also for one, not {type(texts).__name__}")
    for text in texts:
        if isinstance(text, Lines) and argument == "lists":
            yield encoded(text.text), text
        else:
            yield text_bytes(text, argument), None


def environment_file(environment: object, extras: Sequence[str] = ()) -> bytes:
    """Returns the bytes of the environment file of variables, of a file's text, of its bytes, or of its path. An extra doesn't stand beside extras."""
    if environment is None:
        environment = default_environment()
    if isinstance(environment, Mapping):
        if extras and environment.get("extra"):
            raise ValueError(_TWO_EXTRAS)
        return file_of({name: text for name, text in environment.items() if name != "extra" or not extras})
    if isinstance(environment, os.PathLike):
        file = _file(environment)
    elif isinstance(environment, (str, bytes)):
        file = text_bytes(environment, "environment")
    else:
        raise TypeError(f"environment must be a mapping, a text, bytes or an os.PathLike, not {type(environment).__name__}")
    # (the table of nothing ends with its environment's extra)
    if extras and not buffer_of(file, [], b"").merged().endswith("\nenv extra=\n"):
        raise ValueError(_TWO_EXTRAS)
    return file


def group_of(group: object) -> bytes:
    """Returns the name of a dependency group as bytes, or none."""
    if group is None:
        return b""
    if not isinstance(group, str):
        raise TypeError(f"group must be a name, not {type(group).__name__}")
    # (no text would ask for no group)
    return canonicalize_name(group).encode()


class Given(NamedTuple):
    """An input, with its number among all, and its path or the places of its lines, if it has them."""

    number: int
    kind: int
    data: bytes
    places: Union[None, str, Lines]


def numbered(found: Iterable[tuple[int, bytes, Union[None, str, Lines]]]) -> list[Given]:
    """Returns inputs with their numbers, which count from 1."""
    return [Given(number, *it) for number, it in enumerate(found, 1)]


def given_inputs(paths: Iterable[Path], lists: Iterable[Source], projects: Iterable[Text], tables: Iterable[Text]) -> list[Given]:
    """Returns the inputs that are handed in, in their order."""
    kinds: tuple[tuple[int, str, Iterable[Source]], ...] = ((LIST, "lists", lists), (PROJECT, "projects", projects), (TABLE, "tables", tables))
    found: list[tuple[int, bytes, Union[None, str, Lines]]] = [of_path(path) for path in paths]
    found += [(kind, data, places) for kind, argument, texts in kinds for data, places in _texts(texts, argument)]
    return numbered(found)


def buffer_of(environment: bytes, inputs: Sequence[Given], group: bytes, more: Sequence[bytes] = ()) -> Inputs:
    """Returns inputs in one buffer, and printed tables behind them."""
    return Inputs(environment, [*((it.kind, it.data) for it in inputs), *((TABLE, data) for data in more)], group)


def placed(refused: Refused, inputs: Sequence[Given]) -> Refused:
    """Returns the refusal of one of the inputs of a call with its number among all, and with its path, or the place of its line."""
    if refused.input is None:
        return refused
    if refused.input > len(inputs):
        # (a table that was made on the way, which the caller doesn't know)
        return Refused(refused.text.replace(f" input {refused.input}", ""))
    given = inputs[refused.input - 1]
    text = refused.text.replace(f" input {refused.input}", f" input {given.number}")
    if not isinstance(given.places, Lines):
        return Refused(text, given.places, given.kind == PROJECT)
    if not refused.line or refused.line > len(given.places):
        return Refused(text)
    place = given.places[refused.line - 1]
    return Refused(text.replace(f" line {refused.line} ", f" line {place.number} "), place.file)
