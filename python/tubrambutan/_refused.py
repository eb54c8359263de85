"""Refusals as exceptions."""

from __future__ import annotations

import re
from typing import Optional

from ._codes import meaning_of

_LINE = re.compile(r"refused( environment)?(?: input (\d+))?(?: line (\d+))? code((?: \d+)+)\n?")
# How much of a text a message shows.
_SHOWN = 60


class Refused(ValueError):
    r"""What was handed in is refused. The message says what is wrong, where, and with which codes.

    >>> import tubrambutan
    >>> try:
    ...     tubrambutan.merge(lists=["flask>=2.0\nflask<"])
    ... except tubrambutan.Refused as refused:
    ...     print(refused.input, refused.line, refused.codes)
    ...     print(refused)
    1 2 (57, 33, 12)
    input 1, line 2: what follows the operator isn't a version, or after `===` isn't an allowed text (code 57 33 12)

    Attributes:
        text: the line that the program prints for this, without its line feed.
        is_environment: whether the environment is at fault.
        input: the number of the input at fault, counted from 1 through paths, lists, projects and tables in this order; None where none is.
        line: the number of the line at fault, or of the text of a project file, counted from 1; None where none is.
        is_text: whether `line` is the number of a text of a project file.
        codes: the codes, from the outermost to the innermost.
        meaning: what the codes mean, in words.
        subject: the text that was refused, or the path of its file; None where neither is known.
    """

    text: str
    is_environment: bool
    input: Optional[int]
    line: Optional[int]
    is_text: bool
    codes: tuple[int, ...]
    meaning: str
    subject: Optional[str]

    def __init__(self, text: str, subject: Optional[str] = None, is_text: bool = False) -> None:
        found = _LINE.fullmatch(text)
        if not found:
            raise AssertionError(f"no line of a refusal: {text!r}")
        environment, number, line, codes = found.groups()
        self.text = text.rstrip("\n")
        self.is_environment = environment is not None
        self.input = int(number) if number else None
        self.line = int(line) if line else None
        self.codes = tuple(map(int, codes.split()))
        self.meaning = meaning_of(self.codes)
        self.subject = subject
        self.is_text = is_text or (subject is not None and subject.endswith(".toml"))
        super().__init__(f"{self._where()}{self.meaning} (code{codes})")

    def _where(self) -> str:
        """Returns what is at fault, with a colon, or nothing where that isn't known."""
        # (59 says in its words that it is the environment)
        is_environment = self.is_environment and self.codes[0] != 59
        told = ["environment"] if is_environment else [f"input {self.input}"] if self.input else []
        if self.subject is not None:
            # (a path is shown whole; a text stands in quotes)
            is_short = len(self.subject) <= _SHOWN or self.subject[0] not in "'\""
            told = [self.subject if is_short else f"{self.subject[:_SHOWN]}.."]
        if self.line:
            told.append(f"{'text' if self.is_text else 'line'} {self.line}")
        return f"{', '.join(told)}: " if told else ""

    def __reduce__(self) -> tuple[type[Refused], tuple[str, Optional[str], bool]]:
        return type(self), (self.text, self.subject, self.is_text)


class InvalidVersion(Refused):
    """A text isn't a version (PEP 440), or has a number above 18446744073709551615."""


class InvalidSpecifier(Refused):
    """A text isn't a version specifier clause (PEP 440)."""


class InvalidRequirement(Refused):
    """A text is no requirement (PEP 508)."""


class InvalidMarker(Refused):
    """A text is no environment marker (PEP 508)."""


class InvalidName(Refused):
    """A text isn't a name (PEP 508)."""


class UndefinedComparison(Refused):
    """A marker has no truth in an environment: `~=` stands with `extra`, has no version on its left, or makes no clause with its right."""


def of_text(kind: type[Refused], refused: Refused, text: str) -> Refused:
    """Returns the refusal of a text that stands alone, or that of the call where memory is at fault."""
    return Refused(refused.text) if refused.codes == (60,) else kind(refused.text.replace(" input 1 line 1", ""), repr(text))
