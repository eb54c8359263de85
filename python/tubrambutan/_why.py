"""Why packages have their verdicts: who demands what of them, and which of these demands clash."""

from __future__ import annotations

from typing import Iterable, NamedTuple, Optional, Sequence

from ._inputs import Environment, Given, Path, Source, Text, buffer_of, environment_file, given_inputs, group_of, placed
from ._library import PROJECT, TABLE
from ._lines import Lines
from ._names import canonicalize_name
from ._refused import Refused


class Claim(NamedTuple):
    """What stands in one place of an input and demands something of a package.

    Attributes:
        input: the number of the input, counted from 1 through paths, lists, projects and tables in this order.
        line: the number of the line, or of the text of a project file, counted from 1; of a table's entry that of its first line.
        text: the normal text of the requirement; of a table's entry its lines.
        path: the path of the file, or None where the input was none.
        is_text: whether `line` is the number of a text of a project file.
    """

    input: int
    line: int
    text: str
    path: Optional[str]
    is_text: bool = False

    def __str__(self) -> str:
        lines = self.text.rstrip().replace("\n", "\n  ")
        return f"{self.path or f'input {self.input}'}, {'text' if self.is_text else 'line'} {self.line}: {lines}"


class Reason(NamedTuple):
    """Why a package has its verdict.

    >>> from tubrambutan import why
    >>> print(why("django", lists=["django>=5\\nflask", "django<4.2", "django!=4.0"]))
    django: no version meets these together
      input 1, line 1: django>=5
      input 2, line 1: django<4.2
    and 1 more demand

    Attributes:
        name: the normalized name.
        verdict: `open`; `none`, where no version whatever meets all demands; or `conflict`, where two different URLs are demanded.
        claims: all claims on the package that apply, in the order of the inputs.
        clash: the claims that clash: none where the verdict is open. Else they clash together, and without any one of them the others don't.
    """

    name: str
    verdict: str
    claims: tuple[Claim, ...]
    clash: tuple[Claim, ...]

    def __str__(self) -> str:
        told = {"open": "these demands can be met", "none": "no version meets these together", "conflict": "two different URLs are demanded"}[self.verdict]
        shown = self.clash or self.claims
        others = len(self.claims) - len(shown)
        more = [f"and {others} more demand{'s' if others > 1 else ''}"] if others else []
        return "\n".join([f"{self.name}: {told if shown else 'nothing is demanded'}", *(f"  {it}" for it in shown), *more])


class _Reader:
    """Reads the lines of reasons that the library writes of inputs."""

    def __init__(self, inputs: Sequence[Given]) -> None:
        self._inputs = inputs
        # (the lines of printed tables, by the numbers of the inputs)
        self._lines: dict[int, list[str]] = {}

    def _entry_at(self, of_input: int, line: int) -> str:
        """Returns the lines of the entry of a printed table that begins at a line."""
        if of_input not in self._lines:
            self._lines[of_input] = self._inputs[of_input - 1].data.decode().split("\n")
        lines = self._lines[of_input]
        end = line
        while end < len(lines) and lines[end].startswith(" "):
            end += 1
        return "".join(f"{it}\n" for it in lines[line - 1 : end])

    def _claim(self, line: str) -> Claim:
        """Returns the claim that stands on a line, behind its word."""
        _, of_input, at, text = line.split(" ", 3)
        given, number = self._inputs[int(of_input) - 1], int(at)
        if given.kind == TABLE:
            text = self._entry_at(int(of_input), number)
        if isinstance(given.places, Lines):
            place = given.places[number - 1]
            return Claim(given.number, place.number, text, place.file)
        return Claim(given.number, number, text, given.places, given.kind == PROJECT)

    def reasons(self, text: str) -> tuple[Reason, ...]:
        """Returns the reasons: a line of two words begins each, whatever the name is."""
        found: list[tuple[str, str, list[Claim], list[Claim]]] = []
        for line in text.split("\n")[:-1]:
            if line.count(" ") == 1:
                name, verdict = line.split(" ")
                found.append((name, verdict, [], []))
            else:
                _, _, claims, clash = found[-1]
                (claims if line.startswith("claim ") else clash).append(self._claim(line))
        return tuple(Reason(name, verdict, tuple(claims), tuple(clash)) for name, verdict, claims, clash in found)


def reason_of(name: str, inputs: Sequence[Given], environment: Environment, group: Optional[str]) -> Reason:
    """Returns why a package has its verdict on what inputs demand."""
    asked = canonicalize_name(name).encode()
    try:
        return _Reader(inputs).reasons(buffer_of(environment_file(environment), inputs, group_of(group)).why(asked))[0]
    except Refused as refused:
        raise placed(refused, inputs) from None


def reasons_of(inputs: Sequence[Given], environment: Environment, group: Optional[str]) -> tuple[Reason, ...]:
    """Returns why each package whose verdict isn't open has it."""
    try:
        return _Reader(inputs).reasons(buffer_of(environment_file(environment), inputs, group_of(group)).clashes())
    except Refused as refused:
        raise placed(refused, inputs) from None


def why(
    name: str,
    *paths: Path,
    lists: Iterable[Source] = (),
    projects: Iterable[Text] = (),
    tables: Iterable[Text] = (),
    environment: Environment = None,
    group: Optional[str] = None,
) -> Reason:
    """Returns why a package has its verdict on what inputs demand, which are those of `merge`.

    Raises:
        InvalidName: the name, or the group, isn't a name.
        Refused: an input isn't accepted in the environment, or the environment isn't valid.
        OSError: a file can't be read.
        ValueError: a text is the name of a file.
        TypeError: an argument has another type.
    """
    return reason_of(name, given_inputs(paths, lists, projects, tables), environment, group)


def clashes(
    *paths: Path,
    lists: Iterable[Source] = (),
    projects: Iterable[Text] = (),
    tables: Iterable[Text] = (),
    environment: Environment = None,
    group: Optional[str] = None,
) -> tuple[Reason, ...]:
    """Returns why each package whose verdict isn't open has it, in the order of their names. The inputs are read twice.

    >>> import tubrambutan
    >>> [(it.name, [claim.text for claim in it.clash]) for it in tubrambutan.clashes(lists=["a>=1\\na<1\\nb", "a!=2\\nc @ https://x.test/1", "c @ https://x.test/2"])]
    [('a', ['a>=1', 'a<1']), ('c', ['c @ https://x.test/1', 'c @ https://x.test/2'])]

    Raises:
        InvalidName: the group isn't a name.
        Refused: an input isn't accepted in the environment, or the environment isn't valid.
        OSError: a file can't be read.
        ValueError: a text is the name of a file.
        TypeError: an argument has another type.
    """
    return reasons_of(given_inputs(paths, lists, projects, tables), environment, group)
