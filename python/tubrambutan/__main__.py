"""The package as a command: `python -m tubrambutan`.

Its status tells whether something is wrong (`_STATUS`).
"""

from __future__ import annotations

import argparse
import contextlib
import errno
import json
import os
import pathlib
import sys
from typing import Any, Callable, NamedTuple, Optional, Sequence

from . import __version__
from ._audit import Audit, Finding, audit
from ._environment import default_environment, file_of
from ._inputs import Given, environment_file, numbered, of_path
from ._library import LIST
from ._listing import listed
from ._merge import merge, table_of
from ._parts import Judged
from ._refused import Refused
from ._steps import Bar, are_many, merged_in_steps
from ._table import Table
from ._why import Reason, reason_of, reasons_of


_STATUS = """The status is 0; 1 where `check` prints no or conflict, `why` or `clashes` finds a clash, `diff` a difference or `audit` a fault; and 2 where something is refused, or a file can't be read or written.
`merge` ends with 0 whatever the verdicts are."""


class _Answer(NamedTuple):
    """What is printed, in words and for machines, and the status."""

    words: str
    data: Any
    status: int = 0


def _inputs(given: argparse.Namespace) -> list[Given]:
    """Returns the files on the command line, in their order. A list on standard input is one of them."""
    return numbered((LIST, sys.stdin.buffer.read(), "standard input") if it == "-" else of_path(it) for it in given.files)


def _environment(given: argparse.Namespace) -> Optional[pathlib.Path]:
    """Returns the environment file that is named, if one is."""
    return pathlib.Path(given.env) if given.env else None


def _merged(given: argparse.Namespace) -> Table:
    """Returns the table of the files on the command line."""
    return table_of(_inputs(given), _environment(given), given.group, given.extra)


def _merged_before_a_person(given: argparse.Namespace) -> Table:
    """Returns the same table. Where a person looks at standard error and more than a second of work may remain, a bar there tells how much is done."""
    if not sys.stderr.isatty() or "-" in given.files or not are_many(given.files):
        return _merged(given)
    bar = Bar(sys.stderr)
    try:
        return merged_in_steps(given.files, Judged.of(_environment(given), given.group, given.extra), bar.tell)
    except Refused:
        # (which tells the place)
        return _merged(given)
    finally:
        bar.end()


def _merge(given: argparse.Namespace) -> _Answer:
    table = _merged_before_a_person(given)
    packages = {
        name: {"verdict": it.verdict, "extras": it.extras, "urls": it.urls, "texts": it.texts, "ranges": [str(versions) for versions in it.ranges]}
        for name, it in (table.items() if given.json else ())
    }
    return _Answer(table.lines if table.extras else table.text, packages)


def _check(given: argparse.Namespace) -> _Answer:
    table = _merged(given)
    (is_met,) = table.admits_each([(given.name, given.version)], prereleases=given.pre)
    is_conflict = given.name in table and table[given.name].verdict == "conflict"
    answer = "conflict" if is_conflict else "yes" if is_met else "no"
    return _Answer(f"{answer}\n", answer, 0 if is_met else 1)


def _reason(it: Reason) -> dict[str, Any]:
    return {**it._asdict(), "claims": [claim._asdict() for claim in it.claims], "clash": [claim._asdict() for claim in it.clash]}


def _why(given: argparse.Namespace) -> _Answer:
    reason = reason_of(given.name, _inputs(given), _environment(given), given.group)
    return _Answer(f"{reason}\n", _reason(reason), 0 if reason.verdict == "open" else 1)


def _clashes(given: argparse.Namespace) -> _Answer:
    found = reasons_of(_inputs(given), _environment(given), given.group)
    return _Answer("".join(f"{it}\n" for it in found), list(map(_reason, found)), 1 if found else 0)


def _lines(given: argparse.Namespace) -> _Answer:
    found = list(listed(_inputs(given), environment_file(_environment(given)), given.group))
    return _Answer("".join(f"{it}\n" for it in found), [it._asdict() for it in found])


def _table_in(path: str, environment: Optional[pathlib.Path]) -> Table:
    """Returns the printed table in a file."""
    try:
        return merge(tables=[pathlib.Path(path).read_bytes()], environment=environment)
    except Refused as refused:
        raise Refused(refused.text, path) from None


def _diff(given: argparse.Namespace) -> _Answer:
    # (of tables of other environments the lines alone can be compared)
    old, new = (_table_in(it, _environment(given)) for it in (given.old, given.new))
    found = old.diff(new)._asdict()
    words = "".join(f"{kind} {name}\n" for kind, names in found.items() for name in names)
    return _Answer(words, found, 1 if words else 0)


def _finding(it: Finding) -> dict[str, Any]:
    return {"package": it.package, "installed": it.installed, "demands": [line._asdict() for line in it.demands]}


def _audit(given: argparse.Namespace) -> _Answer:
    found: Audit = audit(given.folders or None)
    data = {
        "distributions": found.distributions,
        **{kind: [_finding(it) for it in getattr(found, kind)] for kind in ("missing", "refused", "clashes")},
        "unread": [it._asdict() for it in found.unread],
    }
    return _Answer(f"{found}\n", data, 1 if found else 0)


def _env(_: argparse.Namespace) -> _Answer:
    environment = default_environment()
    return _Answer(file_of(environment).decode(), environment)


def _parser() -> argparse.ArgumentParser:
    """Returns the parser of the command line."""
    parser = argparse.ArgumentParser(prog="python -m tubrambutan", description="Reads Python requirements and merges them into one table.", epilog=_STATUS)
    parser.add_argument("--version", action="version", version=__version__)
    commands = parser.add_subparsers(required=True, metavar="COMMAND")

    def command(name: str, run: Callable[[argparse.Namespace], _Answer], text: str) -> argparse.ArgumentParser:
        found = commands.add_parser(name, help=text, description=text)
        found.add_argument("--json", action="store_true", help="print JSON")
        found.set_defaults(run=run)
        return found

    def with_files(found: argparse.ArgumentParser, has_extras: bool = True, kinds: str = "a list, a project file (.toml), a printed table (.table)") -> None:
        found.add_argument("--env", metavar="FILE", help="an environment file, in place of the running interpreter's environment")
        found.add_argument("--group", metavar="NAME", help="the dependency group of project files, in place of their dependencies")
        if has_extras:
            found.add_argument("--extra", metavar="NAME", action="append", default=[], help="an extra; a merge with several prints no header")
        found.add_argument("files", nargs="+", metavar="FILE", help=f"{kinds}, or - for standard input")

    with_files(command("merge", _merge, "Print the table of all that files demand."))
    check = command("check", _check, "Say whether a version meets all that files demand of a package.")
    check.add_argument("--pre", action="store_true", help="pre-releases are wanted")
    check.add_argument("name", metavar="NAME")
    check.add_argument("version", metavar="VERSION")
    with_files(check)
    reason = command("why", _why, "Say who demands what of a package, and which of these demands clash.")
    reason.add_argument("name", metavar="NAME")
    with_files(reason, has_extras=False)
    with_files(command("clashes", _clashes, "For each package whose demands can't be met together, say which of them clash."), has_extras=False)
    lines = command("lines", _lines, "Print the requirements of lists, and those of project files that apply, each with its place.")
    with_files(lines, has_extras=False, kinds="a list, a project file (.toml)")
    diff = command("diff", _diff, "Say which packages two printed tables demand differently.")
    diff.add_argument("--env", metavar="FILE", help="the environment file of both tables, in place of the running interpreter's environment")
    diff.add_argument("old", metavar="OLD")
    diff.add_argument("new", metavar="NEW")
    installed = command("audit", _audit, "Say what is wrong with the distributions that are installed.")
    installed.add_argument("folders", nargs="*", metavar="FOLDER", help="folders to look in, in place of those of the running interpreter")
    command("env", _env, "Print the environment file of the running interpreter.")
    return parser


def _print(text: str) -> None:
    """Writes a text to standard output, all of it.

    Raises:
        OSError: a write fails, or takes nothing.
    """
    if sys.stdout is None:
        raise OSError(errno.EBADF, "standard output is closed")
    sys.stdout.flush()
    buffer = getattr(sys.stdout, "buffer", None)
    if buffer is None:
        # (a stream in memory, which takes all)
        sys.stdout.write(text)
        return
    left = memoryview(text.encode(sys.stdout.encoding, sys.stdout.errors or "strict"))
    while left:
        # (a stream without a buffer may write less than it is given, as with `PYTHONUNBUFFERED`)
        count = buffer.write(left)
        if not count:
            raise OSError(errno.EAGAIN, "standard output takes no more")
        left = left[count:]
    buffer.flush()


def _told(answer: _Answer, is_json: bool) -> str:
    """Returns what is printed."""
    return json.dumps(answer.data, indent=1) + "\n" if is_json else answer.words


def _give_up_output() -> None:
    """Sends what standard output still holds to nowhere, or the interpreter would write it at its end, and tell the fault once more."""
    with contextlib.suppress(OSError, ValueError, AttributeError):
        os.dup2(os.open(os.devnull, os.O_WRONLY), sys.stdout.fileno())


def main(words: Optional[Sequence[str]] = None) -> int:
    """Runs a command, and returns its status."""
    given = _parser().parse_args(words)
    is_printing = False
    try:
        answer: _Answer = given.run(given)
        told, is_printing = _told(answer, given.json), True
        _print(told)
    except (ValueError, OSError) as fault:
        if is_printing:
            _give_up_output()
        # (where a pipe is broken nobody reads on)
        if not isinstance(fault, BrokenPipeError):
            print(f"tubrambutan: {fault}", file=sys.stderr)
        return 2
    return answer.status


if __name__ == "__main__":
    sys.exit(main())
