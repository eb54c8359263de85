"""The worked rows of cases/: the package answers what is wanted of the program there, in every run that both can make."""

from __future__ import annotations

import importlib.machinery
import importlib.util
import os
import sys
import tempfile
import unittest
from typing import Any, Callable, Optional

import tubrambutan
from tubrambutan import Refused
from tubrambutan._library import LIST, PROJECT, TABLE, Inputs

ROOT = os.path.dirname(os.path.dirname(os.path.dirname(os.path.abspath(__file__))))
ANSWERS = {1: "yes\n", 0: "no\n", -1: "conflict\n"}


class Other(Exception):
    """A run that the package can't make: other words, a file that isn't there, or a group."""


def cases() -> Any:
    """Returns the script that reads the cases. (Scripts have no types.)"""
    sys.path.insert(0, f"{ROOT}/.ci")
    sys.dont_write_bytecode = True
    loader = importlib.machinery.SourceFileLoader("cases", f"{ROOT}/.ci/cases")
    spec = importlib.util.spec_from_loader("cases", loader)
    assert spec is not None
    module = importlib.util.module_from_spec(spec)
    loader.exec_module(module)
    return module


def read(folder: str, name: str) -> bytes:
    try:
        with open(os.path.join(folder, name), "rb") as it:
            return it.read()
    except OSError as fault:
        raise Other from fault


def kind_of(name: str) -> int:
    return PROJECT if name.endswith(".toml") else TABLE if name.endswith(".table") else LIST


def inputs_of(folder: str, env: str, names: list[str]) -> Inputs:
    return Inputs(read(folder, env), [(kind_of(name), read(folder, name)) for name in names])


def only_plain(words: list[str], count: Optional[int] = None) -> list[str]:
    """Returns the words, of which none is an option, and which are so many where a count is given."""
    if not words or any(it.startswith("-") for it in words) or count not in (None, len(words)):
        raise Other
    return words


def merged(folder: str, words: list[str]) -> str:
    if words[:1] != ["--env"]:
        raise Other
    return inputs_of(folder, words[1], only_plain(words[2:])).merged()


def checked(folder: str, words: list[str]) -> str:
    if words[:1] != ["--env"]:
        raise Other
    wants_pre_releases = words[2:3] == ["--pre"]
    words, env = words[3 if wants_pre_releases else 2 :], words[1]
    name, version = only_plain(words[:2], 2)
    names = only_plain(words[2:])
    return ANSWERS[inputs_of(folder, env, names).answer(name.encode(), version.encode(), wants_pre_releases)]


def version(folder: str, words: list[str]) -> str:
    (text,) = only_plain(words, 1)
    return f"{tubrambutan.Version(text)}\n"


def lines(folder: str, words: list[str]) -> str:
    """Returns the normal text of each line of a list; the program's refusals have the number of the line."""
    (name,) = only_plain(words, 1)
    if kind_of(name) != LIST:
        raise Other
    whole = read(folder, name).split(b"\n")
    texts = [it.removesuffix(b"\r").strip(b" \t") for it in whole]
    if len(whole) > 1_000 or any(len(it) > 65_536 for it in whole) or any(it.startswith(b"#") and not it.isascii() for it in texts):
        # (the limits of a list and of its whole lines, and what comments may hold)
        raise Other
    found = ""
    for number, text in enumerate(texts, 1):
        if text and not text.startswith(b"#"):
            try:
                found += tubrambutan._library.requirement_text(text) + "\n"
            except Refused as refused:
                raise Refused(f"{refused.text}\n".replace(" line 1 ", f" line {number} ")) from refused
    return found


CALLS: dict[str, Callable[[str, list[str]], str]] = {"merge": merged, "check": checked, "version": version, "lines": lines}


@unittest.skipIf(sys.version_info < (3, 11), "the script that reads the cases takes Python 3.11")
class Cases(unittest.TestCase):
    def answer(self, script: Any, run: Any, folder: str) -> tuple[int, bytes, bytes]:
        """Returns the status, what is printed and what is told, of the call that stands for a run."""
        try:
            words = [it.decode() for it in run.words]
        except UnicodeDecodeError as fault:
            raise Other from fault
        if words and words[0] not in CALLS:
            raise Other
        try:
            if words:
                printed = CALLS[words[0]](folder, words[1:])
            else:
                printed = Inputs(script.STANDARD.encode(), [(LIST, b"\n".join(run.given))]).merged()
        except Refused as refused:
            return 2, b"", f"{refused.text}\n".encode()
        return int(printed in ("no\n", "conflict\n") and words[:1] == ["check"]), printed.encode(), b""

    def compare(self, script: Any, run: Any, folder: str) -> None:
        with open(f"{folder}/env", "wb") as it:
            it.write(script.environment(run))
        status, printed, told = self.answer(script, run, folder)
        with self.subTest(run.place):
            self.assertEqual(status, run.status or 0)
            self.assertEqual(printed, script.wanted_output(run, folder))
            self.assertTrue(script.is_told(run, told), told)

    def test_runs(self) -> None:
        script, made, others = cases(), 0, 0
        script.STANDARD = "\n".join([*script.ENVIRONMENT, ""])
        for block in script.read(f"{ROOT}/cases"):
            with tempfile.TemporaryDirectory() as folder:
                script.lay(block, folder)
                for run in block.runs:
                    try:
                        self.compare(script, run, folder)
                        made += 1
                    except Other:
                        others += 1
        print(f"cases: {made} runs, and {others} that the package can't make")
        self.assertGreater(made, 900)


if __name__ == "__main__":
    unittest.main()
