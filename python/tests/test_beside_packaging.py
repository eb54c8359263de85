"""The types beside those of `packaging`, on random texts: the same answers, or a rule of docs/PYTHON.md explains why not."""

from __future__ import annotations

import os
import random
import sys
import unittest
from typing import Callable, Optional, TypeVar, Union

from tubrambutan import Marker, Refused, Requirement, Specifier, SpecifierSet, Version, canonicalize_name
from test_tables import STANDARD

# (Debian's packages for the interpreter of the system, which a virtual environment doesn't see)
sys.path.append("/usr/lib/python3/dist-packages")
try:
    import packaging.markers
    import packaging.requirements
    import packaging.specifiers
    import packaging.utils
    import packaging.version

    IS_THERE = True
except ImportError:
    IS_THERE = False
finally:
    sys.path.remove("/usr/lib/python3/dist-packages")

# How many of each kind are compared that both read.
COUNT = int(os.environ.get("TUBRAMBUTAN_RANDOM", "20000"))
LARGE = "18446744073709551616"
T = TypeVar("T")
OPERATORS = ("~=", "==", "!=", "<=", ">=", "<", ">", "===")
VARIABLES = [it for it in STANDARD if it not in ("platform_version", "platform_release")]


class Texts:
    """Random texts, most of them well formed."""

    def __init__(self, seed: int) -> None:
        self._chance = random.Random(seed)
        self.pick = self._chance.choice

    def number(self) -> str:
        return self.pick(["0", "1", "2", "3", "10", "007", "2024", LARGE if self._chance.random() < 0.02 else "4"])

    def release(self) -> str:
        return ".".join(self.number() for _ in range(self.pick([1, 2, 2, 3, 4])))

    def maybe(self, share: float, text: str) -> str:
        return text if self._chance.random() < share else ""

    def separator(self) -> str:
        return self.pick(["", "", ".", "-", "_"])

    def version(self) -> str:
        sep = self.separator
        pre = self.maybe(0.3, sep() + self.pick(["a", "b", "rc", "c", "alpha", "BETA", "pre", "preview"]) + sep() + self.maybe(0.8, self.number()))
        post = self.maybe(0.25, self.pick(["-" + self.number(), sep() + self.pick(["post", "rev", "r"]) + sep() + self.maybe(0.8, self.number())]))
        dev = self.maybe(0.2, sep() + "dev" + sep() + self.maybe(0.8, self.number()))
        label = self.maybe(0.15, "+" + self.pick(["x", "1", "Ubuntu-01", "a.b_3", "", "9z"]))
        return self.maybe(0.1, "v") + self.maybe(0.1, self.pick(["0!", "1!"])) + self.release() + pre + post + dev + label + self.maybe(0.03, self.pick(["x", ".", "!", " "]))

    def clause(self) -> str:
        operator = self.pick(OPERATORS)
        return operator + self.maybe(0.2, " ") + (self.release() + ".*" if self._chance.random() < 0.2 else self.version())

    def name(self) -> str:
        return self.pick(["a", "Flask", "zope.interface", "A__b", "x-1", "-a", "a_"])

    def marker(self, depth: int = 2) -> str:
        if depth and self._chance.random() < 0.4:
            inner = f"{self.marker(depth - 1)} {self.pick(['and', 'or'])} {self.marker(depth - 1)}"
            return f"({inner})" if self._chance.random() < 0.5 else inner
        left = self.pick(VARIABLES)
        right = self.pick(["posix", "3.9", "3.10", "3", "linux", "CPython", "2.7"])
        return f"{left} {self.pick(['==', '!=', '<', '>=', 'in', 'not in', '~='])} '{right}'"

    def requirement(self) -> str:
        extras = self.maybe(0.2, self.pick(["[x]", "[x,Y_z]", "[]", "[x"]))
        clauses = ",".join(self.clause() for _ in range(self.pick([0, 1, 1, 2])))
        target = self.pick([clauses, clauses, f"({clauses})", " @ https://x.test/1"])
        return self.name() + extras + target + self.maybe(0.2, " ; " + self.marker(1))


def told(call: Callable[[], T]) -> Optional[T]:
    """Returns what a call gives, or None where it refuses its text."""
    try:
        return call()
    except (Refused, ValueError):
        return None
    except Exception as fault:
        if type(fault).__module__.startswith("packaging"):
            return None
        raise


def parts(it: Union[Version, packaging.version.Version]) -> tuple[object, ...]:
    return (it.epoch, it.release, it.pre, it.post, it.dev, it.local, it.public, it.base_version, it.is_prerelease, it.is_postrelease, it.is_devrelease, str(it))


def spelled(clauses: Union[SpecifierSet, packaging.specifiers.SpecifierSet]) -> set[tuple[str, object]]:
    """Returns the operators of clauses, each with its version, in whatever way that is written."""
    return {(it.operator, told(lambda: packaging.version.Version(it.version.removesuffix(".*"))) or it.version.lower()) for it in clauses}


def held(marker: Union[Marker, packaging.markers.Marker]) -> Optional[bool]:
    """Returns whether a marker holds in the environment of the tests, or None where that is refused."""
    return told(lambda: marker.evaluate({**STANDARD, "extra": ""}))


def is_near(text: str, version: packaging.version.Version) -> bool:
    """Tells whether a clause with `<` or `>` and a version of the same release, beside which the two read PEP 440 differently."""
    clause = packaging.specifiers.Specifier(text)
    if clause.operator not in ("<", ">"):
        return False
    bound = packaging.version.Version(clause.version)
    zeros = max(len(bound.release), len(version.release))
    padded = [it.release + (0,) * (zeros - len(it.release)) for it in (bound, version)]
    return bound.epoch == version.epoch and padded[0] == padded[1]


def wants_more(it: packaging.specifiers.Specifier) -> bool:
    """Tells whether a clause is one with `<` or `>` that names a pre-release, which wants pre-releases in `packaging` from 24.2 on."""
    return it.operator in ("<", ">") and it.prereleases is True


def has_lost_epoch(it: packaging.specifiers.Specifier, version: packaging.version.Version) -> bool:
    """Tells whether `packaging` 23 may find the prefix of a clause in a version with an epoch, as that of `~=0.4` in `1!2.0`."""
    return bool(version.epoch) and (it.operator == "~=" or it.version.endswith(".*"))


@unittest.skipUnless(IS_THERE, "NOT COMPARED WITH packaging, WHICH IS NOT INSTALLED (Debian: python3-packaging)")
class BesidePackaging(unittest.TestCase):
    def compare(self, text: object, ours: object, theirs: object, explained: Callable[[], bool]) -> None:
        if ours != theirs and not explained():
            self.fail(f"{text!r}: {ours!r}, and packaging {theirs!r}")

    def test_versions(self) -> None:
        texts, before, left = Texts(1), None, COUNT
        while left:
            text = texts.version()
            ours, theirs = told(lambda: Version(text)), told(lambda: packaging.version.Version(text))
            self.compare(text, ours and parts(ours), theirs and parts(theirs), lambda: LARGE in text)
            if ours and theirs:
                if before:
                    order = [(one < other, one == other, one > other) for one, other in ((ours, before[0]), (theirs, before[1]))]
                    self.assertEqual(order[0], order[1], (text, str(before[0])))
                    left -= 1
                before = (ours, theirs)

    def test_clauses(self) -> None:
        texts, left = Texts(2), COUNT
        while left:
            text, version = texts.clause(), texts.version()
            ours, theirs = told(lambda: Specifier(text)), told(lambda: packaging.specifiers.Specifier(text))
            candidate = told(lambda: packaging.version.Version(version))
            self.compare(text, ours is None, theirs is None, lambda: LARGE in text or text.startswith("==="))
            if ours and theirs and candidate and LARGE not in version:
                # (`packaging` takes the prefix of `~=` from the text as it was written)
                written = packaging.specifiers.Specifier(str(ours))
                answers = ours.contains(version, prereleases=True), written.contains(version, prereleases=True)
                is_explained = is_near(text, candidate) or has_lost_epoch(written, candidate)
                self.compare((text, version), *answers, lambda: is_explained)
                if not text.startswith("==="):
                    self.assertEqual((ours.operator, ours.prereleases), (theirs.operator, theirs.prereleases and not wants_more(theirs)), text)
                left -= 1

    def test_requirements(self) -> None:
        texts, left = Texts(3), COUNT
        while left:
            text = texts.requirement()
            ours, theirs = told(lambda: Requirement(text)), told(lambda: packaging.requirements.Requirement(text))
            explained = lambda: LARGE in text or "===" in text or "()" in text or text.startswith("a_") or told(lambda: Marker(text.partition(" ; ")[2])) is None
            self.compare(text, ours is None, theirs is None, explained)
            if ours and theirs:
                name, extras = packaging.utils.canonicalize_name(theirs.name), {packaging.utils.canonicalize_name(it) for it in theirs.extras}
                self.assertEqual((ours.name, ours.extras, ours.url), (name, extras, theirs.url), text)
                self.assertEqual(spelled(ours.specifier), spelled(theirs.specifier), text)
                self.assertEqual(ours.marker is None, theirs.marker is None, text)
                if ours.marker and theirs.marker:
                    answers = held(ours.marker), held(theirs.marker)
                    self.compare(text, *answers, lambda: None in answers)
                again = Requirement(str(ours))
                self.assertEqual((again, str(again)), (ours, str(ours)), text)
                left -= 1

    def test_markers(self) -> None:
        texts, left = Texts(4), COUNT
        while left:
            text = texts.marker()
            ours, theirs = told(lambda: held(Marker(text))), told(lambda: held(packaging.markers.Marker(text)))
            # (of two sides `packaging` may judge one alone, and it refuses to compare a text that isn't a version with one that is)
            self.compare(text, ours, theirs, lambda: ours is None or theirs is None)
            left -= ours is not None and theirs is not None

    def test_installed(self) -> None:
        texts = Texts(5)
        for _ in range(COUNT // 4):
            text, version = ",".join(texts.clause() for _ in range(texts.pick([1, 2]))), texts.version()
            ours, theirs = told(lambda: SpecifierSet(text)), told(lambda: packaging.specifiers.SpecifierSet(text))
            candidate = told(lambda: packaging.version.Version(version))
            if ours is None or theirs is None or candidate is None or LARGE in version:
                continue
            written = packaging.specifiers.SpecifierSet(str(ours))
            for wants in (None, True, False):
                for installed in (None, True, False):
                    asked = packaging.version.Version(candidate.base_version) if installed and candidate.is_prerelease else candidate
                    answers = ours.contains(version, wants, installed), told(lambda: written.contains(version, wants, installed))
                    explained = any(is_near(str(it), asked) or (wants is None and wants_more(it)) or has_lost_epoch(it, asked) for it in written)
                    self.compare((text, version, wants, installed), *answers, lambda: explained or answers[1] is None)

    def test_no_extra(self) -> None:
        for text in ("extra == 'x'", "extra != 'x'", "'x' == extra", "extra == ''", "os_name == 'x' or extra == ''"):
            environments: list[dict[str, Optional[str]]] = [{"extra": None}, {"extra": ""}, {"extra": "X"}]
            for environment in environments:
                theirs = packaging.markers.Marker(text).evaluate(environment)  # type: ignore[arg-type]  # (its type has no None)
                self.assertEqual(Marker(text).evaluate(environment), theirs, (text, environment))

    def test_white_space(self) -> None:
        bodies = ("a", "a[x]>=1", "a (>=1)", "a>=1,<2", "a; os_name == 'x'", "a>=1 ; os_name == 'x'")
        for space in ("", " ", "\t", "\n", "\r", "\r\n", "\v", "\f", "\x1c", "\x1f", "\x85", "\xa0", "\u2003", "\u3000", "\u200b", "\ufeff", "\0", " \n", "\n ", "\n\n"):
            for body in bodies:
                for text in (space + body, body + space):
                    self.compare(text, told(lambda: Requirement(text)) is None, told(lambda: packaging.requirements.Requirement(text)) is None, lambda: False)
            marker = space + "os_name == 'x'"
            self.compare(marker, told(lambda: Marker(marker)) is None, told(lambda: packaging.markers.Marker(marker)) is None, lambda: False)
            # (in a version and in clauses `packaging` takes more white space than that of ASCII)
            for text in (space + "1.0", "1.0" + space):
                self.compare(text, told(lambda: Version(text)) is None, told(lambda: packaging.version.Version(text)) is None, lambda: bool(set(text) & set("\x1c\x1f\x85\xa0\u2003\u3000")))

    def test_names(self) -> None:
        for text in ("A", "a--B_.c", "x1", "Zope.Interface"):
            self.assertEqual(canonicalize_name(text), packaging.utils.canonicalize_name(text))


if __name__ == "__main__":
    unittest.main()
