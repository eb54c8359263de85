"""Versions and clauses. What is wanted comes from PEP 440."""

import itertools
import unittest
from typing import Any

from tubrambutan import Refused, Version, admits

# PEP 440, "Summary of permitted suffixes and relative ordering" and its examples, in order.
ASCENDING = """1.dev0 1.0.dev456 1.0a1 1.0a2.dev456 1.0a12.dev456 1.0a12 1.0b1.dev456 1.0b2 1.0b2.post345.dev456
1.0b2.post345 1.0rc1.dev456 1.0rc1 1.0 1.0+abc.5 1.0+abc.7 1.0+5 1.0.post456.dev34 1.0.post456 1.0.15 1.1.dev1 1!0.1""".split()
# Other spellings of one version (PEP 440, "Normalization"), each behind its normal text.
SPELLINGS = {
    "1.0a1": ["1.0-alpha1", "1.0.a.1", "1.0ALPHA-1", " v1.0a1 ", "01.0a01"],
    "1.0rc1": ["1.0c1", "1.0pre1", "1.0-preview_1"],
    "1.0.post1": ["1.0-1", "1.0-post.1", "1.0rev1", "1.0.r1"],
    "1.0.dev0": ["1.0dev", "1.0-dev", "1.0_dev0"],
    "1.0+ubuntu.1": ["1.0+ubuntu-1", "1.0+Ubuntu_1"],
}
# Versions that are the same (PEP 440, "Final releases": a shorter release is padded with zeros).
SAME = [["1", "1.0", "1.0.0"], ["1a1", "1.0.0a1"], ["1.post1.dev2", "1.0.post1.dev2"], ["0", "0.0"], ["1!2.0+a.0", "1!2+a.0"]]
NONE = ["", "1.0.x", "french toast", "1.0+", "1.0+a+b", "1..0", "1.0\n1", "1.\ud800", "1.0\0"]
CLAUSES = [
    ("~=2.2", "2.9", True),
    ("~=2.2", "3.0", False),
    ("==1.1", "1.1.post1", False),
    ("==1.1.*", "1.1.post1", True),
    ("==1.1.*", "1.1a1", True),
    ("!=1.1.*", "1.1.post1", False),
    (">1.7", "1.7.0.post1", False),
    (">1.7.post2", "1.7.post3", True),
    ("<=1.0", "1.0+local", True),
    ("===1.0", "1.0.0", False),
]


class Versions(unittest.TestCase):
    def test_order(self) -> None:
        for (i, first), (j, second) in itertools.product(enumerate(ASCENDING), repeat=2):
            with self.subTest(first=first, second=second):
                self.assertEqual(Version(first) < Version(second), i < j)
                self.assertEqual(Version(first) >= Version(second), i >= j)
                self.assertEqual(Version(first) == Version(second), i == j)

    def test_sorted(self) -> None:
        self.assertEqual([str(it) for it in sorted(map(Version, reversed(ASCENDING)))], ASCENDING)

    def test_normal_texts(self) -> None:
        for normal, others in SPELLINGS.items():
            for text in [normal, *others]:
                self.assertEqual(str(Version(text)), normal)

    def test_same_versions_are_equal_and_hashed_alike(self) -> None:
        for group in SAME:
            self.assertEqual(len({Version(it) for it in group}), 1, group)
        self.assertEqual(len({Version(it) for it in ASCENDING}), len(ASCENDING))

    def test_no_versions(self) -> None:
        for text in NONE:
            with self.subTest(text=text), self.assertRaises(Refused) as caught:
                Version(text)
            self.assertEqual(caught.exception.codes, (62, 1))
        with self.assertRaises(Refused) as caught:
            Version("18446744073709551616")
        self.assertEqual(caught.exception.codes, (62, 2))

    def test_other_types_are_not_compared(self) -> None:
        self.assertNotEqual(Version("1.0"), "1.0")
        other: Any = "2.0"
        with self.assertRaises(TypeError):
            self.assertLess(Version("1.0"), other)

    def test_long_texts(self) -> None:
        text = ".".join(["1"] * 5_000)
        self.assertEqual(str(Version(text)), text)
        self.assertEqual(hash(Version("1" + ".0" * 5_000)), hash(Version("1")))


class Clauses(unittest.TestCase):
    def test_what_clauses_admit(self) -> None:
        for clause, version, wanted in CLAUSES:
            with self.subTest(clause=clause, version=version):
                self.assertIs(admits(clause, version), wanted)
                self.assertIs(admits(clause, Version(version)), wanted)

    def test_no_clauses(self) -> None:
        rows = [("1.0", 11), ("", 11), (">=x", 12), (">=1.*", 13), (">=1+a", 14), ("~=1", 15), ("==18446744073709551616", 16)]
        for clause, code in rows:
            with self.subTest(clause=clause), self.assertRaises(Refused) as caught:
                admits(clause, "1.0")
            self.assertEqual((caught.exception.line, caught.exception.codes), (None, (57, 33, code)))
        for clause in (">=\ud800", "\ud800"):
            with self.subTest(clause=clause), self.assertRaises(Refused) as caught:
                admits(clause, "1.0")
            self.assertEqual(caught.exception.codes, (57, 51))
        with self.assertRaises(Refused) as caught:
            admits(">=1.0", "x")
        self.assertEqual(caught.exception.codes, (62, 1))


if __name__ == "__main__":
    unittest.main()
