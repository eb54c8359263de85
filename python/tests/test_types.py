"""Versions, specifiers, requirements, markers and names as types."""

import pickle
import unittest
import weakref
from typing import Any, Callable

import tubrambutan
from tubrambutan import Cut, InvalidMarker, InvalidName, InvalidRequirement, InvalidSpecifier, InvalidVersion, Marker, Range, Requirement, Specifier
from tubrambutan import SpecifierSet, UndefinedComparison, Version, canonicalize_name

# The parts of versions: epoch, release, pre, post, dev, local, and the public and the base version (PEP 440).
PARTS = [
    ("1", 0, (1,), None, None, None, None, "1", "1"),
    ("v01.002.PREVIEW_3", 0, (1, 2), ("rc", 3), None, None, None, "1.2rc3", "1.2"),
    ("1!2.0a1.post2.dev3+Ubuntu-01", 1, (2, 0), ("a", 1), 2, 3, "ubuntu.1", "1!2.0a1.post2.dev3", "1!2.0"),
    ("1.0.0b2", 0, (1, 0, 0), ("b", 2), None, None, None, "1.0.0b2", "1.0.0"),
    ("1.0-1", 0, (1, 0), None, 1, None, None, "1.0.post1", "1.0"),
    (".".join(["7"] * 40), 0, (7,) * 40, None, None, None, None, ".".join(["7"] * 40), ".".join(["7"] * 40)),
]
# Each is below the next one.
ORDERED = "0.dev0 0a0.dev0 0 0.0.1.dev0 1.0.dev1 1.0a1.dev1 1.0a1 1.0a1.post0 1.0b1 1.0rc1 1.0 1.0+abc.5 1.0+abc.10 1.0+9 1.0+10 1.0.post1.dev3 1.0.post1 1!0".split()
ADMITTED = [("~=2.2.post3", "2.2 2.3 3"), ("==1.1.*", "1.1a1 1.1.0.2+x 1.2"), ("", "1 2rc1"), ("===1.0", "1.0 1.0.0 1"), (">1.7,!=1.8", "1.7.0.post1 1.7.1 1.8+x")]
WANTED = ["2.3", "1.1a1 1.1.0.2+x", "1 2rc1", "1.0", "1.7.1"]


class Types(unittest.TestCase):
    def test_parts(self) -> None:
        for text, *parts in PARTS:
            it = Version(text)
            with self.subTest(text):
                self.assertEqual([it.epoch, it.release, it.pre, it.post, it.dev, it.local, it.public, it.base_version], parts)
                self.assertEqual((it.is_prerelease, it.is_postrelease, it.is_devrelease), (bool(it.pre or it.dev is not None), it.post is not None, it.dev is not None))
                self.assertEqual((it.major, it.minor, it.micro), (it.release + (0, 0))[:3])

    def test_order(self) -> None:
        versions = Version.read_all(ORDERED)
        self.assertEqual(sorted(reversed(versions)), versions)
        self.assertEqual([it.key for it in versions], [Version(text).key for text in ORDERED])
        for low, high in zip(versions, versions[1:]):
            self.assertEqual((low < high, low <= high, low > high, low >= high, low == high), (True, True, False, False, False))
        self.assertEqual((Version("1.0"), hash(Version("1.0"))), (Version("1.0.0"), hash(Version("1.0.0"))))
        self.assertEqual(max(versions), Version("1!0"))
        self.assertEqual(Version.read_all([]), [])
        for wrong in ("x", "1\0", ""):
            with self.assertRaises(InvalidVersion):
                Version.read_all(["1", wrong, "2"])
        text: Any = "2"
        number: Any = 1
        with self.assertRaises(TypeError):
            Version("1") < text
        with self.assertRaises(TypeError):
            Version(number)

    def test_types_of_arguments(self) -> None:
        table = tubrambutan.merge(lists=["a~=1.4"])
        calls: "list[tuple[Callable[[], object], str]]" = [
            (lambda: Version(1), "version"),  # type: ignore[arg-type]  # (these are wrong on purpose)
            (lambda: Version.read_all("12"), "versions"),
            (lambda: Version.read_all([1]), "versions"),  # type: ignore[list-item]
            (lambda: Specifier(5), "spec "),  # type: ignore[arg-type]
            (lambda: SpecifierSet(5), "specifiers"),  # type: ignore[arg-type]
            (lambda: SpecifierSet(">=1").contains(1.10), "version"),  # type: ignore[arg-type]
            (lambda: Requirement(5), "requirement"),  # type: ignore[arg-type]
            (lambda: Marker(5), "marker"),  # type: ignore[arg-type]
            (lambda: Marker("extra == 'a'").evaluate({"extra": 5}), "text of 'extra'"),  # type: ignore[dict-item]
            (lambda: Marker("extra == 'a'").evaluate({"os_name": None}), "text of 'os_name'"),
            (lambda: Marker("extra == 'a'").evaluate(1), "environment"),  # type: ignore[arg-type]
            (lambda: tubrambutan.requirements_of(5), "metadata"),  # type: ignore[arg-type]
            (lambda: tubrambutan.requirements_file(1), "path"),  # type: ignore[arg-type]
            (lambda: tubrambutan.audit(5), "path"),  # type: ignore[arg-type]
            (lambda: tubrambutan.audit([5]), "path"),  # type: ignore[list-item]
            (lambda: table.save(b"a.table"), "path"),  # type: ignore[arg-type]
            (lambda: table.diff(1), "other"),  # type: ignore[arg-type]
            (lambda: table.admits_each(["demo"]), "versions"),  # type: ignore[list-item]
            (lambda: Version.read_all(5), "versions"),  # type: ignore[arg-type]
            (lambda: table.admits_each(5), "versions"),  # type: ignore[arg-type]
            (lambda: table["a"].filter("12"), "versions"),
            (lambda: table["a"].filter(5), "versions"),  # type: ignore[arg-type]
            (lambda: SpecifierSet("").filter("12"), "iterable"),
            (lambda: SpecifierSet("").filter(5), "iterable"),  # type: ignore[arg-type]
            (lambda: canonicalize_name(5), "name"),  # type: ignore[arg-type]
            (lambda: tubrambutan.requirement_text(5), "requirement"),  # type: ignore[arg-type]
            (lambda: tubrambutan.admits(5, "1"), "clause"),  # type: ignore[arg-type]
            (lambda: tubrambutan.admits(">=1", 1.10), "version"),  # type: ignore[arg-type]
            (lambda: table["a"].admits(1.10), "version"),  # type: ignore[arg-type]
            (lambda: table.admits_each([(1, "1.5")]), "name"),  # type: ignore[list-item]
            (lambda: Cut("end").has_below(1.10), "version"),  # type: ignore[arg-type]
        ]
        for call, argument in calls:
            with self.subTest(argument), self.assertRaisesRegex(TypeError, argument):
                call()
        self.assertEqual([it in table for it in (5, None, "a")], [False, False, True])
        made: "list[tuple[object, str]]" = [(table, "extras"), (table["a"], "name"), (table["a"], "ranges")]
        for it, attribute in made:
            with self.subTest(attribute), self.assertRaisesRegex(AttributeError, attribute):
                setattr(it, attribute, ())
        for name, version in (("a ", "1.5"), ("a 1.5", "")):
            with self.subTest(name), self.assertRaises(InvalidName):
                table.admits_each([(name, version)])
        for text in (">=1,", ">=1,>=1"):
            with self.subTest(text), self.assertRaises(InvalidSpecifier):
                Specifier(text)
        self.assertFalse(Specifier(">=1") == "abc" or SpecifierSet(">=1") == 5)
        with self.assertRaises(InvalidSpecifier):
            _ = SpecifierSet(">=1") == "abc"
        self.assertTrue(SpecifierSet(">=1") == Specifier(">=1.0") and Specifier(">=1") == ">=1.0")
        with self.assertRaises(ValueError):
            Cut("past 1.0a1")
        with self.assertRaises(InvalidVersion):
            Cut("end").has_below("")
        many = ",".join(f"!={number}" for number in range(20_000))
        self.assertEqual(len(SpecifierSet(many).ranges), 20_001)

    def test_cuts(self) -> None:
        ordered = ["before 0.dev0", "before 1.dev0", "before 1a1", "after 1a1", "before 1", "after 1", "after 1+x", "before 1.post1", "past 1", "before 1.0.1.dev0", "past 1!1", "end"]
        cuts = [Cut(text) for text in ordered]
        self.assertEqual(sorted(reversed(cuts)), cuts)
        self.assertEqual([str(it) for it in cuts], ordered)
        self.assertEqual((Cut("before 1"), hash(Cut("past 2.0"))), (Cut("before 1.0"), hash(Cut("past 2"))))
        # (which versions lie under each cut, of those in order)
        rows = [("before 1.0", 10), ("after 1.0", 11), ("past 1.0", 17), ("end", 18), ("before 0.dev0", 0)]
        for text, count in rows:
            self.assertEqual([Cut(text).has_below(it) for it in ORDERED], [True] * count + [False] * (len(ORDERED) - count), text)
        faults: tuple[Any, ...] = ("", "end 1", "before", "under 1", "before x", 1)
        for faulty, kind in zip(faults, [ValueError] * 4 + [InvalidVersion, TypeError]):
            with self.subTest(faulty), self.assertRaises(kind):
                Cut(faulty)
        self.assertIsNone(Cut("end").version)
        self.assertEqual(pickle.loads(pickle.dumps(Range(cuts[0], cuts[-1]))), (cuts[0], cuts[-1]))
        self.assertEqual((Range(cuts[4], cuts[8]).has("1.0+x"), Range(cuts[4], cuts[8]).has("1rc1")), (True, False))

    def test_values_are_kept(self) -> None:
        values: list[Any] = [Version("1.0a1"), Cut("past 1.0"), Specifier("~=1.0"), SpecifierSet(">=1,<2", prereleases=True)]
        values += [Requirement("a[x]>=1; os_name=='nt'"), Marker("extra=='a'")]
        for value in values:
            for protocol in range(pickle.HIGHEST_PROTOCOL + 1):
                again = pickle.loads(pickle.dumps(value, protocol))
                self.assertEqual((type(again), again, str(again), hash(again)), (type(value), value, str(value), hash(value)))
            self.assertIs(weakref.ref(value)(), value)
        with self.assertRaises(AttributeError):
            values[0].epoch = 2

    def test_a_subclass_with_another_text(self) -> None:
        class Tag(Version):
            def __str__(self) -> str:
                return "a tag"

        it = Tag("1.0-rc1+x.1")
        self.assertEqual((str(it), it.local, it.public, it.base_version, it), ("a tag", "x.1", "1.0rc1", "1.0", Version("1.0rc1+x.1")))
        self.assertEqual((SpecifierSet(">=1.0rc1").contains(it), Cut("after 1.0").has_below(it)), (True, True))
        self.assertTrue(tubrambutan.admits(">=1.0rc1", it))
        table = tubrambutan.merge(lists=["a>=1.0rc1"])
        self.assertEqual((table["a"].admits(it, prereleases=True), table.admits_each([("a", it)], prereleases=True)), (True, [True]))

    def test_specifiers(self) -> None:
        for (clauses, texts), wanted in zip(ADMITTED, WANTED):
            with self.subTest(clauses):
                versions = SpecifierSet(clauses)
                self.assertEqual(list(versions.filter(texts.split(), prereleases=True)), wanted.split())
                self.assertEqual([it for it in texts.split() if versions.contains(Version(it), prereleases=True)], wanted.split())
                self.assertEqual(list(versions.filter(texts.split())), [it for it in wanted.split() if not Version(it).is_prerelease or versions.prereleases])
        self.assertEqual([str(it) for it in SpecifierSet(" >=1.0,, <2")], ["<2", ">=1.0"])
        self.assertEqual((SpecifierSet(">=1.0"), len(SpecifierSet(""))), (SpecifierSet(">=1"), 0))
        self.assertEqual(hash(SpecifierSet(">=1.0,<2")), hash(SpecifierSet("<2.0,>=1")))
        self.assertNotEqual(SpecifierSet("~=1.0"), SpecifierSet("~=1.0.0"))
        self.assertEqual(str(SpecifierSet(">=1") & "<2"), "<2,>=1")
        self.assertEqual([SpecifierSet(it).prereleases for it in ("", ">=1", ">=1rc1", "<1rc1", "==1.*")], [None, False, True, False, False])
        for wrong in (">=", "1", ">=1,x", ">=1.*"):
            with self.subTest(wrong), self.assertRaises(InvalidSpecifier):
                SpecifierSet(wrong)
        for wrong in ("", ">=1,<2"):
            with self.subTest(wrong), self.assertRaises(InvalidSpecifier):
                Specifier(wrong)
        for installed in (False, True):
            with self.assertRaises(InvalidVersion):
                SpecifierSet(">=1").contains("x", True, installed)
        self.assertEqual([SpecifierSet(">=2").contains(Version("2a1"), wants, True) for wants in (None, False, True)], [False, False, True])

    def test_sets(self) -> None:
        self.assertEqual(SpecifierSet("!=1.0").ranges, (Range(Cut("before 0.dev0"), Cut("before 1")), Range(Cut("before 1.post0.dev0"), Cut("end"))))
        empty = [">=2,<1", ">1.0a5,<1.0a6.dev0", "===1.0,===1.00", "===x"]
        self.assertEqual([SpecifierSet(it).is_empty() for it in [*empty, "", ">=1", "===1.0"]], [True] * 4 + [False] * 3)
        many = ">=1,<9,!=2,!=3,!=4,!=5.*,~=1.0"
        within = [("==1.5", ">=1"), ("===1.5", ">=1"), (">=2,<1", "==7"), (">=1", ""), ("~=1.4", ">=1.4,==1.*"), ("===1.0", "===1.0"), (many, many), ("===1,===1", "===1,===1,>=0")]
        outside = [(">=1", "==1.5"), ("", ">=0"), (">=1", "===1.0"), ("===0.5", ">=1"), ("!=1.0", "!=1.0,!=2.0"), (many, f"{many},!=1.7")]
        self.assertEqual([SpecifierSet(low) <= SpecifierSet(high) for low, high in [*within, *outside]], [True] * len(within) + [False] * len(outside))
        self.assertTrue(SpecifierSet(">=1") >= SpecifierSet(">=2"))

    def test_requirements(self) -> None:
        it = Requirement("Zope.Interface [B,a_c] >=5 ,!=5.1 ; python_version<'4'")
        self.assertEqual((it.name, it.extras, it.specifier, it.url, str(it.marker)), ("zope-interface", {"b", "a-c"}, SpecifierSet(">=5,!=5.1"), None, 'python_version < "4"'))
        it = Requirement("a @ HTTPS://x.test/1")
        self.assertEqual((it.url, str(it.specifier), it.marker, str(it)), ("HTTPS://x.test/1", "", None, "a @ HTTPS://x.test/1"))
        # (programs set a marker, and take the text then)
        it.marker, it.extras = Marker("extra == 'x'"), {"z", "y"}
        self.assertEqual((str(it), pickle.loads(pickle.dumps(it))), ('a[y,z] @ HTTPS://x.test/1 ; extra == "x"', it))
        it.specifier.prereleases = True
        self.assertIs(pickle.loads(pickle.dumps(it)).specifier.prereleases, True)
        self.assertEqual((str(Requirement(" \ta \n")), str(Marker("\tos_name == 'x'\n"))), ("a", 'os_name == "x"'))
        for wrong in ("", "a>", "a[", "a;b", "-e .", "\na", "a\r\n", "\u00a0a", "a\n\n"):
            with self.subTest(wrong), self.assertRaises(InvalidRequirement):
                Requirement(wrong)

    def test_markers(self) -> None:
        variables = {"python_version": "3.9", "os_name": "posix"}
        rows = [("python_version < '3.10'", True), ("os_name == 'nt'", False), ("extra == 'x' or os_name=='posix'", True), ("'3.8' in python_version", False)]
        self.assertEqual([Marker(text).evaluate(variables) for text, _ in rows], [wanted for _, wanted in rows])
        self.assertTrue(Marker("extra == 'A_b'").evaluate({"extra": "a-B"}))
        self.assertTrue(Marker("python_full_version >= '3.9'").evaluate({"python_full_version": "3.13.0+"}))
        self.assertEqual([Marker(f"extra {it} 'x'").evaluate({"extra": None}) for it in ("==", "!=")], [False, True])
        with self.assertRaises(UndefinedComparison):
            Marker("os_name ~= 'x'").evaluate(variables)
        for wrong in ("", "a", "os_name == 'x", "python_version >= '1' garbage"):
            with self.subTest(wrong), self.assertRaises(InvalidMarker):
                Marker(wrong)
        with self.assertRaises(tubrambutan.Refused):
            Marker("os_name == 'x'").evaluate({"other": "x"})

    def test_names(self) -> None:
        self.assertEqual([canonicalize_name(it) for it in ("A", "a--B_.c", "x1")], ["a", "a-b-c", "x1"])
        for wrong in ("", "-", "a-", "a b"):
            with self.subTest(wrong), self.assertRaises(InvalidName):
                canonicalize_name(wrong)


if __name__ == "__main__":
    unittest.main()
