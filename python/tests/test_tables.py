"""Tables, refusals and environments."""

import os
import pathlib
import pickle
import platform
import re
import sys
import tempfile
import unittest
from typing import Any, Callable, Union
from unittest import mock

import tubrambutan
from tubrambutan import Cut, InvalidName, InvalidVersion, Range, Refused, Version, default_environment, merge

ROOT = os.path.dirname(os.path.dirname(os.path.dirname(os.path.abspath(__file__))))
STANDARD = {
    "os_name": "posix",
    "sys_platform": "linux",
    "platform_machine": "x86_64",
    "platform_python_implementation": "CPython",
    "platform_release": "6.1.0-18-amd64",
    "platform_system": "Linux",
    "platform_version": "#1 SMP",
    "python_version": "3.9",
    "python_full_version": "3.9.18",
    "implementation_name": "cpython",
    "implementation_version": "3.9.18",
}
HEADER = "".join(f"{line}\n" for line in ["pep-table 2", *(f"env {name}={text}" for name, text in STANDARD.items()), "env extra="])
PROJECT = '[project]\nname = "demo"\ndependencies = ["Flask>=2.0"]\n[project.optional-dependencies]\nDev_Tools = ["pytest~=7.1"]\n'
# What is refused, and how: the inputs, what is put into the environment, and the line.
REFUSED: list[tuple[dict[str, Any], dict[str, str], str]] = [
    ({"lists": [b"\xff"]}, {}, "refused input 1 line 1 code 57 51"),
    ({"lists": ["a", "\ud800"]}, {}, "refused input 2 line 1 code 57 51"),
    ({"lists": ["a\n-r b"]}, {}, "refused input 1 line 2 code 57 37"),
    ({"lists": ["a; os_name ~= 'b'"]}, {}, "refused input 1 line 1 code 57 28"),
    ({"lists": ["#" * 65_537]}, {}, "refused input 1 line 1 code 57 38"),
    ({"lists": ["\n" * 16_777_217]}, {}, "refused input 1 code 56"),
    ({"lists": ["a"], "projects": ["x = 1"]}, {}, "refused input 2 code 53"),
    ({"projects": [b"\xff"]}, {}, "refused input 1 code 51"),
    ({"projects": ["x = "]}, {}, "refused input 1 code 52"),
    ({"projects": ["[project]\ndynamic = ['dependencies']"]}, {}, "refused input 1 code 54"),
    ({"projects": ["project = 1"]}, {}, "refused input 1 code 55"),
    ({"lists": ["a"], "projects": [PROJECT], "tables": ["flask open"]}, {}, "refused input 3 line 1 code 57 41"),
    ({"tables": [HEADER]}, {"python_version": "3.12"}, "refused input 1 line 9 code 57 43"),
    ({}, {"other": ""}, "refused environment code 59 22"),
    ({}, {"os_name": "\t"}, "refused environment code 59 25"),
]


class Tables(unittest.TestCase):
    def test_text(self) -> None:
        table = merge(lists=["flask>=2.0", "Flask[async]<3; python_version < '4'"], environment=STANDARD)
        wanted = "flask open\n  extra async\n  range before 2 to before 3.dev0\n"
        self.assertEqual(table.text, HEADER + wanted)

    def test_nothing(self) -> None:
        table = merge(environment=STANDARD)
        self.assertEqual((table.text, list(table)), (HEADER, []))

    def test_packages(self) -> None:
        lists = ["b===1.0\nB>1,!=1.5", "a @ https://x.test/a\nA @ https://x.test/b", "c[y,x]<1,>2"]
        table = merge(lists=lists, environment=STANDARD)
        self.assertEqual(list(table), ["a", "b", "c"])
        self.assertEqual((table["a"].verdict, table["a"].urls), ("conflict", ("https://x.test/a", "https://x.test/b")))
        self.assertEqual((table["b"].verdict, table["b"].texts), ("none", ("1.0",)))
        self.assertEqual((table["c"].verdict, table["c"].extras, table["c"].ranges), ("none", ("x", "y"), ()))
        self.assertFalse(table["a"].admits("1.0") or table["b"].admits("1.0") or table["c"].admits("1.0"))

    def test_names(self) -> None:
        table = merge(lists=["Zope.Interface"], environment=STANDARD)
        self.assertEqual(table["zope_interface"].name, "zope-interface")
        self.assertIn("ZOPE-.-INTERFACE", table)
        with self.assertRaises(KeyError):
            table["zope"]

    def test_equal_tables(self) -> None:
        one = merge(lists=["a>=1", "b<2"], environment=STANDARD)
        other = merge(lists=["b<2\n\nA>=1.0\na>=1"], environment=STANDARD)
        self.assertEqual((one, hash(one)), (other, hash(other)))
        self.assertNotEqual(one, merge(lists=["a>=1"], environment=STANDARD))

    def test_a_printed_table_stands_for_its_inputs(self) -> None:
        table = merge(lists=["a>=1"], environment=STANDARD)
        self.assertEqual(merge(lists=["a<2"], tables=[table.text], environment=STANDARD), merge(lists=["a<2\na>=1"], environment=STANDARD))

    def test_pre_releases(self) -> None:
        package = merge(lists=["a>=1.0"], environment=STANDARD)["a"]
        self.assertFalse(package.admits("2.0rc1"))
        self.assertTrue(package.admits("2.0rc1", prereleases=True))
        self.assertEqual(package.ranges, (Range(Cut("before 1"), Cut("end")),))

    def test_files(self) -> None:
        with tempfile.TemporaryDirectory() as folder:
            project, faulty = pathlib.Path(folder, "pyproject.toml"), pathlib.Path(folder, "list.txt")
            project.write_text(PROJECT, encoding="utf-8")
            faulty.write_text("a\nb>=\n", encoding="utf-8")
            of_path = merge(project, environment={**STANDARD, "extra": "dev_tools"})
            of_path.save(f"{folder}/all.table")
            again = merge(f"{folder}/all.table", environment={**STANDARD, "extra": "dev_tools"})
            with self.assertRaises(OSError):
                merge(pathlib.Path(folder, "none"))
            with self.assertRaises(Refused) as caught:
                merge(str(project), str(faulty), lists=["c"], environment=STANDARD)
            with self.assertRaisesRegex(ValueError, "write merge"):
                merge(lists=[str(faulty)], environment=STANDARD)
            with self.assertRaisesRegex(OSError, "."):
                of_path.save(f"{folder}/none/all.table")
            self.assertEqual(sorted(os.listdir(folder)), ["all.table", "list.txt", "pyproject.toml"])
        self.assertEqual(str(caught.exception), f"{faulty}, line 2: what follows the operator isn't a version, or after `===` isn't an allowed text (code 57 33 12)")
        self.assertEqual(list(of_path), ["flask", "pytest"])
        self.assertEqual(of_path, again)
        self.assertEqual(of_path, merge(projects=[PROJECT.encode()], environment={**STANDARD, "extra": "Dev-Tools"}))

    def test_joins(self) -> None:
        one, other = (merge(lists=[text], environment=STANDARD) for text in ("a>=1\nb\nc[x]\nd>=1", "a<2\nb\nc\ne"))
        both = one | other
        self.assertEqual(both, merge(lists=["e\nb\na<2,>=1\nc[x]\nd>=1"], environment=STANDARD))
        self.assertEqual((both <= one, both >= one, one <= other, one <= one), (True, False, False, True))
        self.assertEqual(one.diff(other), tubrambutan.Difference(("e",), ("d",), (), ("c",), ("a",)))
        self.assertEqual(one.diff(both), tubrambutan.Difference(("e",), (), ("a",), (), ()))
        with self.assertRaises(Refused) as caught:
            one | merge(environment={**STANDARD, "os_name": "nt"})
        self.assertEqual(caught.exception.codes, (57, 43))
        with self.assertRaises(TypeError):
            one | {}

    def test_groups(self) -> None:
        project = "[project]\nname = 'demo'\ndependencies = ['a']\n[dependency-groups]\nDo_cs = ['b<2', {include-group = 'test'}]\ntest = ['c']\n"
        rows = [("docs", ["b", "c"]), ("TEST", ["c"]), (None, ["a"])]
        project = project.replace("Do_cs", "Docs")
        for group, names in rows:
            with self.subTest(group):
                self.assertEqual(list(merge(projects=[project], environment=STANDARD, group=group)), names)
        # (a list has no groups)
        both = merge(projects=[project, project], lists=["b>=1"], environment=STANDARD, group="docs")
        self.assertEqual([str(it) for it in both["b"].ranges], ["before 1 to before 2.dev0"])
        for name, kind, codes in (("other", Refused, (65,)), ("-", InvalidName, (62, 21)), ("", InvalidName, (62, 21))):
            with self.subTest(name), self.assertRaises(kind) as caught:
                merge(lists=["b"], projects=[project], environment=STANDARD, group=name)
            self.assertEqual(caught.exception.codes, codes)
        wrong: Any = b"docs"
        with self.assertRaisesRegex(TypeError, "group"):
            merge(projects=[project], group=wrong)

    def test_extras(self) -> None:
        project = PROJECT + 'docs = ["sphinx<8"]\n'
        lists = ["a; extra == 'docs'\nb; extra == 'dev-tools'\nc; extra == 'other'\nd; extra != 'docs'\nsphinx>=5; extra == 'docs'"]
        one = merge(lists=lists, projects=[project], environment=STANDARD, extras=["Docs", "docs"])
        self.assertEqual(one, merge(lists=lists, projects=[project], environment={**STANDARD, "extra": "docs"}))
        table = merge(lists=lists, projects=[project], tables=["e open\n  range before 1 to end\n"], environment=STANDARD, extras=("dev.tools", "docs"))
        self.assertEqual((list(table), table.extras), (["a", "b", "d", "e", "flask", "pytest", "sphinx"], ("dev-tools", "docs")))
        self.assertEqual([str(it) for it in table["sphinx"].ranges], ["before 5 to before 8.dev0"])
        self.assertEqual((table | table, pickle.loads(pickle.dumps(table)), table <= table), (table, table, True))
        self.assertEqual(merge(tables=[table.lines], environment=STANDARD).lines, table.lines)
        self.assertNotEqual(table, merge(tables=[table.lines], environment=STANDARD))
        self.assertFalse(hasattr(table, "text"))
        calls: list[Callable[[], object]] = [lambda: table.save("table"), lambda: table | merge(environment=STANDARD)]
        for call in calls:
            with self.assertRaises((AttributeError, ValueError)):
                call()
        self.assertEqual(merge(lists=lists, environment={**STANDARD, "extra": ""}, extras=["docs"]), merge(lists=lists, environment={**STANDARD, "extra": "docs"}))

    def test_extras_that_are_refused(self) -> None:
        rows: list[tuple[dict[str, Any], type[Exception], str]] = [
            ({"extras": "dev"}, TypeError, "extras must be a list"),
            ({"extras": [1]}, TypeError, "extras must have names"),
            ({"extras": ["-"]}, InvalidName, "62 21"),
            ({"extras": ["a"], "environment": {**STANDARD, "extra": "b"}}, ValueError, "the environment has one too"),
            ({"extras": ["a"], "environment": "\n".join(f"{name} = '{text}'" for name, text in {**STANDARD, "extra": "b"}.items())}, ValueError, "the environment has one too"),
            ({"extras": ["a", "b"], "lists": ["c", "d<"]}, Refused, "input 2, line 1"),
            ({"extras": ["a", "b"], "lists": ["c"], "tables": ["d open\n  range before 1 to end\n", "e"]}, Refused, "input 3, line 1"),
        ]
        for inputs, kind, message in rows:
            with self.subTest(message), self.assertRaisesRegex(kind, message):
                merge(**{**inputs, "environment": inputs.get("environment", STANDARD)})

    def test_many_answers(self) -> None:
        table = merge(lists=["a>=1,<2\nb===1.0\nc @ https://x.test/1\nc @ https://x.test/2"], environment=STANDARD)
        pins: list[tuple[str, Union[Version, str]]] = [("A", "1.5"), ("a", Version("2")), ("a", "1.5rc1"), ("b", "1.0"), ("b", "1.0.0"), ("c", "1")]
        pins += [("other", "3"), ("other", "3.dev1")]
        self.assertEqual(table.admits_each(pins), [True, False, False, True, False, False, True, False])
        self.assertEqual(table.admits_each(pins, prereleases=True), [True, False, True, True, False, False, True, True])
        self.assertEqual(table.admits_each([]), [])
        for pin, kind in ((("a", "x"), InvalidVersion), (("a b", "1"), InvalidName), ((" a", "1"), InvalidName), (("a", "1\0"), InvalidVersion), (("a\0", "1"), InvalidName)):
            with self.subTest(pin), self.assertRaises(kind):
                table.admits_each([("a", "1"), pin])
        versions: list[Union[Version, str]] = ["0.9", "1", Version("1.5rc1"), "1.9"]
        self.assertEqual(list(table["a"].filter(versions)), ["1", "1.9"])
        self.assertEqual(list(table["a"].filter(["1.5rc1", "2rc1"], prereleases=True)), ["1.5rc1"])
        self.assertEqual(list(table["a"].filter([])), [])

    def test_html(self) -> None:
        html = merge(lists=["".join(f"n{i:03}<2\n" for i in range(60)), "n000 @ https://x.test/?a&b"], environment=STANDARD)._repr_html_()
        self.assertEqual((html.count("<tr>"), html.count("and 10 more"), html.count("a&amp;b")), (51, 1, 1))

    def test_pickled(self) -> None:
        table = merge(lists=["a>=1,!=1.5\nb[x]"], environment=STANDARD)
        again = pickle.loads(pickle.dumps(table))
        self.assertEqual((again, again["a"]), (table, table["a"]))
        self.assertEqual(hash(again["a"]), hash(table["a"]))
        self.assertNotEqual(table["a"], table["b"])
        package = pickle.loads(pickle.dumps(table["a"]))
        self.assertEqual([package.admits(it) for it in ("1", "1.5")], [True, False])

    def test_a_table_longer_than_its_inputs(self) -> None:
        names, numbers = [f"n{i:04}" for i in range(5_000)], range(1, 10)
        lists = ["".join(f"{name}{','.join(f'!={it}' for it in numbers)}\n" for name in names)]
        cuts = zip(["0.dev0", *(f"{it}.post0.dev0" for it in numbers)], [*(f"before {it}" for it in numbers), "end"])
        ranges = "".join(f"  range before {low} to {high}\n" for low, high in cuts)
        wanted = "".join(f"{name} open\n{ranges}" for name in names)
        # (longer than the room that there is at first)
        self.assertGreater(len(wanted), 8 * len(lists[0]) + 4096)
        self.assertEqual(merge(lists=lists, environment=STANDARD).text, HEADER + wanted)


class Refusals(unittest.TestCase):
    def test_lines(self) -> None:
        for inputs, more, line in REFUSED:
            with self.subTest(line=line), self.assertRaises(Refused) as caught:
                merge(**inputs, environment={**STANDARD, **more})
            self.assertEqual(caught.exception.text, line)
            self.assertTrue(str(caught.exception).endswith(f"{caught.exception.meaning} (code {line.partition(' code ')[2]})"))
            self.assertEqual(caught.exception.is_environment, "environment" in line)
            self.assertEqual(" ".join(map(str, caught.exception.codes)), line.partition(" code ")[2])

    def test_a_variable_is_missing(self) -> None:
        with self.assertRaises(Refused) as caught:
            merge(environment={name: text for name, text in STANDARD.items() if name != "os_name"})
        self.assertEqual((caught.exception.codes, caught.exception.input, caught.exception.line), ((59, 23), None, None))

    def test_an_environment_file(self) -> None:
        file = "".join(f"{name} = '{text}'\n" for name, text in STANDARD.items())
        self.assertEqual(merge(environment=file), merge(environment=STANDARD))
        for more, code in [(b"\xff", (51,)), (b"x", (52,)), (b"extra = 1", (55,)), (b"\n" * 16_777_217, (56,))]:
            with self.assertRaises(Refused) as caught:
                merge(environment=file.encode() + more)
            self.assertEqual((caught.exception.is_environment, caught.exception.codes), (True, code))

    def test_many_inputs(self) -> None:
        table = merge(lists=[f"a!={number}" for number in range(1, 1_000)], environment=STANDARD)
        lows = ["before 0.dev0", *(f"before {number}.post0.dev0" for number in range(1, 1_000))]
        highs = [*(f"before {number}" for number in range(1, 1_000)), "end"]
        self.assertEqual([str(it) for it in table["a"].ranges], [f"{low} to {high}" for low, high in zip(lows, highs)])
        self.assertEqual([table["a"].admits(it) for it in ("0", "1", "999", "1000")], [True, False, False, True])

    def test_one_input_without_a_list(self) -> None:
        sources: list[Any] = ["flask", b"flask", pathlib.Path("flask.txt"), 0, [0], [pathlib.Path("flask.txt")]]
        for source in sources:
            for kind in ("lists", "projects", "tables"):
                with self.subTest(kind=kind, source=source), self.assertRaisesRegex(TypeError, kind):
                    merge(**{kind: source}, environment=STANDARD)
        environments: list[Any] = [1, ["os_name"]]
        for environment in environments:
            with self.assertRaisesRegex(TypeError, "environment"):
                merge(environment=environment)
        with os.scandir(os.fsencode(os.path.dirname(__file__))) as entries:
            # (its path is bytes)
            paths: list[Any] = [0, b"list.txt", next(entries)]
        for path in paths:
            with self.assertRaisesRegex(TypeError, "path must be"):
                merge(path, environment=STANDARD)

    def test_names_that_are_none(self) -> None:
        table = merge(lists=["keras"], environment=STANDARD)
        for name in ("\u212aeras", "kera", ""):
            with self.subTest(name=name), self.assertRaises(KeyError):
                table[name]
        self.assertNotIn("\u212aeras", table)

    def test_requirements(self) -> None:
        self.assertEqual(tubrambutan.requirement_text("A_b [x,X] >=1.0 ; extra=='y'"), 'a-b[x]>=1.0 ; extra == "y"')
        for text, codes in [("", (57, 31)), ("a[", (57, 32)), ("a\nb", (57, 36)), ("a @ b", (57, 34)), ("a;b", (57, 35, 26)), ("\udcff", (57, 51)), ("a @ \ud800", (57, 51))]:
            with self.subTest(text=text), self.assertRaises(tubrambutan.InvalidRequirement) as caught:
                tubrambutan.requirement_text(text)
            self.assertEqual((caught.exception.input, caught.exception.line, caught.exception.codes), (None, None, codes))

    def test_kinds_and_messages(self) -> None:
        rows: list[tuple[Callable[[], object], type[Refused], str]] = [
            (lambda: tubrambutan.Version("1.x"), tubrambutan.InvalidVersion, "'1.x': the text isn't a version (code 62 1)"),
            (lambda: tubrambutan.admits(">=1.*", "1"), tubrambutan.InvalidSpecifier, "'>=1.*': `.*` stands after something other than a plain release, or with another operator than `==` and `!=` (code 57 33 13)"),
            (lambda: tubrambutan.admits(">=1", "x"), tubrambutan.InvalidVersion, "'x': the text isn't a version (code 62 1)"),
            (lambda: merge(lists=["a"], environment=STANDARD)["a"].admits("x"), tubrambutan.InvalidVersion, "'x': the text isn't a version (code 62 1)"),
            (lambda: merge(environment={}), Refused, "the environment lacks one of the eleven variables (code 59 23)"),
            (lambda: merge(environment="x = "), Refused, "environment: a project file or the environment file isn't a TOML document, or nests too deep (code 52)"),
        ]
        for call, kind, message in rows:
            with self.subTest(message), self.assertRaises(kind) as caught:
                call()
            self.assertEqual((type(caught.exception), str(caught.exception)), (kind, message))
            self.assertIsInstance(caught.exception, ValueError)

    def test_a_code_without_words(self) -> None:
        self.assertEqual(str(Refused("refused input 1 code 98 7\n")), "input 1: a refusal that this package has no words for (code 98 7)")

    def test_what_codes_mean(self) -> None:
        with open(f"{ROOT}/docs/CODES.md", encoding="utf-8") as it:
            rows = re.findall(r"^\| ([0-9 ]+) \| (.*?) \|", it.read(), re.M)
        self.assertEqual({tuple(map(int, codes.split())): words for codes, words in rows}, tubrambutan._codes.MEANINGS)

    def test_a_refusal_is_pickled(self) -> None:
        project = "[project]\nname = 'd'\ndependencies = ['b<']\n"
        calls: list[tuple[str, Callable[[], object]]] = [("'x': ", lambda: Version("x")), ("input 1, text 1: ", lambda: merge(projects=[project], environment=STANDARD))]
        for where, call in calls:
            with self.subTest(where), self.assertRaises(Refused) as caught:
                call()
            again = pickle.loads(pickle.dumps(caught.exception))
            self.assertEqual((type(again), str(again)), (type(caught.exception), str(caught.exception)))
            self.assertTrue(str(again).startswith(where), again)


class Environments(unittest.TestCase):
    def test_the_running_interpreter(self) -> None:
        environment = default_environment()
        self.assertEqual(list(environment), list(STANDARD))
        self.assertEqual(environment["python_full_version"], platform.python_version())
        self.assertEqual(environment["python_version"], f"{sys.version_info.major}.{sys.version_info.minor}")
        lists = [f"a; python_version == '{environment['python_version']}'\nb; python_version < '3'\nc; sys_platform == '{sys.platform}'"]
        self.assertEqual(list(merge(lists=lists)), ["a", "c"])

    def test_an_interpreter_between_two_releases(self) -> None:
        with mock.patch("platform.python_version", lambda: "3.13.0+"):
            self.assertEqual(default_environment()["python_full_version"], "3.13.0+local")
            self.assertEqual(list(merge(lists=["a; python_full_version >= '3.13'\nb; python_full_version < '3.13'"])), ["a"])

    def test_texts_of_any_characters(self) -> None:
        for text in ['"', "\\", "'''", "\u00e9\U0001f40d", "a = b # c"]:
            table = merge(environment={**STANDARD, "platform_version": text})
            self.assertIn(f"env platform_version={text}\n", table.text)


if __name__ == "__main__":
    unittest.main()
