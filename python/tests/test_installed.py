"""Requirements with their places, audits, and the package as a command."""

import contextlib
import importlib
import io
import itertools
import json
import os
import pathlib
import subprocess
import sys
import tempfile
import unittest
from typing import Any, Iterator, Optional, Union
from unittest import mock

import tubrambutan
from test_tables import STANDARD
from tubrambutan import Line, Lines, Refused, audit, merge, requirements_file, requirements_of
from tubrambutan.__main__ import main

METADATA = """Metadata-Version: 2.1
Name: Demo
Version: 1.0
Requires-Dist: flask
 >=2.0
Requires-Python: >=3.9
requires-dist: pytest ; extra == "dev"
Provides-Extra: dev

Requires-Dist: text
"""
FILES = {
    "all.txt": "\ufeff# a comment\nflask>=2.0  # why\n\n-r more/base.txt\n--requirement=more/base.txt\n-cmore/limits.txt\n",
    "more/base.txt": "django>=4,\\\n  <5\nattrs ; python_version \\\n >= '3'\nurl @ https://x.test/#egg\n",
    "more/limits.txt": "flask<3\n--constraint other.txt\n",
    "more/other.txt": "attrs!=1 # no more",
    "faulty.txt": "a\n\nb>=\n",
    "option.txt": "a\n--index-url https://x.test\n",
    "hash.txt": "a==1 --hash=sha256:0\n",
    "hash_of_marker.txt": "a==1 ; os_name != 'a -b' --hash=sha256:0\n",
    "quoted.txt": "a==1 ; os_name != 'a -b'\n",
    "variable.txt": "a @ https://${TOKEN}@x.test\n",
    "cycle.txt": "-r cycle.txt\n",
    "url.txt": "a\n-r HTTPS://x.test/r.txt\n",
    "quote.txt": "-r 'a\n",
    "two.txt": "-r a.txt b.txt\n",
    "of_variable.txt": "-r ${A}.txt\n",
}
# Files that pip's parser and this package read alike.
ALIKE = {
    "in/c.txt": "y<3\n-r d.txt\n-r 'e f.txt'\n",
    "in/d.txt": "x>1  # why\n-c../g.txt\n",
    "in/e f.txt": "z\n",
    "g.txt": "w<9",
    "all.txt": "flask\\\n# c\n\\\nattrs\\\\\n[a]\\\n\ndjango\rurl @ https://x.test/#egg\x0cb\\\n  # d \\\nv>=1\\\n,<2\r\n# e\\\nu\\\n#\nt\\",
    "first.txt": "-c in/c.txt\n--requirement all.txt\n--constraint='all.txt'\n-rin/d.txt\n",
}
# Distributions by their names, with versions and further lines of metadata.
DISTRIBUTIONS = {
    "a": ("1.0", "Requires-Dist: B>=2\nRequires-Dist: c\nRequires-Dist: d; extra == 'x'\nRequires-Dist: e<1\nRequires-Python: <3"),
    "B": ("1.5", "Requires-Dist: e>1\nRequires-Dist: f ==1.0\nRequires-Dist: f (broken"),
    "e": ("1", ""),
    "f": ("1.0rc1", "Requires-Dist: a>=1rc1"),
    "g": ("x", ""),
}


@contextlib.contextmanager
def folder_of(files: "dict[str, str]") -> Iterator[pathlib.Path]:
    """Makes files in a folder, which is gone at the end."""
    with tempfile.TemporaryDirectory() as name:
        for path, text in files.items():
            whole = pathlib.Path(name, path)
            whole.parent.mkdir(exist_ok=True, parents=True)
            whole.write_text(text, encoding="utf-8")
        yield pathlib.Path(name)


class Places(unittest.TestCase):
    def test_metadata(self) -> None:
        both: "list[Union[str, bytes]]" = [METADATA, METADATA.encode()]
        for data in both:
            found = requirements_of(data, "x/METADATA")
            self.assertEqual((found.name, found.version, found.requires_python, found.extras), ("Demo", "1.0", ">=3.9", ("dev",)))
            self.assertEqual([(" ".join(it.text.split()), it.file, it.number) for it in found.requires], [("flask >=2.0", "x/METADATA", 4), ('pytest ; extra == "dev"', "x/METADATA", 7)])
        self.assertEqual(list(merge(lists=[found.requires], environment=STANDARD)), ["flask"])
        with self.assertRaisesRegex(ValueError, "no Name"):
            requirements_of("Version: 1")

    def test_requirements_files(self) -> None:
        with folder_of(FILES) as folder:
            found = requirements_file(folder / "all.txt")
            base = [("django>=4,  <5", "base.txt", 1), ("attrs ; python_version  >= '3'", "base.txt", 3), ("url @ https://x.test/#egg", "base.txt", 5)]
            self.assertEqual([(it.text, pathlib.Path(it.file).name, it.number) for it in found.requirements], [("flask>=2.0", "all.txt", 2), *base, *base])
            self.assertEqual([(it.text, pathlib.Path(it.file).name, it.number) for it in found.constraints], [("flask<3", "limits.txt", 1), ("attrs!=1", "other.txt", 1)])
            table = merge(lists=[found.requirements, found.constraints], environment=STANDARD)
            self.assertEqual((list(table), [str(it) for it in table["flask"].ranges]), (["attrs", "django", "flask", "url"], ["before 2 to before 3.dev0"]))
            with self.assertRaises(Refused) as caught:
                merge(lists=["a", requirements_file(str(folder / "faulty.txt")).requirements], environment=STANDARD)
            self.assertEqual((caught.exception.subject, caught.exception.line, caught.exception.input), (str(folder / "faulty.txt"), 3, 2))
            faults = [("option.txt", "option.txt, line 2: '--index"), ("hash.txt", "line 1"), ("hash_of_marker.txt", "line 1"), ("variable.txt", "line 1"), ("cycle.txt", "line 1: .*includes itself")]
            faults += [("url.txt", "line 2: HTTPS://x.test/r.txt is a URL, and nothing is fetched"), ("quote.txt", "line 1: No closing"), ("two.txt", "line 1"), ("of_variable.txt", "line 1")]
            for name, message in faults:
                with self.subTest(name), self.assertRaisesRegex(ValueError, message):
                    requirements_file(folder / name)
            self.assertEqual([it.text for it in requirements_file(folder / "quoted.txt").requirements], ["a==1 ; os_name != 'a -b'"])
            with self.assertRaises(OSError):
                requirements_file(folder / "none.txt")
            with self.assertRaisesRegex(ValueError, r"write merge\('pyproject.toml'\)"):
                requirements_file("pyproject.toml")

            with self.assertRaisesRegex(ValueError, "nothing is fetched"):
                requirements_file("https://x.test/r.txt")

    def test_requirements_files_beside_pip(self) -> None:
        try:
            parse = importlib.import_module("pip._internal.req.req_file").parse_requirements
        except (ImportError, AttributeError):
            self.skipTest("NOT COMPARED WITH pip, WHICH IS NOT THERE")
        with folder_of(ALIKE) as folder:
            for name in ALIKE:
                path = str(folder / name)
                theirs = [(it.requirement, it.comes_from.partition(" ")[2], it.constraint) for it in parse(path, session=None)]
                found = requirements_file(path)
                ours = [(it.text, f"{it.file} (line {it.number})", of is found.constraints) for of in found for it in of]
                # (the first file is one of requirements)
                self.assertEqual(ours, sorted(theirs, key=lambda it: bool(it[2])), name)

    def test_lines(self) -> None:
        lines = Lines([Line("a>=1", "x", 1), Line("b\n<2", "y", 9)])
        self.assertEqual((lines.text, list(merge(lists=[lines], environment=STANDARD))), ("a>=1\nb <2", ["a", "b"]))
        for wrong in ({"lists": lines}, {"tables": [lines]}):
            with self.subTest(wrong), self.assertRaises(TypeError):
                merge(**wrong, environment=STANDARD)  # type: ignore[arg-type]  # (it is refused when it runs too)


class Audits(unittest.TestCase):
    def test_distributions(self) -> None:
        files = {f"{name}-{version}.dist-info/METADATA": f"Metadata-Version: 2.1\nName: {name}\nVersion: {version}\n{more}\n\n" for name, (version, more) in DISTRIBUTIONS.items()}
        with folder_of(files) as folder:
            found = audit([str(folder)])
        self.assertEqual(found.distributions, 5)
        self.assertEqual([(it.package, it.installed, [line.text for line in it.demands]) for it in found.missing], [("c", None, ["c"])])
        refused = [("b", "1.5", ["a 1.0"]), ("e", "1", ["a 1.0", "b 1.5"]), ("f", "1.0rc1", ["b 1.5"])]
        self.assertEqual([(it.package, it.installed, sorted(line.file for line in it.demands)) for it in found.refused[:3]], refused)
        self.assertEqual([it.package for it in found.refused[3:]], ["python"])
        self.assertEqual([(it.package, {line.file for line in it.demands}) for it in found.clashes], [("e", {"a 1.0", "b 1.5"})])
        self.assertEqual([it.text for it in found.unread], ["f (broken", "x"])
        self.assertTrue(found)
        self.assertIn("not installed: c\n  c, of a 1.0\n", str(found))

    def test_clashes(self) -> None:
        demands = ("a>=2", "A <1", "a!=5", "zz>=2", "zz<1 ; python_version > '3'", "zz<1; extra == 'x'", "u @ https://x.test/1", "u @ https://x.test/2", "u>=1", "w @ https://x.test/1")
        more = "".join(f"Requires-Dist: {it}\n" for it in demands)
        versions = {"a": "1.5", "u": "1", "w": "1", "demo": "1"}
        files = {f"{name}-{version}.dist-info/METADATA": f"Name: {name}\nVersion: {version}\n{more if name == 'demo' else ''}\n" for name, version in versions.items()}
        with folder_of(files) as folder:
            found = audit(folder)
        clashes = [("a", "1.5", ["a>=2", "A <1"]), ("u", "1", ["u @ https://x.test/1", "u @ https://x.test/2"]), ("zz", None, ["zz>=2", "zz<1 ; python_version > '3'"])]
        self.assertEqual([(it.package, it.installed, [line.text for line in it.demands]) for it in found.clashes], clashes)
        self.assertEqual([(it.package, [line.text for line in it.demands]) for it in found.refused], [("a", ["a>=2", "A <1"])])
        self.assertEqual([it.package for it in found.missing], ["zz"])
        self.assertIn("can't be met together: zz\n  zz>=2, of demo 1\n", str(found))

    def test_what_is_installed_here(self) -> None:
        self.assertGreater(audit().distributions, 0)
        self.assertFalse(audit([]))


class Terminal(io.StringIO):
    def isatty(self) -> bool:
        return True


def run(*words: str, given: bytes = b"", told: "Optional[io.StringIO]" = None) -> "tuple[int, str, str]":
    """Returns the status of the command, and what it prints."""
    out, told = io.StringIO(), told or io.StringIO()
    with contextlib.redirect_stdout(out), contextlib.redirect_stderr(told), mock.patch("sys.stdin", io.TextIOWrapper(io.BytesIO(given))):
        try:
            status = main(words)
        except SystemExit as end:
            status = int(end.code or 0)
    return status, out.getvalue(), told.getvalue()


class Short(io.RawIOBase):
    """A stream that takes some bytes at a time, or none."""

    def __init__(self, most: int) -> None:
        super().__init__()
        self.most, self.taken = most, b""

    def writable(self) -> bool:
        return True

    def write(self, data: Any) -> int:
        self.taken += bytes(data[: self.most])
        return min(self.most, len(data))


class Streams(unittest.TestCase):
    def test_short_writes(self) -> None:
        whole = run("env")[1]
        for most, status, told in ((1, 0, ""), (7, 0, ""), (0, 2, "tubrambutan: [Errno 11] standard output takes no more\n")):
            # (a stream of the interpreter with `PYTHONUNBUFFERED` is like this one)
            to, words = Short(most), io.StringIO()
            stream: Any = to
            with contextlib.redirect_stdout(io.TextIOWrapper(stream, "utf-8", write_through=True)), contextlib.redirect_stderr(words):
                self.assertEqual(main(["env"]), status)
            self.assertEqual((to.taken.decode(), words.getvalue()), (whole if most else "", told))

    def test_no_room(self) -> None:
        with folder_of({"big.txt": "".join(f"name{number}\n" for number in range(2000))}) as folder:
            command = f"'{sys.executable}' -m tubrambutan merge '{folder}/big.txt'"
            runs = [(f"trap '' XFSZ; ulimit -f 8; exec {command} >'{folder}/cut.table'", "[Errno 27]"), (f"exec {command} >/dev/full", "[Errno 28]"), (f"exec {command} >&-", "[Errno 9]")]
            for unbuffered in ("", "1"):
                environment = {**os.environ, "PYTHONUNBUFFERED": unbuffered, "PYTHONPATH": os.path.dirname(tubrambutan.__path__[0])}
                for shell, told in runs:
                    with self.subTest(shell, unbuffered=unbuffered):
                        done = subprocess.run(["bash", "-c", shell], env=environment, stdout=subprocess.PIPE, stderr=subprocess.PIPE, encoding="utf-8")
                        self.assertEqual((done.returncode, done.stdout, done.stderr.count("\n")), (2, "", 1), done.stderr)
                        self.assertIn(f"tubrambutan: {told}", done.stderr)


class Commands(unittest.TestCase):
    def test_commands(self) -> None:
        project = '[project]\nname = "demo"\ndependencies = ["flask"]\noptional-dependencies = {a = ["x"], b = ["y"]}\n[dependency-groups]\ng = ["z"]\n'
        files = {"list.txt": "flask>=2\ndjango<1\ndjango>2\n", "pyproject.toml": project}
        with folder_of(files) as folder:
            listed, file = str(folder / "list.txt"), str(folder / "pyproject.toml")
            rows = [
                (("merge", listed), 0, "django none\nflask open\n  range before 2 to end\n"),
                (("merge", "--extra", "a", "--extra", "b", file), 0, "y open\n  range before 0.dev0 to end\n"),
                (("merge", "--group", "G", file), 0, "z open\n  range before 0.dev0 to end\n"),
                (("check", "flask", "2.1", listed), 0, "yes\n"),
                (("check", "flask", "3rc1", listed), 1, "no\n"),
                (("check", "--pre", "flask", "3rc1", listed), 0, "yes\n"),
                (("why", "Flask", listed), 0, f"flask: these demands can be met\n  {listed}, line 1: flask>=2\n"),
                (("why", "django", listed), 1, f"django: no version meets these together\n  {listed}, line 2: django<1\n  {listed}, line 3: django>2\n"),
                (("env",), 0, f'"implementation_version" = "{tubrambutan.default_environment()["implementation_version"]}"\n'),
                (("audit", str(folder)), 0, "0 distributions: nothing is wrong\n"),
            ]
            for words, status, end in rows:
                with self.subTest(words):
                    self.assertEqual((run(*words)[0], run(*words)[1][-len(end) :], run(*words)[2]), (status, end, ""))
            self.assertEqual(json.loads(run("merge", "--json", listed)[1])["flask"]["ranges"], ["before 2 to end"])
            self.assertEqual([(it["path"], it["line"], it["text"]) for it in json.loads(run("lines", "--json", listed)[1])][:1], [(listed, 1, "flask>=2")])
            self.assertEqual(run("lines", "-", given=b"# c\n\n \tA ; os_name=='x' \t\r\n")[:2], (0, 'standard input, line 3: a ; os_name == "x"\n'))
            self.assertEqual(run("check", "a", "1", "-", given=b"a>1")[:2], (1, "no\n"))
            self.assertEqual(run("check", "a", "1", "-", given=b"a @ x:1\na @ x:2")[:2], (1, "conflict\n"))
            self.assertEqual(run("clashes", listed)[:2], (1, run("why", "django", listed)[1]))
            self.assertEqual(run("clashes", file), (0, "", ""))
            self.assertEqual(json.loads(run("clashes", "--json", listed)[1])[0]["clash"][0]["line"], 2)
            self.assertEqual(run("lines", file), (0, f"{file}, text 1: flask\n", ""))
            self.assertEqual(json.loads(run("check", "--json", "flask", "2.1", listed)[1]), "yes")
            self.assertEqual(run("merge", "-", listed, given=b"a<")[2].partition(": w")[0], "tubrambutan: standard input, line 1")
            merge(listed).save(folder / "old.table")
            merge(file).save(folder / "new.table")
            self.assertEqual(run("diff", str(folder / "old.table"), str(folder / "new.table"))[:2], (1, "removed django\nwidened flask\n"))
            self.assertEqual(run("diff", str(folder / "old.table"), str(folder / "old.table"))[:2], (0, ""))
            self.assertEqual(run("lines", str(folder / "old.table"))[2], f"tubrambutan: {folder / 'old.table'}: a table file has no requirements for `lines` (code 64)\n")
            (folder / "faulty.txt").write_text("a\n\nb>", encoding="utf-8")
            self.assertEqual(run("lines", listed, str(folder / "faulty.txt"))[2].partition(":")[2].partition(":")[0], f" {folder / 'faulty.txt'}, line 3")

    def test_a_bar(self) -> None:
        project = '[project]\nname = "demo"\ndependencies = ["flask>=1"]\noptional-dependencies = {a = ["x"], b = ["y"]}\n'
        files = {"one.txt": "flask>=2\ndjango<1\n", "two.txt": "flask<3\nattrs ; extra == 'a'\n", "pyproject.toml": project}
        ticks = itertools.count(0.0, 5.0)
        with folder_of(files) as folder, mock.patch("tubrambutan._steps._FEW", 10), mock.patch("tubrambutan._steps._SHARD", 10), mock.patch("time.monotonic", ticks.__next__):
            paths = [str(folder / name) for name in files]
            for words in (("merge", *paths), ("merge", "--extra", "a", *paths), ("merge", "--extra", "a", "--extra", "b", *paths)):
                status, printed, told = run(*words, told=Terminal())
                self.assertEqual((status, printed), run(*words)[:2])
                self.assertRegex(told, r"\A\r\[#+ +\] \d+%, \d+ s left(\r[^\n]+)+\r +\r\Z")
            (folder / "two.txt").write_text("flask\n\nb>", encoding="utf-8")
            status, _, told = run("merge", *paths, told=Terminal())
            self.assertEqual((status, told.rpartition("\r")[2].partition(": w")[0]), (2, f"tubrambutan: {paths[1]}, line 3"))

    def test_refusals(self) -> None:
        self.assertEqual(run("merge", "-", given=b"a\nb>"), (2, "", "tubrambutan: standard input, line 2: what follows the operator isn't a version, or after `===` isn't an allowed text (code 57 33 12)\n"))
        self.assertEqual((run("merge", "none.txt")[0], run("none")[0], run()[0], run("--help")[0]), (2, 2, 2, 0))


if __name__ == "__main__":
    unittest.main()
