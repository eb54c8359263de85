"""Shards of tables and lists, and merges on a cluster."""

from __future__ import annotations

import functools
import importlib
import importlib.util
import logging
import os
import pathlib
import pickle
import random
import shutil
import signal
import sys
import tempfile
import unittest
from typing import Any, Sequence
from unittest import mock

import tubrambutan
from test_tables import PROJECT, STANDARD
from tubrambutan import Refused, Table, _parts, merge, split
from tubrambutan._parts import Judged, Piece, lists_of, shard_of, smaller, split_inputs

COUNTS = [1, 2, 3, 7, 64]
KILLS = "a worker is killed"
STANDARDLY: "dict[str, Any]" = {"environment": STANDARD}
HAS_ENGINE = all(importlib.util.find_spec(it) for it in ("dask", "distributed"))
# Forms of lines: of one name in several spellings, with markers that don't hold, blank, comments, and with white space.
FORMS = ["{0}>={1}", "{0}!={1}", "N.{2}[x]<{1}", "n--{2} ; os_name == 'other'", " \t{0} >={1}\r", "", "# {0}", " \t", "{0} @ https://x.test/{2}", "{0}===1.{1}"]


def text_of(seed: int, count: int, names: int = 50) -> str:
    """Returns a random list."""
    rolled = random.Random(seed)
    return "\n".join(rolled.choice(FORMS).format(f"n_{name}", rolled.randrange(9), name) for name in (rolled.randrange(names) for _ in range(count)))


def requirements(text: str) -> list[str]:
    """Returns the requirement lines of a list."""
    return [line for line in text.split("\n") if line.strip() and not line.startswith("#")]


def joined(tables: Sequence[Table]) -> Table:
    """Returns the join of tables."""
    return functools.reduce(lambda one, other: one | other, tables)


class Shards(unittest.TestCase):
    def test_tables(self) -> None:
        several = merge(lists=["a; extra == 'x'\nb; extra == 'y'\nc"], environment=STANDARD, extras=["x", "y"])
        for table in (merge(lists=[text_of(1, 400)], environment=STANDARD), merge(environment=STANDARD), several):
            for count in COUNTS:
                with self.subTest(table=table, count=count):
                    shards = table.shards(count)
                    self.assertEqual((len(shards), joined(shards)), (count, table))
                    self.assertEqual(sorted(name for it in shards for name in it), list(table))
                    self.assertEqual([it.shards(count)[number] for number, it in enumerate(shards)], list(shards))
                    self.assertEqual(pickle.loads(pickle.dumps(shards)), shards)

    def test_lists(self) -> None:
        lists = [text_of(seed, 200) for seed in range(5)]
        table = merge(lists=lists, environment=STANDARD)
        for count in COUNTS:
            with self.subTest(count):
                shards = [split(text, count) for text in lists]
                for text, its in zip(lists, shards):
                    lines = [it.split("\n") for it in its]
                    self.assertEqual({it[-1] for it in lines}, {""})
                    self.assertEqual(sorted(line for it in lines for line in it[:-1]), sorted(requirements(text)))
                    for own in lines:
                        rest = iter(requirements(text))
                        self.assertTrue(all(line in rest for line in own[:-1]), "the order of the list")
                    self.assertEqual([it.decode() for it in split(text.encode(), count)], its)
                self.assertEqual([merge(lists=texts, environment=STANDARD) for texts in zip(*shards)], list(table.shards(count)))

    def test_lines_that_count_for_nothing(self) -> None:
        self.assertEqual(split("", 2), ["", ""])
        self.assertEqual(split("# a\n\n \t\r\n#", 2), ["", ""])
        self.assertEqual(sorted(split("a; os_name == 'other'\nb", 1)), ["a; os_name == 'other'\nb\n"])
        # (what stands behind a name is read when shards are merged)
        self.assertEqual(split(b"a<\nA[", 1), [b"a<\nA[\n"])

    def test_lists_that_are_too_large_to_merge(self) -> None:
        comments = (b"#" + b" " * 65_000 + b"\n") * 260
        self.assertGreater(len(comments), 1 << 24)
        self.assertEqual(split(comments + b"a\n", 1), [b"a\n"])
        with self.assertRaises(Refused) as caught:
            split(comments + b"<\n", 1)
        self.assertEqual((caught.exception.line, caught.exception.codes), (261, (57, 31)))

    def test_refusals(self) -> None:
        rows = [(b"a\n\n# b\n<c", 4, (57, 31)), (b"-r a.txt\n", 1, (57, 37)), (b"a<\n!\n--pre\n\xff", 2, (57, 31)), (b"a\n# \xff", 2, (57, 51)), (b"a\n#" + b" " * 65_536, 2, (57, 38))]
        for text, line, codes in rows:
            with self.subTest(text[:10]), self.assertRaises(Refused) as caught:
                split(text, 3)
            self.assertEqual((caught.exception.line, caught.exception.input, caught.exception.codes), (line, 1, codes))
        table = merge(lists=["a"], environment=STANDARD)
        wrong: list[Any] = [0, -1, 1 << 64, 1.0, True, "2"]
        for count, kind in zip(wrong, [ValueError] * 3 + [TypeError] * 3):
            for call in (lambda it: split("a\n", it), table.shards):
                with self.subTest(count), self.assertRaisesRegex(kind, "count"):
                    call(count)
        given: Any = ["a"]
        with self.assertRaisesRegex(TypeError, "split takes"):
            split(given, 2)

    def test_tables_are_cut(self) -> None:
        table = merge(lists=[text_of(2, 400)], environment=STANDARD)
        header = len(merge(environment=STANDARD).text)
        for most in (1, header + 300, header + 3_000, 1 << 24):
            with self.subTest(most):
                parts = list(table.cut(most))
                self.assertEqual(joined(parts), table)
                self.assertEqual([name for it in parts for name in it], list(table))
                self.assertTrue(all(len(it.text) <= most or len(it) == 1 for it in parts))
        self.assertEqual((len(list(table.cut(1))), len(list(table.cut(1 << 24)))), (len(table), 1))


class Parts(unittest.TestCase):
    def test_what_is_sent(self) -> None:
        judged = Judged.of(STANDARD, None, ())

        def sent(*inputs: bytes) -> "list[list[Piece]]":
            return smaller(split_inputs(inputs, 3, judged), judged)

        lists = [text_of(seed, 50, 20).encode() for seed in range(4)]
        wanted = merge(lists=lists, environment=STANDARD)
        repeated = [b"n-1<5\n" * 1_000]
        kinds = [{kind for pieces in sent(*its) for kind, _ in pieces} for its in ([b"\n".join(b"m%d" % it for it in range(99))], repeated)]
        self.assertEqual(kinds, [{0}, {2}], "lists where names differ, and tables where they don't")
        for most in (200, 700, 1 << 24):
            with self.subTest(most), mock.patch.object(_parts, "MOST", most):
                # (each line is an input, since no input may be larger)
                parts = [sent(*text.split(b"\n")) for text in lists]
                self.assertEqual(parts, [sent(*text.split(b"\n")) for text in lists])
                tables = [shard_of(its, judged) for its in zip(*parts)]
                self.assertEqual([joined(its) for its in tables], list(wanted.shards(3)))
                self.assertEqual(all(len(its) == 1 for its in tables), most > 700)
                texts = [line.encode() for text in lists for line in text.decode().split("\n")]
                self.assertTrue(all(len(data) <= most for _, data in lists_of(texts)))
                self.assertEqual(b"\n".join(data for _, data in lists_of(texts)).split(b"\n"), [it for it in texts if it])


def killed_once(it: Any) -> Any:
    """Returns an input. If it is the path of a list beside which a file says so, it removes this file and kills its process, which is a worker."""
    if isinstance(it, str) and it.endswith("/30.txt"):
        order = pathlib.Path(it).with_name(KILLS)
        if order.exists():
            order.unlink()
            os.kill(os.getpid(), signal.SIGKILL)
    return it


@unittest.skipUnless(HAS_ENGINE, "dask and distributed aren't there")
class OnACluster(unittest.TestCase):
    """Merges of 40 lists by two workers, which are processes."""

    folder: "tempfile.TemporaryDirectory[str]"
    paths: "list[str]"
    cluster: Any
    client: Any

    @classmethod
    def setUpClass(cls) -> None:
        cls.folder = tempfile.TemporaryDirectory()
        cls.paths = [f"{cls.folder.name}/{number}.txt" for number in range(40)]
        for number, path in enumerate(cls.paths):
            pathlib.Path(path).write_text(text_of(number, 250, 2_000), encoding="utf-8")
        engine: Any = importlib.import_module("distributed")
        cls.cluster = engine.LocalCluster(n_workers=2, threads_per_worker=1, dashboard_address=None, local_directory=cls.folder.name, silence_logs=logging.CRITICAL)
        cls.client = engine.Client(cls.cluster)

    @classmethod
    def tearDownClass(cls) -> None:
        cls.client.close()
        cls.cluster.close()
        cls.folder.cleanup()

    def tables(self, inputs: Sequence[Any], count: int = 4, **more: Any) -> list[Table]:
        """Returns the tables of the shards of inputs, each of which is handed through `killed_once`."""
        import tubrambutan.dask

        bag = importlib.import_module("dask.bag").from_sequence(inputs, npartitions=8).map(killed_once)
        return [table for shard in tubrambutan.dask.merge(bag, count, client=self.client, **{**STANDARDLY, **more}) for table in shard.result()]

    def test_the_same_bytes(self) -> None:
        wanted = merge(*self.paths, environment=STANDARD)
        self.assertEqual(self.tables(self.paths), list(wanted.shards(4)))
        pids = set(self.client.run(os.getpid).values())
        with self.subTest("a worker is killed"):
            again = pathlib.Path(self.folder.name, "again")
            again.mkdir()
            paths = [shutil.copy(path, again) for path in self.paths]
            (again / KILLS).touch()
            self.assertEqual(self.tables(paths), list(wanted.shards(4)))
            self.assertFalse((again / KILLS).exists())
        self.assertNotEqual(set(self.client.run(os.getpid).values()), pids)
        with self.subTest("each input is given twice"):
            self.assertEqual(self.tables(self.paths + self.paths[::-1], 3), list(wanted.shards(3)))

    def test_other_inputs(self) -> None:
        project, table = pathlib.Path(self.folder.name, "pyproject.toml"), pathlib.Path(self.folder.name, "old.table")
        project.write_text(PROJECT, encoding="utf-8")
        # (without the header, which would name the extra)
        table.write_text(merge(lists=["n-1<5\nflask<9"], environment=STANDARD).lines, encoding="utf-8")
        given: "list[dict[str, Any]]" = [{}, {"extras": ["Dev_Tools"]}]
        for more in given:
            wanted = merge(project, table, *self.paths, lists=["n-2<4"], environment=STANDARD, **more)
            self.assertEqual(self.tables([project, *self.paths, b"n-2<4", table], 2, **more), list(wanted.shards(2)))
        several = ["dev-tools", "x"]
        wanted = merge(project, table, *self.paths, lists=["a; extra == 'x'"], environment=STANDARD, extras=several)
        self.assertEqual(self.tables([project, table, b"a; extra == 'x'", *self.paths], 2, extras=several), list(wanted.shards(2)))
        grouped = b"[dependency-groups]\ng = ['a<2']\n"
        project.write_bytes(grouped)
        self.assertEqual(joined(self.tables([project, b"a>1"], 2, group="G")), merge(project, lists=["a>1"], environment=STANDARD, group="g"))

    def test_refusals(self) -> None:
        faulty = pathlib.Path(self.folder.name, "faulty.txt")
        faulty.write_text("a\n\nb<\n", encoding="utf-8")
        faults: "list[Any]" = [b"a\n\nb>=x", b"a; os_name ~= 'b'", b"<", b"\n" * 16_777_217, b"# \xff", faulty]
        for fault in faults:
            inputs: "list[Any]" = [b"a", *[b"b"] * 7, fault, b"a>"]
            with self.subTest(str(fault)[:20]), self.assertRaises(Refused) as wanted:
                merge(lists=[it if isinstance(it, bytes) else it.read_bytes() for it in inputs], environment=STANDARD)
            with self.assertRaises(Refused) as caught:
                self.tables(inputs)
            self.assertEqual(caught.exception.text, wanted.exception.text)
            self.assertEqual(caught.exception.subject, None if isinstance(fault, bytes) else str(fault))
        calls: "list[tuple[list[Any], dict[str, Any], type[Exception]]]" = [
            (["/none.txt"], {}, OSError),
            ([b"a"], {"count": 0}, ValueError),
            ([b"a"], {"extras": "ab"}, TypeError),
            ([b"a"], {"group": "-"}, tubrambutan.InvalidName),
            ([b"a"], {"environment": {}}, Refused),
            ([5], {}, TypeError),
        ]
        for inputs, more, kind in calls:
            with self.subTest(more), self.assertRaises(kind):
                self.tables(inputs, **more)

    def test_wrong_calls(self) -> None:
        import tubrambutan.dask

        with self.assertRaisesRegex(TypeError, "Bag, not list"):
            tubrambutan.dask.merge(self.paths, 2, client=self.client)
        # (workers are not forked)
        with importlib.import_module("dask").config.set({"distributed.worker.multiprocessing-method": "fork"}), self.assertRaisesRegex(ValueError, "spawn"):
            self.tables([b"a"])


if not HAS_ENGINE:
    print("MERGES ON A CLUSTER ARE NOT TESTED: dask and distributed aren't there for", sys.executable, file=sys.stderr)

if __name__ == "__main__":
    unittest.main()
