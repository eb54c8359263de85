"""Why packages have their verdicts."""

import pathlib
import random
import tempfile
import unittest

from test_tables import STANDARD
from tubrambutan import InvalidName, Line, Lines, Reason, Refused, clashes, merge, why

# Of a package `a`: the lists, the verdict, and the places of the claims that clash.
ROWS = [
    (["a>=1\nb", "a<2"], "open", []),
    (["a>=2\na", "a<1"], "none", [(1, 1), (2, 1)]),
    (["a>=1,<=1\na!=1.*"], "none", [(1, 1), (1, 2)]),
    (["a==1.*\n# a\na!=1.0.*\na!=1.1.*", "a>=1.0,<1.2"], "none", [(1, 3), (1, 4), (2, 1)]),
    (["a===1.0", "a===2.0\na"], "none", [(1, 1), (2, 1)]),
    (["a===1.0\na!=1.0"], "none", [(1, 1), (1, 2)]),
    (["a>2,<1\na>=1"], "none", [(1, 1)]),
    (["a @ https://x.test/1\na", "a @ https://x.test/2"], "conflict", [(1, 1), (2, 1)]),
    (["a>=2; os_name == 'nt'\na<1"], "open", []),
    (["a[x]>=1\na[y]<1; python_version > '3'"], "none", [(1, 1), (1, 2)]),
    (["b"], "open", []),
]
PROJECT = "[project]\nname = 'demo'\ndependencies = ['b', 'a>=2']\n[dependency-groups]\ntest = ['a<1']\n"


class Reasons(unittest.TestCase):
    def test_clashes(self) -> None:
        for lists, verdict, places in ROWS:
            with self.subTest(lists):
                found = why("A", lists=lists, environment=STANDARD)
                table = merge(lists=lists, environment=STANDARD)
                self.assertEqual((found.name, found.verdict), ("a", verdict))
                self.assertEqual(found.verdict, table["a"].verdict if "a" in table else "open")
                self.assertEqual([(it.input, it.line) for it in found.clash], places)
                self.check_clash(found)
                self.assertEqual([it.name for it in clashes(lists=lists, environment=STANDARD)], ["a"] if verdict != "open" else [])

    def check_clash(self, found: Reason) -> None:
        """Checks that the claims clash, and that none is left out without need."""
        texts = [it.text for it in found.clash]
        self.assertTrue(set(found.clash) <= set(found.claims))
        self.assertEqual(bool(texts), found.verdict != "open")
        for left_out in range(-1, len(texts)):
            kept = [text for number, text in enumerate(texts) if number != left_out]
            table = merge(lists=["\n".join(kept)], environment=STANDARD)
            self.assertEqual(table["a"].verdict if kept else "open", found.verdict if left_out < 0 else "open")

    def test_names_like_words(self) -> None:
        for name in ("claim", "clash"):
            lists = [f"{name}>=2\n{name}<1", "a @ https://x.test/1\na @ https://x.test/2"]
            found = why(name, lists=lists, environment=STANDARD)
            self.assertEqual((found.name, found.verdict, [it.line for it in found.claims], len(found.clash)), (name, "none", [1, 2], 2))
            self.assertEqual([it.name for it in clashes(lists=lists, environment=STANDARD)], ["a", name])
            self.assertEqual(why(name, lists=["b"], environment=STANDARD).claims, ())

    def test_three_urls(self) -> None:
        found = why("a", lists=[f"a @ https://x.test/{number}" for number in (1, 1, 2, 3)], environment=STANDARD)
        self.assertEqual((found.verdict, len(found.claims), len(found.clash)), ("conflict", 4, 2))
        self.check_clash(found)

    def test_random_claims(self) -> None:
        chance = random.Random(7)
        for _ in range(300):
            clauses = (f"a{chance.choice(('>=', '<=', '<', '>', '!=', '=='))}{chance.randint(0, 4)}{chance.choice(('', '.0', '.*'))}" for _ in range(30))
            lists = ["\n".join(it for it in clauses if it[-1] != "*" or it[1] in "!=")[: chance.randint(20, 160)].rpartition("\n")[0]]
            with self.subTest(lists):
                self.check_clash(why("a", lists=lists, environment=STANDARD))

    def test_places(self) -> None:
        with tempfile.TemporaryDirectory() as folder:
            file = pathlib.Path(folder, "pyproject.toml")
            file.write_text(PROJECT, encoding="utf-8")
            table = merge(lists=["z\na!=3"], environment=STANDARD)
            found = why("a", file, lists=["# no\n\na<2\na ; os_name == 'nt'", Lines([Line("a", "x.txt", 9)])], tables=[table.text], environment=STANDARD)
            claims = [(it.input, it.line, it.text, it.path) for it in found.claims]
            entry = "a open\n  range before 0.dev0 to before 3\n  range before 3.post0.dev0 to end\n"
            self.assertEqual(claims, [(1, 2, "a>=2", str(file)), (2, 3, "a<2", None), (3, 9, "a", "x.txt"), (4, 14, entry, None)])
            self.assertEqual([it.line for it in found.clash], [2, 3])
            self.assertEqual([it.text for it in why("a", file, group="test", environment=STANDARD).claims], ["a<1"])
        words = str(found)
        self.assertEqual(words, f"a: no version meets these together\n  {file}, text 2: a>=2\n  input 2, line 3: a<2\nand 2 more demands")
        self.assertEqual(str(why("c", lists=["a"], environment=STANDARD)), "c: nothing is demanded")

    def test_refusals(self) -> None:
        with self.assertRaises(InvalidName):
            why("-", lists=["a"])
        with self.assertRaises(InvalidName):
            why("a", lists=["a"], group="-")
        with self.assertRaises(Refused) as of_one:
            why("a", lists=["b", "a<"], environment=STANDARD)
        with self.assertRaises(Refused) as of_all:
            clashes(lists=["b", "a<"], environment=STANDARD)
        for caught in (of_one.exception, of_all.exception):
            self.assertEqual((caught.input, caught.line, caught.codes), (2, 1, (57, 33, 12)))


if __name__ == "__main__":
    unittest.main()
