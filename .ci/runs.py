"""Runs of the program that the scripts of the gate hand to a machine that fails: the files that they name, and of each run its
words, what it must print, its standard input and its status. What is wanted comes from the specification, never from what the
program printed."""

import shutil
import subprocess
import sys
from typing import NamedTuple

from environment import HEADER, STANDARD, header


def preloaded(folder, name, text):
    """Returns a library made of a text in C, which the loader can put before the C library."""
    compiler = next((it for it in ("cc", "gcc", "clang") if shutil.which(it)), None)
    if compiler is None:
        sys.exit(".ci/runs.py: no C compiler")
    with open(f"{folder}/{name}.c", "w", encoding="utf-8") as it:
        it.write(text)
    made = f"{folder}/{name}.so"
    subprocess.run([compiler, "-O1", "-shared", "-fPIC", "-o", made, it.name, "-ldl"], check=True)
    return made


class Run(NamedTuple):
    words: list
    want: bytes
    given: bytes = b""
    status: int = 0

    @property
    def shown(self):
        return " ".join(self.words) or self.given[:60]


EXTRA = f'{STANDARD}extra = "Dev_Tools"\n'.encode()
EXTRA_HEADER = header(EXTRA)

# The files that the runs name, in the folder in which they run: the lines of one table alone, and another with its header.
FILES = {
    "env.toml": EXTRA,
    "demo.toml": b"""[project]
name = "demo"
dependencies = ["Flask>=2.0", "tomli ; python_version < '3.11'"]

[project.optional-dependencies]
Dev_Tools = ["pytest~=7.1"]
""",
    "groups.toml": b"""[dependency-groups]
Docs = ["sphinx>=7", {include-group = "lint"}, {include-group = "more"}]
lint = ["ruff"]
more = [{include-group = "LINT"}]
""",
    "list.txt": b"# pins\nflask<3\n",
    "urls.txt": b"a @ https://x.test/1\na @ https://x.test/2\na @ https://x.test/1\n",
    "excluded.txt": b"flask!=2.1\n",
    "first.table": b"flask open\n  range before 2 to before 3.dev0\n",
    "kept.table": EXTRA_HEADER + b"a none\n  text 1.0\n  range past 1 to end\n"
    b"b conflict\n  extra x\n  url https://x.test/1\n  url https://x.test/2\n  range before 0.dev0 to end\n"
    b"flask open\n  extra async\n  range before 1!2a1.post3.dev4+x.5 to after 1!2+x\n",
    "parts.txt": b'Requests [security,socks] (>=2.8.1, ==2.8.*) ; python_version < "2.7"\n'
    b"a; os_name=='x' or (os_name=='y' and extra=='z')\na (>=1,)\n",
}

# Each of these numbers is left out of the versions of one name, over many lines, with names between them: what a merge
# gathers of one name grows and is joined again and again.
EXCLUDED = range(1, 41)
GATHERED = [f"n{number % 7}[x{number}]!={number}\na!={number}\n" for number in (*EXCLUDED[::2], *EXCLUDED[1::2])]


def gaps(excluded):
    """Returns the ranges between whole numbers that are left out, in ascending order."""
    lows = ["before 0.dev0", *(f"before {number}.post0.dev0" for number in excluded)]
    highs = [*(f"before {number}" for number in excluded), "end"]
    return "".join(f"  range {low} to {high}\n" for low, high in zip(lows, highs))


def gathered():
    """Returns the lines of the table of what is gathered so."""
    table = f"a open\n{gaps(EXCLUDED)}"
    for rest in range(7):
        numbers = [number for number in EXCLUDED if number % 7 == rest]
        extras = "".join(f"  extra {extra}\n" for extra in sorted(f"x{number}" for number in numbers))
        table += f"n{rest} open\n{extras}{gaps(numbers)}"
    return table.encode()


# Markers, none of which holds, for which the memory of markers grows twice, and as many clauses, for which that of clauses grows
# twice: with a suffix, since others aren't remembered.
MARKED = "".join(f"a<{number}.post1; os_name=='{number}'\n" for number in range(600)) + "a>=1\n"

MERGE = ["merge", "--env", "env.toml"]
FIRST_LINES = FILES["first.table"]
URLS_LINES = b"a conflict\n  url https://x.test/1\n  url https://x.test/2\n  range before 0.dev0 to end\n"


def of_list(lines, given):
    """Returns the run without words that prints a table with these lines."""
    return Run([], HEADER + lines, given)


def of_files(words, lines):
    """Returns the merge, in the environment of `env.toml`, that prints a table with these lines."""
    return Run([*MERGE, *words], EXTRA_HEADER + lines)


RUNS = [
    of_list(FIRST_LINES, b"flask>=2.0\nFlask<3\n"),
    of_list(b"a open\n  range before 1.5 to before 2.dev0\nb open\n  range before 1.0.1 to end\n", b"a<2\nb>=1.0.1\na>=1\nA>=1.5\n"),
    # a name that doesn't lie in the value, written in two ways
    of_list(
        b"a-name-of-more-than-24-bytes open\n  extra another-name-of-more-than-24\n  range before 1 to before 2.dev0\n",
        b"a-name-of-more-than-24-bytes>=1\nA_name.of-More-than-24-bytes[Another.name_of_more-than-24]<2\n",
    ),
    # versions whose keys don't lie in the value
    of_list(
        b"c open\n  range before 1.2.3.4.5.6.7+x to after 1.2.3.4.5.6.7+x\n"
        b"d open\n  range past 1.2.3.4.5.6.7 to before 1.2.3.4.5.6.8a9.post0.dev7\n",
        b"c==1.2.3.4.5.6.7+x\nd>1.2.3.4.5.6.7\nD<1.2.3.4.5.6.8a9.post0.dev7\n",
    ),
    of_list(
        b"a open\n  range before 1.4.5 to before 1.4.7\n  range before 1.4.7.post0.dev0 to before 1.5.dev0\n"
        b"b open\n  range before 1.dev0 to before 1\n  range before 1.post0.dev0 to before 2.dev0\n"
        b"c open\n  range before 0.dev0 to before 1+x\n  range after 1+x to before 2.post2.dev0\n"
        b"d open\n  range before 1.18446744073709551615.2 to before 2.dev0\n",
        b"c<=2.0.post1,!=1.0+x\na~=1.4.5\nb!=1.0\nA != 1.4.7\nB==1.*\nd~=1.18446744073709551615.2\n",
    ),
    of_list(
        b"a open\n  range past 0.5 to before 1.dev0\n  range before 2.dev0 to before 2\n"
        b"  range before 2.post0.dev0 to before 3\n  range before 3.post0.dev0 to before 4.post0.dev0\nb none\n",
        b"a!=1.*,!=3.0\na!=2.0\nb>1.0a5\nA<=4.0,>0.5\nB<1.0a6.dev0\n",
    ),
    of_list(gathered(), "".join(GATHERED).encode()),
    of_list(URLS_LINES, FILES["urls.txt"]),
    of_list(
        b"b open\n  extra x\n  extra y\n  text 1.0\n  range before 0.dev0 to end\n"
        b"flask open\n  extra async\n  range before 2 to before 3.dev0\n",
        b'flask>=2.0\nFlask[async]<3; python_version < "4"\nb[y,x]===1.0\nb; os_name == "nt" or extra in "a b"\n',
    ),
    of_list(b"a open\n  range before 0.dev0 to end\n", b"a;" + b"(" * 64 + b'os_name=="posix"' + b")" * 64 + b"\n"),
    Run(["version", "1!2.03A_4-5.dev6+X-07"], b"1!2.3a4.post5.dev6+x.7\n"),
    Run(
        ["lines", "/dev/stdin"],
        b'a[x,y]>=1.0 ; os_name == "x" or os_name == "y" and extra == "z"\nb @ https://x.test/1\n',
        b"# note\nA[y,x] (>=1.0,) ; os_name=='x' or (os_name=='y' and extra=='z')\nb @ https://x.test/1\n",
    ),
    Run(
        ["lines", "parts.txt"],
        b'requests[security,socks]>=2.8.1,==2.8.* ; python_version < "2.7"\n'
        b'a ; os_name == "x" or os_name == "y" and extra == "z"\na>=1\n',
    ),
    Run(["lines", "demo.toml"], b'flask>=2.0\ntomli ; python_version < "3.11"\n'),
    of_files(
        ["demo.toml"],
        b"flask open\n  range before 2 to end\npytest open\n  range before 7.1 to before 8.dev0\n"
        b"tomli open\n  range before 0.dev0 to end\n",
    ),
    of_files(
        ["demo.toml", "list.txt"],
        b"flask open\n  range before 2 to before 3.dev0\npytest open\n  range before 7.1 to before 8.dev0\n"
        b"tomli open\n  range before 0.dev0 to end\n",
    ),
    of_files(
        ["--group", "docs", "groups.toml", "list.txt"],
        b"flask open\n  range before 0.dev0 to before 3.dev0\nruff open\n  range before 0.dev0 to end\n"
        b"sphinx open\n  range before 7 to end\n",
    ),
    of_files(["urls.txt"], URLS_LINES),
    Run(["check", "--env", "env.toml", "a", "1.0", "urls.txt"], b"conflict\n", status=1),
    Run(["check", "--env", "env.toml", "--pre", "Flask", "2.1rc1", "list.txt", "demo.toml"], b"yes\n"),
    Run(["check", "--env", "env.toml", "Flask", "2.1rc1", "list.txt", "demo.toml"], b"no\n", status=1),
    of_files(
        ["first.table", "excluded.txt"],
        b"flask open\n  range before 2 to before 2.1\n  range before 2.1.post0.dev0 to before 3.dev0\n",
    ),
    of_files(
        ["kept.table", "list.txt"],
        b"a none\n  text 1.0\n  range past 1 to end\n"
        b"b conflict\n  extra x\n  url https://x.test/1\n  url https://x.test/2\n  range before 0.dev0 to end\n"
        b"flask none\n  extra async\n",
    ),
    Run(["check", "--env", "env.toml", "Flask", "1!2", "kept.table"], b"yes\n"),
]
# A list of many pieces, for allocations alone: that reads of small pieces of it fail one by one would say nothing more.
LONG_RUN = of_list(b"a open\n  range before 1 to end\n", MARKED.encode())
