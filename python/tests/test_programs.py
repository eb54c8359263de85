"""Programs of Debian that import `packaging`, and copies of them that import this package in its place, with no other change: they print the same."""

from __future__ import annotations

import os
import pathlib
import re
import shutil
import subprocess
import sys
import tempfile
import unittest

import tubrambutan

DEBIAN = "/usr/lib/python3/dist-packages"
PROJECT = """{"project": {"name": "demo", "version": "1.0-alpha.1", "requires-python": ">=3.8, !=3.9.1",
    "dependencies": ["Flask[Async] >=2.0,<3; python_version < '4'", "zope.interface (>=5)", "a>=1; os_name=='x' or (os_name=='y' and os_name<'z')"],
    "optional-dependencies": {"dev": ["pytest ~=7.1", "mypy; os_name == 'posix'"], "docs": ["sphinx<8"]}}}"""
INSTALLED = f"import importlib.metadata; installed = list(importlib.metadata.distributions(path=[{DEBIAN!r}]))"
# What each program does, and prints; behind `Requires-Dist: ` stands a requirement.
WORK = {
    "pyproject_metadata": f"print(pyproject_metadata.StandardMetadata.from_pyproject({PROJECT}).as_rfc822())",
    "hatchling": f"""
from hatchling.dep.core import DistributionCache, Requirement, default_environment, dependency_in_sync
from hatchling.metadata.core import ProjectMetadata
whole = ProjectMetadata(".", None, {PROJECT}); core = whole.core
print(whole.version, core.requires_python, [core.python_constraint.contains(text) for text in ("3.9.1", "3.10", "3.11rc1")])
print("Requires-Dist:", "\\nRequires-Dist: ".join(core.dependencies + core.optional_dependencies["dev"]))
{INSTALLED}; cache = DistributionCache([{DEBIAN!r}])
for text in sorted({{text for it in installed for text in it.requires or []}}):
    print(text, dependency_in_sync(Requirement(text), default_environment(), cache))""",
    "build": f"""
{INSTALLED}
for name in sorted({{it.metadata["Name"] for it in installed}}):
    print("\\nRequires-Dist: ".join(["missing", *(text for missing in build.check_dependency(name) for text in missing)]))""",
    "setuptools_scm": """
from setuptools_scm.config import Configuration
from setuptools_scm.version import format_version, meta
for tag in ("1.0.0-rc1", "v2.3", "1.2.3.post4", "0.1.dev0"):
    for normalize in (True, False):
        version = meta(tag, distance=3, node="abc", branch="main", config=Configuration(normalize=normalize))
        print(repr(version.tag), format_version(version, version_scheme="guess-next-dev", local_scheme="node-and-date"))""",
}


def changed(text: str) -> str:
    """Returns a module that imports this package in place of the modules of `packaging` that have the same types."""
    modules = "(?:markers|requirements|specifiers|version)"
    text = re.sub(rf"\bfrom packaging\.{modules} import\b", "from tubrambutan import", text)
    text = re.sub(rf"\bimport packaging\.{modules}$", "import tubrambutan", text, flags=re.M)
    return re.sub(rf"\bpackaging\.{modules}\.", "tubrambutan.", text)


def printed(name: str, folder: str = DEBIAN) -> str:
    """Returns what the program in a folder prints, with the texts of requirements in their normal form. This package is imported by copies alone."""
    begin = f"import sys, warnings; warnings.simplefilter('ignore'); sys.path = [{folder!r}, *sys.path, {DEBIAN!r}]; import {name}"
    work = f"{begin}\n{WORK[name]}\nassert ('tubrambutan' in sys.modules) is {folder != DEBIAN}"
    environment = {**os.environ, "PYTHONPATH": os.path.dirname(tubrambutan.__path__[0]), "PYTHONDONTWRITEBYTECODE": "1"}
    text = subprocess.run([sys.executable, "-c", work], env=environment, check=True, stdout=subprocess.PIPE, encoding="utf-8").stdout
    return re.sub("(?<=^Requires-Dist: ).*", lambda it: tubrambutan.requirement_text(it[0]), text, flags=re.M)


class Programs(unittest.TestCase):
    def test_programs(self) -> None:
        for name in WORK:
            with self.subTest(name), tempfile.TemporaryDirectory() as folder:
                # (importlib.metadata before 3.10 finds `jaraco.classes` by that name alone, and names are normalized here)
                if not os.path.isdir(f"{DEBIAN}/{name}") or (name == "build" and sys.version_info < (3, 10)):
                    print(f"programs: {name} WAS NOT TRIED, since it is not there, or this interpreter is too old")
                    continue
                shutil.copytree(f"{DEBIAN}/{name}", f"{folder}/{name}", ignore=shutil.ignore_patterns("__pycache__"))
                for path in pathlib.Path(folder).rglob("*.py"):
                    path.write_text(changed(path.read_text(encoding="utf-8")), encoding="utf-8")
                self.assertEqual(printed(name, folder), printed(name))


if __name__ == "__main__":
    unittest.main()
