"""The examples of the package's docstrings and of pages. Those of docs/MIRRORS.md are run where dask is."""

from __future__ import annotations

import doctest
import importlib
import importlib.util
import os
import pkgutil
import re
import unittest
from typing import Optional

import tubrambutan

ROOT = os.path.dirname(os.path.dirname(os.path.dirname(os.path.abspath(__file__))))


def of_page(page: str) -> unittest.TestCase:
    """Returns the test of a page's blocks for Python, in their order."""
    with open(f"{ROOT}/{page}", encoding="utf-8") as it:
        blocks = re.findall(r"^```python\n(.*?)^```$", it.read(), re.M | re.S)
    if not blocks:
        raise AssertionError(f"{page} has no example in Python")
    return doctest.DocTestCase(doctest.DocTestParser().get_doctest("\n".join(blocks), {}, page, page, 0))


def load_tests(loader: unittest.TestLoader, tests: unittest.TestSuite, pattern: Optional[str]) -> unittest.TestSuite:
    has_engine = all(importlib.util.find_spec(it) for it in ("dask", "distributed"))
    left_out = {"libtubrambutan", *(() if has_engine else ("dask",))}
    names = [it.name for it in pkgutil.iter_modules(tubrambutan.__path__) if it.name not in left_out]
    for module in [tubrambutan, *(importlib.import_module(f"tubrambutan.{name}") for name in names)]:
        # (a module without an example has no test)
        tests.addTests(doctest.DocTestSuite(module))
    tests.addTests(map(of_page, ("README.md", "docs/PYTHON.md", *(("docs/MIRRORS.md",) if has_engine else ()))))
    return tests
