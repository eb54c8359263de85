"""Calls in threads, and many calls."""

from __future__ import annotations

import concurrent.futures
import gc
import os
import resource
import subprocess
import sys
import threading
import time
import unittest
from typing import Any, Callable, Optional, TypeVar

import tubrambutan
from tubrambutan import Refused, Table, Version, admits, merge, requirement_text
from test_tables import STANDARD

T = TypeVar("T")


def pages() -> int:
    """Returns how much memory the process has, in bytes."""
    with open("/proc/self/statm", encoding="ascii") as it:
        return int(it.read().split()[1]) * resource.getpagesize()


def call_each() -> int:
    """Calls each function of the library, and returns how often."""
    package = merge(lists=["a>=1,!=1.5\nb"], environment=STANDARD)["a"]
    package.admits("1.5")
    list(package.filter(["1.5", "1.6"]))
    sum(Version("1.0") < Version(f"1.{i}") for i in range(5))
    admits("~=1.4", "1.5")
    requirement_text("a[x]>=1 ; os_name=='nt'")
    for text in ("1.0.x", "1.0+", "18446744073709551616"):
        try:
            Version(text)
        except Refused:
            continue
        raise AssertionError(text)
    try:
        merge(lists=["a<"], environment=STANDARD)
    except Refused:
        return 1 + 1 + 1 + 15 + 1 + 1 + 3 + 1
    raise AssertionError("a<")


def codes_of(**inputs: Any) -> Optional[tuple[int, ...]]:
    """Returns the codes by which the inputs are refused, or None where they are merged."""
    try:
        merge(**inputs)
    except Refused as refusal:
        return refusal.codes
    return None


def in_a_small_stack(call: Callable[[], T]) -> T:
    """Returns what a call gives on a thread with the least stack that the package asks for."""
    found: list[T] = []
    size = threading.stack_size(512 * 1024)
    try:
        thread = threading.Thread(target=lambda: found.append(call()))
        thread.start()
        thread.join()
    finally:
        threading.stack_size(size)
    return found[0]


class Calls(unittest.TestCase):
    def test_a_call_gives_the_lock_back(self) -> None:
        lists = ["".join(f"n{i}!=1.{i % 97}\n" for i in range(400_000))]
        began, ticks = time.monotonic(), 0
        tables: list[Table] = []
        thread = threading.Thread(target=lambda: tables.append(merge(lists=lists, environment=STANDARD)))
        thread.start()
        while thread.is_alive():
            time.sleep(0.001)
            ticks += 1
        seconds = time.monotonic() - began
        # (with the lock held the whole call would be one tick, or two)
        self.assertGreater(seconds, 0.1)
        self.assertGreater(ticks, 20)
        self.assertEqual([len(table) for table in tables], [400_000])

    def test_calls_at_once(self) -> None:
        def merged(i: int) -> bool:
            table = merge(lists=[f"n{i}>={j}" for j in range(20)], environment=STANDARD)
            return list(table) == [f"n{i}"] and str(table[f"n{i}"].ranges[0].low) == "before 19" and str(Version(f"{i}.0a")) == f"{i}.0a0"

        with concurrent.futures.ThreadPoolExecutor(8) as pool:
            self.assertTrue(all(pool.map(merged, range(2_000))))

    def test_the_largest_marker_in_a_small_stack(self) -> None:
        marker = "(" * 64 + " or ".join(["python_version == '1'"] * 1_023) + ")" * 64 + " or os_name == 'posix'"
        self.assertEqual(in_a_small_stack(lambda: list(merge(lists=[f"a; {marker}"], environment=STANDARD))), ["a"])

    def test_the_deepest_documents_in_a_small_stack(self) -> None:
        for parts, behind, codes in ((8, "", None), (8, "\n=", (52,)), (8, "\nx=1", (52,)), (8, "\n[z]\n[z]", (52,)), (80, "", (52,)), (80, "\n=", (52,))):
            deep = "x=" + ("{" + ".".join("b" * parts) + "=") * 80 + "1" + "}" * 80 + behind
            with self.subTest(parts=parts, behind=behind):
                self.assertEqual(in_a_small_stack(lambda: codes_of(projects=["project={}\n" + deep], environment=STANDARD)), codes)
                # (as an environment it has a value that is no text, where it is read)
                self.assertEqual(in_a_small_stack(lambda: codes_of(environment=deep)), codes or (55,))

    def test_there_is_no_room(self) -> None:
        limited = """
import resource, tubrambutan
text = "a\\n" * 4_000_000
with open("/proc/self/statm", encoding="ascii") as it:
    limit = int(it.read().split()[0]) * resource.getpagesize() + 48_000_000
resource.setrlimit(resource.RLIMIT_AS, (limit, limit))
try:
    tubrambutan.merge(lists=[text])
except MemoryError:
    print("no room")
"""
        environment = {**os.environ, "PYTHONPATH": os.path.dirname(tubrambutan.__path__[0])}
        self.assertEqual(subprocess.run([sys.executable, "-c", limited], env=environment, stdout=subprocess.PIPE, check=True).stdout, b"no room\n")

    def test_memory_stays(self) -> None:
        for _ in range(500):
            call_each()
        gc.collect()
        before, calls = pages(), 0
        while calls < 100_000:
            calls += call_each()
        gc.collect()
        self.assertLess(pages() - before, 1_000_000)


if __name__ == "__main__":
    unittest.main()
