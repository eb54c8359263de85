#!/usr/bin/env python3
"""Merges a mirror on a cluster of processes on this machine, and once in one process: the bytes have to be the same. It prints what each of the two takes.

usage: PYTHONPATH=python /usr/bin/python3 examples/mirror.py [--lines N] [--files N] [--names N] [--workers N] [--parts N] [--shards N] [--kill] [--twice]

(or another interpreter that has dask and distributed)

The mirror is made in a temporary folder: lists whose lines have clauses, extras and markers, on names of which some are far more frequent than others. Processor time is
that of all processes of the cluster, the scheduler and the client too, from the first task to the last table; the start of the workers is printed separately. Memory is the peak
of a process. With --kill, the cluster merges once more, and a worker is killed midway. With --twice, it merges once more, each input given twice.
"""

from __future__ import annotations

import argparse
import concurrent.futures
import logging
import multiprocessing
import os
import random
import re
import signal
import sys
import tempfile
import threading
import time
from typing import Any, NamedTuple, Sequence

# By default the engine looks for a lost worker for 30 seconds, and compresses what it sends, which costs more than it saves on one machine. (Its workers have this
# environment too.)
os.environ.setdefault("DASK_DISTRIBUTED__COMM__TIMEOUTS__CONNECT", "3s")
os.environ.setdefault("DASK_DISTRIBUTED__COMM__COMPRESSION", "None")

import dask.bag
import distributed

import tubrambutan
import tubrambutan.dask

TAILS = ["", ">={0}.{1}", ">={0}", "~={0}.{1}", "!={0}.{1}", ">={0}.{1},<{2}", ">={0},!={0}.{1}.*,<{2}", "[extra]>={0}.{1}", "<{2} ; python_version < '3.{1}'", "; extra == 'dev'"]
# How many tails of lines there are.
MANY = 20_000


class Run(NamedTuple):
    """A merge: seconds on the clock, seconds of processors, the peak of each process in bytes, and the table."""

    clock: float
    processor: float
    peaks: list[int]
    table: tubrambutan.Table

    def __str__(self) -> str:
        return f"{self.clock:.2f} s, {self.processor:.2f} s of processors, at most {max(self.peaks) / 1e6:.0f} MB a process"


def make(folder: str, lines: int, files: int, names: int) -> list[str]:
    """Makes a mirror, and returns the paths of its files."""
    rolled = random.Random(7)
    tails = [rolled.choice(TAILS).format(rolled.randrange(9), rolled.randrange(20), 9 + rolled.randrange(9)) for _ in range(MANY)]
    paths = [f"{folder}/{number:06}.txt" for number in range(files)]
    for number, path in enumerate(paths):
        count = lines * (number + 1) // files - lines * number // files
        with open(path, "w", encoding="ascii") as file:
            file.writelines(f"Project_{int(names * rolled.random() ** 2)}{tail}\n" for tail in rolled.choices(tails, k=count))
    return paths


def peak() -> int:
    """Returns the peak of the memory of this process, in bytes."""
    with open("/proc/self/status", encoding="ascii") as file:
        return int(re.findall(r"VmHWM:\s+(\d+) kB", file.read())[0]) * 1024


def one_process(paths: Sequence[str]) -> Run:
    """Merges all in this process."""
    began, used = time.perf_counter(), time.process_time()
    table = tubrambutan.merge(*paths)
    return Run(time.perf_counter() - began, time.process_time() - used, [peak()], table)


def on_cluster(client: Any, paths: Sequence[str], parts: int, shards: int) -> Run:
    """Merges on a cluster."""
    before = client.run(time.process_time)
    began, used = time.perf_counter(), time.process_time()
    bag = dask.bag.from_sequence(paths, npartitions=parts)
    tables = [table for shard in tubrambutan.dask.merge(bag, shards, client=client, progress=sys.stdout.isatty()) for table in shard.result()]
    clock, used = time.perf_counter() - began, time.process_time() - used
    # (a worker that was killed, or is new, isn't in both)
    after = client.run(time.process_time)
    peaks = list(client.run(peak).values())
    return Run(clock, used + sum(after[it] - before.get(it, 0) for it in after), peaks, tubrambutan.merge(tables=[it.text for it in tables]))


def told(what: str, run: Run, one: Run) -> bool:
    """Prints what a merge on the cluster took, and returns whether its table is that of the merge in one process."""
    is_same = run.table == one.table
    print(f"{what}: {run}; {run.clock / one.clock:.2f} of the time, {run.processor / one.processor:.2f} of the processor time; {'the same' if is_same else 'OTHER'} bytes", flush=True)
    return is_same


def main() -> int:
    parser = argparse.ArgumentParser(description="Merges a mirror on a cluster of processes on this machine, and once in one process.")
    workers = os.cpu_count() or 1
    for name, default in (("lines", 1_000_000), ("files", 4_000), ("names", 200_000), ("workers", workers), ("parts", 4 * workers), ("shards", 2 * workers)):
        parser.add_argument(f"--{name}", type=int, default=default, metavar="N")
    parser.add_argument("--kill", action="store_true", help="merge once more, and kill a worker midway")
    parser.add_argument("--twice", action="store_true", help="merge once more, each input given twice")
    given = parser.parse_args()
    with tempfile.TemporaryDirectory() as folder:
        paths = make(f"{folder}", given.lines, given.files, given.names)
        size = sum(map(os.path.getsize, paths))
        with concurrent.futures.ProcessPoolExecutor(1, multiprocessing.get_context("spawn")) as pool:
            one = pool.submit(one_process, paths).result()
        print(f"{given.lines:,} lines of {size / 1e6:.1f} MB in {given.files:,} files: {len(one.table):,} names, a table of {len(one.table.text) / 1e6:.1f} MB", flush=True)
        print(f"one process: {one}", flush=True)
        began = time.perf_counter()
        with distributed.Client(n_workers=given.workers, threads_per_worker=1, dashboard_address=None, local_directory=folder, silence_logs=logging.CRITICAL) as client:
            client.run(peak)
            print(f"{given.workers} workers began in {time.perf_counter() - began:.1f} s, {max(client.run(peak).values()) / 1e6:.0f} MB each", flush=True)
            run = on_cluster(client, paths, given.parts, given.shards)
            is_same = told("the cluster", run, one)
            if given.kill:
                pid = next(iter(client.run(os.getpid).values()))
                threading.Timer(run.clock / 2, os.kill, (pid, signal.SIGKILL)).start()
                is_same &= told("a worker killed midway", on_cluster(client, paths, given.parts, given.shards), one)
            if given.twice:
                is_same &= told("each input twice", on_cluster(client, [*paths, *paths], 2 * given.parts, given.shards), one)
    return 0 if is_same else 1


if __name__ == "__main__":
    sys.exit(main())
