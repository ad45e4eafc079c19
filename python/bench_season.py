#!/usr/bin/env python3
"""How long a season takes to open. The best of many turns, in milliseconds by the clock and, behind it, of the processor.

    PYTHONPATH=python python3 python/bench_season.py            # measures, some seconds
    PYTHONPATH=python python3 python/bench_season.py --check    # and ends with 1 where the promise is not kept

Promised: a season of 4,096 calls opens in under 0.1 s. That is SeasonFile.open: the file read under its lock, each line checked, all decimals read by the
library, and the list run again by its replay. The command has the start of Python besides, which is measured too.
"""

import argparse
import os
import random
import subprocess
import sys
import tempfile
import time
from pathlib import Path
from typing import Callable, List, Tuple

from stakebook import Book
from stakebook.season import SeasonFile
from stakebook.seasonfile import checked

CALLS = 4096
PROMISED = 100.0
STAKE = str(Path(__file__).resolve().parents[1] / "bin" / "stake")


def best(work: Callable[[], object], turns: int = 15) -> Tuple[float, float]:
    """The least time of one call, in milliseconds, by the clock and of the processor."""
    clock, processor = [], []
    for _ in range(turns):
        begun, used = time.perf_counter(), time.process_time()
        work()
        clock.append(time.perf_counter() - begun)
        processor.append(time.process_time() - used)
    return min(clock) * 1e3, min(processor) * 1e3


def season(path: str, changes: float) -> None:
    """A season of 4,096 single calls with sources and times; of them the given share are corrections and withdrawals of any readings."""
    rng = random.Random(1)
    SeasonFile.create(path)
    lines, names, given = [Path(path).read_bytes()], [], 0
    for place in range(3, 3 + CALLS):
        if names and rng.random() < changes:
            if rng.random() < 0.5:
                body = f'correct {rng.choice(names)} {rng.randrange(100000) / 100} note "read again"'
            else:
                body = f"withdraw {names.pop(rng.randrange(len(names)))}"
        else:
            given += 1
            names.append(f"r{given}")
            body = f'add r{given} {rng.randrange(2000) / 1000} {rng.randrange(100000) / 100} source "field book, page {given}"'
        lines.append(checked(f"{place} {body} at 2026-03-14T09:00:00Z".encode()))
    Path(path).write_bytes(b"".join(lines))


def imported(path: str) -> None:
    """A season of one import of 4,096 rows."""
    SeasonFile.create(path)
    lines = [Path(path).read_bytes(), checked(f'3 import {CALLS} x "depth" y "density" source "pit.csv"'.encode())]
    lines += [checked(f"{3 + i} row r{i} {i / 1000} {i * 7919 % 1000} line {i + 1}".encode()) for i in range(1, CALLS + 1)]
    Path(path).write_bytes(b"".join(lines))


def main() -> int:
    parser = argparse.ArgumentParser(description="How long a season takes to open.")
    parser.add_argument("--check", action="store_true", help="end with 1 where the promise is not kept")
    check = parser.parse_args().check
    kept = True
    with tempfile.TemporaryDirectory() as folder:
        path = os.path.join(folder, "s.stake")
        makers: List[Tuple[str, Callable[[], None]]] = [
            ("4,096 adds", lambda: season(path, 0.0)),
            ("4,096 calls, a tenth corrections and withdrawals", lambda: season(path, 0.1)),
            ("4,096 calls, a third corrections and withdrawals", lambda: season(path, 1 / 3)),
            ("an import of 4,096 rows", lambda: imported(path)),
        ]
        for words, make in makers:
            make()
            took, used = best(lambda: SeasonFile.open(path))
            calls = SeasonFile.open(path).calls
            replay = best(lambda: Book.replay(calls))[1]
            promised = "a third" not in words
            kept = kept and (took < PROMISED or not promised)
            print(f"{words}: {took:.1f} ms, {used:.1f} of the processor's, of which the replay has {replay:.1f}; {os.path.getsize(path) / 1e3:.0f} KB")
            os.unlink(path)
        season(path, 0.0)
        took = best(lambda: subprocess.run([sys.executable, STAKE, "list", path], stdout=subprocess.DEVNULL, check=True), 5)[0]
        print(f"`stake list` of 4,096 adds, with the start of Python: {took:.0f} ms")
    if check and not kept:
        print(f"the promise of {PROMISED:.0f} ms is not kept")
        return 1
    return 0


if __name__ == "__main__":
    sys.exit(main())
