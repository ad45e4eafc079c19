#!/usr/bin/env python3
"""What the Python module costs over the C library. The best of many turns, in microseconds.

    PYTHONPATH=python python3 python/bench.py            # measures, some seconds
    PYTHONPATH=python python3 python/bench.py --check    # and ends with 1 where a promise is not kept

Promised: a report at n 100 takes at most 50 us over the bare ctypes call of the same function with the same memory; 4,096 readings are
taken by `extend` in under 10 ms, and 4,096 adds by `replay` in under 20 ms.
"""

import argparse
import sys
import timeit
from array import array
from typing import Callable, List, Optional, Tuple

from stakebook import MOST, Book, Calls, Settings

SETTINGS = Settings(bound=3, criterion="aic")


def best(work: Callable[[], object], seconds: float = 0.5) -> float:
    """The least time of one call in microseconds: turns of about 2 ms each, for so many seconds."""
    once = max(timeit.timeit(work, number=1), 1e-7)
    number = max(1, int(0.002 / once))
    turns = max(5, int(seconds / (once * number)))
    return min(timeit.repeat(work, number=number, repeat=turns)) / number * 1e6


def readings(n: int) -> Tuple[List[float], List[float]]:
    """A bent line with something like noise."""
    xs = [i / n for i in range(n)]
    return xs, [200 + 100 * x - 20 * x * x + (i * 7919 % 101 - 50) / 10 for i, x in enumerate(xs)]


def book_of(n: int) -> Book:
    book = Book()
    book.extend(*readings(n))
    return book


def main() -> int:
    parser = argparse.ArgumentParser(description="What the Python module costs over the C library.")
    parser.add_argument("--check", action="store_true", help="end with 1 where a promise is not kept")
    check = parser.parse_args().check
    kept = True

    def line(what: str, took: float, most: Optional[float] = None) -> None:
        nonlocal kept
        said = ""
        if most is not None:
            said = f"   promised at most {most:.0f}" + ("" if took <= most else ": NOT KEPT")
            kept = kept and took <= most
        print(f"{what:<58}{took:>10.1f}{said}")

    print("microseconds, best of many")
    for n in (10, 100, 1000, MOST):
        book = book_of(n)
        bare, arguments = book._library.report_by, (n, *SETTINGS.codes.lists, *book._for_report)
        c, python = best(lambda: bare(*arguments)), best(lambda: book.report(SETTINGS))
        line(f"report at n {n}: the bare ctypes call", c)
        line(f"report at n {n}: Book.report", python)
        line(f"report at n {n}: Book.report over the bare call", python - c, 50 if n == 100 else None)

    book = book_of(100)
    line("fit of degree 1 at n 100", best(lambda: book.fit(1)))
    line("band at one x at n 100", best(lambda: book.band(0.5, 1, SETTINGS)))
    grid = [i / 500 for i in range(400)]
    line("band at 400 x at n 100", best(lambda: book.band(grid, 1, SETTINGS)))
    if book._library.scores is not None:
        line("scores at n 100", best(lambda: book.scores(SETTINGS)))

    line("an empty book", best(Book))
    xs, ys = readings(MOST)
    ws = [1.0 + i % 3 for i in range(MOST)]
    line(f"an empty book, and extend by {MOST} of two lists", best(lambda: Book().extend(xs, ys)), 10000)
    line(f"an empty book, and extend by {MOST} of three lists", best(lambda: Book().extend(xs, ys, ws)), 10000)
    columns = array("d", xs), array("d", ys), array("d", ws)
    line(f"an empty book, and extend by {MOST} of three arrays", best(lambda: Book().extend(*columns)), 10000)
    try:
        import numpy
    except ImportError:
        print("numpy is not there: its arrays are not measured")
    else:
        arrays = [numpy.array(column) for column in columns]
        line(f"an empty book, and extend by {MOST} of three numpy arrays", best(lambda: Book().extend(*arrays)), 10000)

    def one_by_one() -> None:
        book = Book()
        for x, y, w in zip(xs, ys, ws):
            book.add(x, y, w)

    line(f"an empty book, and {MOST} adds one by one", best(one_by_one))
    calls = Calls(("add", x, y, w) for x, y, w in zip(xs, ys, ws))
    line(f"replay of {MOST} adds", best(lambda: Book.replay(calls)), 20000)
    tuples = [("add", x, y, w) for x, y, w in zip(xs, ys, ws)]
    line(f"replay of {MOST} adds from tuples", best(lambda: Book.replay(tuples)), 20000)
    return 0 if kept or not check else 1


if __name__ == "__main__":
    sys.exit(main())
