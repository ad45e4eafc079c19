"""The Python module over the library that it finds (STAKEBOOK_LIBRARY, or `make`'s in the checkout).

    python3 python/tests/test_book.py

Expected numbers come from the judge (tests/*.answers, examples/c/season.answers), from exact least squares over fractions, from numpy's polyfit
where numpy is there, and from the definitions in include/stakebook.h; none from the module itself.
"""

import ast
import contextlib
import copy
import ctypes
import dataclasses
import doctest
import hashlib
import json
import math
import os
import pickle
import random
import re
import shutil
import signal
import statistics
import struct
import subprocess
import sys
import tempfile
import threading
import time
import types
import unittest
from array import array
from fractions import Fraction
from pathlib import Path

ROOT = Path(__file__).resolve().parents[2]
sys.path.insert(0, str(ROOT / "python"))

import stakebook
from stakebook import Book, Calls, DegreeScore, LibraryError, Refused, Report, Scores, Settings, _library, book as book_module, results, settings
from stakebook import Allowance, Surface, allowance as allowance_module, glacier as glacier_module, surface as surface_module

try:
    import numpy
except ImportError:
    numpy = None

NAN, INF = math.nan, math.inf
HAS_SCORES = _library.library().scores is not None
HAS_SURFACE = _library.library().surface_report is not None
HAS_GROUPS = _library.library().group_report is not None
HAS_SEASONS = _library.library().season_report is not None
PIT = [0.1, 0.3, 0.5, 0.7, 0.9, 1.1], [212, 240.5, 251, 287, 290, 322.5]


def book_of(xs, ys, weights=None, capacity=stakebook.MOST):
    book = Book(capacity)
    book.extend(xs, ys, weights)
    return book


def readings(n):
    """A bend with something like noise, which no two books share."""
    xs = [i / 8 for i in range(n)]
    return xs, [200 + 3 * x - 0.01 * x * x + (i * 7919 % 101 - 50) / 10 for i, x in enumerate(xs)]


def digest(*parts):
    """Of long bytes, since a failing test would print and compare them at length."""
    return hashlib.sha256(b"|".join(parts)).hexdigest()


def memory(book):
    """All memory of a book that lasts, bit for bit."""
    return book.count, digest(*(bytes(place) for place in (book._xs, book._ys, book._ws, book._sums)))


def state(book):
    """Its readings and sums, bit for bit."""
    return book.count, digest(book.bits())


def no_covariance():
    """Sums of someone else's, whose inverse fails: tests/season.calls."""
    book = book_of([0, 1, 2], [1, 3, 5])
    for place, field in ((0, "3CB0"), (1, "3E50"), (16, "BE5004"), (17, "BFF0"), (256, "3E60000002"), (257, "C000000002008")):
        book._sums[place] = number(field.ljust(16, "0"))
    return book


# ---- the judge's lists (docs/JOURNAL.md)


def bits(value):
    return "7FF8000000000000" if value != value else struct.pack(">d", value).hex().upper()


def number(field):
    return struct.unpack(">d", bytes.fromhex(field))[0]


def settings_of(fields):
    """BOUND CRITERION CONFIDENCE TOLERANCE, and PRUNING or none."""
    bound, most, criterion, confidence, score, tolerance, value = fields[:7]
    return Settings(
        bound=int(most) if bound == "custom" else bound,
        criterion=criterion,
        confidence=number(score) if confidence == "custom" else confidence.upper(),
        tolerance=None if tolerance == "none" else (tolerance, number(value)),
        pruning=fields[7] if len(fields) > 7 else "positive",
    )


class Player:
    """Runs the lines of a list by the module. Where a list lends or puts memory in a way that the module never does, the answers after it are
    left out, of a change until the next book is opened."""

    CHANGES = ("open", "add", "window", "correct", "withdraw", "frame", "lines", "carry")
    FIXED = dict(coefficients=16, errors=16, pruned=16, before=16, after=16)
    COUNTED = ("scratch", "lower", "upper", "outliers", "losses")
    WRITTEN = dict(
        fit=("scratch", "coefficients"),
        validate=("scratch", "coefficients"),
        band=("scratch",),
        report=("scratch", "coefficients", "errors", "pruned", "lower", "upper", "outliers"),
        losses=("scratch", "losses"),
        split=("scratch", "before", "after"),
    )

    def __init__(self):
        self.lent = dict(self.FIXED, sums=272, xs=4096, ys=4096, ws=4096, **{name: 4096 for name in self.COUNTED})
        self.book = None
        self.written = {}

    def made(self, capacity):
        """A book to play on, and so a copy of it."""
        return Book(capacity)

    def copied(self):
        return self.book.copy()

    def silent(self, word, *fields):
        """Lines that print nothing."""
        if word == "lent":
            self.lent[fields[0]] = int(fields[1])
        elif word == "count":
            self.book = None
        elif fields[0] in ("xs", "ys", "ws", "sums"):
            place = int(fields[1])
            if self.book is not None and place < (272 if fields[0] == "sums" else self.book.count):
                getattr(self.book, "_" + fields[0])[place] = number(fields[2])
        else:
            self.written.pop(fields[0], None)

    def lends(self, word):
        """Whether what is lent to a call is what the module would lend; the book gets the capacity that is lent."""
        if self.lent["sums"] < 272:
            return False
        capacity = min(self.lent["xs"], self.lent["ys"], self.lent["ws"], 4096)
        if word == "open":
            self.book = self.made(capacity)
        if self.book is None or self.book.count > capacity:
            return False
        if self.book.capacity != capacity:
            other = self.made(capacity)
            for to, of in zip(other._kept[1:], self.book._kept[1:]):
                to[: self.book.count] = of[: self.book.count]
            other._kept[0][:] = self.book._kept[0]
            other._count = self.book.count
            self.book = other
        return all(self.lent[name] >= self.FIXED.get(name, self.book.count) for name in self.WRITTEN.get(word, ()))

    def answer(self, fields, expected):
        """What the module answers to a line, or None where it can't be asked."""
        word = fields[0]
        if word == "show":
            return self.show(*fields[1:], expected)
        if not self.lends(word) or word in ("carry", "scores"):
            if not expected.startswith("refused"):
                self.written = {}
                if word in self.CHANGES:
                    self.book = None
            return None
        if word == "open":
            return "book 0"
        before = memory(self.book)
        try:
            return getattr(self, word)(*fields[1:])
        except Refused as refused:
            if before != memory(self.book):
                return f"refused {refused.number} and changed"
            return f"refused {refused.number}"

    def show(self, name, begin, end, expected):
        known = self.written.get(name)
        if name in ("xs", "ys", "ws", "sums"):
            known = None if self.book is None else [bits(value) for value in getattr(self.book, "_sums" if name == "sums" else name)]
        if known is None:
            return None
        places = expected.split(" ")[1:]
        shown = known[int(begin) : int(end)]
        return " ".join([name] + shown + places[len(shown) :]) if shown else None

    def write(self, **lists):
        for name, values in lists.items():
            if name in ("coefficients", "errors", "before", "after"):
                values = values + [0.0] * (16 - len(values))
            if name == "pruned":
                values = values + [False] * (16 - len(values))
            old = self.written.get(name, [])
            new = [str(int(value)) if name in ("pruned", "outliers") else bits(value) for value in values]
            self.written[name] = new + old[len(new) :]

    def add(self, x, y, weight=None):
        return f"book {self.book.add(number(x), number(y), *([] if weight is None else [number(weight)]))}"

    def window(self, x, y, weight=None):
        return f"book {self.book.add_window(number(x), number(y), *([] if weight is None else [number(weight)]))}"

    def correct(self, i, y):
        return f"book {self.book.correct(int(i), number(y))}"

    def withdraw(self, i):
        return f"book {self.book.withdraw(int(i))}"

    def frame(self, text=""):
        """By `add_frame`; and where it is a frame, by `extend` too, which must leave the same."""
        frame = bytes.fromhex(text)
        other = self.copied()
        try:
            answer = f"book {self.book.add_frame(frame)}"
        except Refused as refused:
            if refused.number in (2, 3):
                raise
            answer = f"refused {refused.number}"
        width = {1: 2, 2: 3}[frame[2]]
        numbers = struct.unpack(f">{(len(frame) - 3) // 8}d", frame[3:])
        try:
            extended = f"book {other.extend(*(numbers[i::width] for i in range(width)))}"
        except Refused as refused:
            extended = f"refused {refused.number}"
        if extended != answer or state(other) != state(self.book):
            return f"{answer}, but {extended} by extend"
        return answer

    def lines(self, text=""):
        return f"book {self.book.add_lines(bytes.fromhex(text))}"

    def fit(self, degree):
        fit = self.book.fit(int(degree))
        self.write(coefficients=fit.coefficients)
        return f"fit {fit.degree}"

    def validate(self, folds, *fields):
        validation = self.book.validate(int(folds), settings_of([*fields, "p95", "0" * 16, "none", "0" * 16]))
        self.write(coefficients=validation.coefficients)
        return f"fit {validation.degree}"

    def band(self, x, degree, *fields):
        asked = settings_of(["custom", "0", "aic", *fields])
        band = self.book.band(number(x), int(degree), asked)
        if repr(self.book.band([number(x)] * 2, int(degree), asked)) != repr([band, band]):
            return "many bands are not each one's"
        return f"band {bits(band.value)} {bits(band.lower)} {bits(band.upper)}"

    def report(self, *fields):
        report = self.book.report(settings_of(fields))
        self.write(coefficients=report.coefficients, errors=report.errors, pruned=report.pruned)
        self.write(lower=report.lower, upper=report.upper, outliers=report.outliers)
        return f"report {report.degree} {report.solved} {sum(report.outliers)} {sum(report.pruned)}"

    def losses(self, *fields):
        losses = self.book.losses(settings_of(fields))
        self.write(losses=losses.losses)
        return f"losses {losses.degree} {bits(losses.total)} {bits(losses.score)}"

    def split(self, limit, *fields):
        split = self.book.split(settings_of(fields), int(limit))
        self.write(before=split.before, after=split.after)
        return f"split {split.at} {split.degree_before} {split.degree_after} {split.tests} {bits(split.total)}"


class Judged(unittest.TestCase):
    """The module answers as the judge did when it was asked the same, bit for bit, and a refused change leaves every place of the memory."""

    player = Player

    def play(self, calls, least):
        answers = iter(calls.with_suffix(".answers").read_text().splitlines())
        player, compared, said = self.player(), 0, None
        for at, line in enumerate(calls.read_bytes().decode("latin-1").split("\n"), 1):
            if line == "" or line.startswith("#"):
                continue
            fields = line.split(" ")
            said = next(answers, "") if said is None else said
            if said.startswith(f"line {at}: "):
                said = None
            elif fields[0] in ("lent", "put", "count"):
                player.silent(*fields)
            else:
                answer = player.answer(fields, said)
                if answer is not None:
                    self.assertEqual(said, answer, f"{calls.name}, line {at}: {line[:80]}")
                    compared += 1
                said = None
        self.assertIsNone(next(answers, None))
        self.assertGreaterEqual(compared, least)
        return player


# each list with the answers that were compared when this was written, less a few
for _path, _least in (
    ("examples/c/season", 65),
    ("tests/season", 280),
    ("tests/edges", 2400),
    ("tests/lines", 300),
    ("tests/weights", 950),
    ("tests/windows", 430),
    ("tests/losses", 200),
    ("tests/split", 420),
    ("tests/fixed", 4000),
):

    def _test(self, path=_path, least=_least):
        self.play(ROOT / f"{path}.calls", least)

    setattr(Judged, "test_" + _path.replace("/", "_"), _test)


class Header(unittest.TestCase):
    """What is declared here is what the header declares."""

    text = re.sub(r"/\*.*?\*/", "", (ROOT / "include" / "stakebook.h").read_text(), flags=re.S)

    def test_arguments(self):
        kinds = {"size_t": ctypes.c_size_t, "uint32_t": ctypes.c_uint32, "double": ctypes.c_double}
        found = {}
        for name, arguments in re.findall(r"^uint64_t stakebook_(\w+)\(([^)]*)\);", self.text, flags=re.M):
            types_of = []
            for argument in arguments.split(","):
                words = argument.replace("const ", "").split()
                types_of.append(ctypes.c_void_p if "*" in argument else kinds[words[0]])
            found[name] = types_of
        for name, arguments in _library.DECLARED.items():
            if name in found or name not in _library.LATER:
                self.assertEqual(found[name], arguments, name)

    def test_numbers(self):
        defined = {name: int(value) for name, value in re.findall(r"^#define STAKEBOOK_(\w+) (\d+)$", self.text, flags=re.M)}
        self.assertEqual(
            (_library.SUMS, _library.TERMS, _library.BAND, _library.LOSSES, _library.MOST),
            tuple(defined[name] for name in ("SUMS", "TERMS", "BAND", "LOSSES", "MOST")),
        )
        self.assertEqual((_library.GROUPS, _library.TABLE), (defined["GROUPS"], defined["TABLE"]))
        if "stakebook_season_open(" in self.text:
            self.assertEqual(_library.STAKES, defined["STAKES"])
        for table in (settings._BOUNDS, settings._CRITERIA, settings._CONFIDENCES, settings._TOLERANCES):
            for name, value in table.items():
                self.assertEqual(defined[name.upper()], value)
        self.assertEqual(settings._CUSTOM_DEGREE, defined["CUSTOM_DEGREE"])
        self.assertEqual(settings._CUSTOM_SCORE, defined["CUSTOM_SCORE"])
        self.assertEqual(settings._NO_TOLERANCE, defined["NO_TOLERANCE"])
        self.assertEqual(settings._PRUNINGS, {"positive": defined["POSITIVE"], "size": defined["BY_SIZE"]})

    def test_words(self):
        """The words are those of include/refusals.txt, in its order, each refusal once."""
        lines = (ROOT / "include" / "refusals.txt").read_text("utf-8").splitlines()
        self.assertEqual([f"{number}\t{words}" for number, words in stakebook.WORDS.items()], lines)
        self.assertEqual(sorted(stakebook.WORDS), [*range(1, 19), 255])
        self.assertEqual(list(stakebook.WORDS)[:10], [18, 1, 17, 2, 3, 13, 14, 4, 15, 5])

    def test_words_of_a_later_library(self):
        self.assertIn("no words", Refused(99).words)


class Refusals(unittest.TestCase):
    """Each refusal that can be reached comes with its number and words, and leaves the book as it was. 1 can't be: all memory is the book's own
    and long enough. 255 can't either: the lists that `replay` makes are well formed."""

    def refused(self, number, call, *books):
        before = [memory(book) for book in books]
        with self.assertRaises(Refused) as caught:
            call()
        self.assertEqual(caught.exception.number, number)
        self.assertEqual(caught.exception.words, stakebook.WORDS[number])
        self.assertEqual(str(caught.exception), f"refused by {number}: {stakebook.WORDS[number]}")
        self.assertEqual([memory(book) for book in books], before)

    def test_frames(self):
        book = book_of(*PIT)
        self.refused(2, lambda: book.add_frame(b""), book)
        self.refused(2, lambda: book.add_frame(b"\x00\x02\x01"), book)
        self.refused(3, lambda: book.add_frame(b"\x00\x01\x03"), book)

    def test_lines(self):
        book = book_of(*PIT)
        for text in ("1 2", "1,5 2\n", "1 2\r\n", "1 2\n\n", "1 2é\n", "1 2\ud800\n", b"1 \xff\n", "1 2\n1 2\n1\n"):
            self.refused(13, lambda: book.add_lines(text), book)
        self.refused(14, lambda: book.add_lines("1 1234567890123456\n"), book)
        self.refused(14, lambda: book.add_lines("1 0.00000000000000000000001\n"), book)

    def test_not_finite(self):
        book = book_of(*PIT)
        for value in (NAN, INF, -INF):
            self.refused(4, lambda: book.add(value, 1), book)
            self.refused(4, lambda: book.add(1, value), book)
            self.refused(4, lambda: book.add(1, 1, value), book)
            self.refused(4, lambda: book.add_window(value, 1), book)
            self.refused(4, lambda: book.extend([1, value], [1, 1]), book)
            self.refused(4, lambda: book.extend([1, 1], [1, 1], [1, value]), book)
            self.refused(4, lambda: book.correct(0, value), book)
            self.refused(4, lambda: book.band(value, 1), book)
            for asked in (Settings(bound=1, confidence=value), Settings(bound=1, tolerance=("variance", value))):
                self.refused(4, lambda: book.report(asked), book)
                self.refused(4, lambda: book.losses(asked), book)
                self.refused(4, lambda: book.split(asked), book)
                self.refused(4, lambda: book.band(0.5, 1, asked), book)

    def test_weights(self):
        book = book_of(*PIT)
        for weight in (0, -0.0, -1, -5e-324):
            self.refused(15, lambda: book.add(1, 1, weight), book)
            self.refused(15, lambda: book.add_window(1, 1, weight), book)
            self.refused(15, lambda: book.extend([1, 1], [1, 1], [1, weight]), book)
        self.refused(4, lambda: book.extend([1, NAN], [1, 1], [0, 1]), book)

    def test_capacity(self):
        book = book_of([1, 2], [1, 2], capacity=3)
        self.refused(5, lambda: book.extend([3, 4], [3, 4]), book)
        self.refused(5, lambda: book.add_lines("3 3\n4 4\n"), book)
        self.assertEqual(book.add(3, 3), 3)
        self.refused(5, lambda: book.add(4, 4), book)
        self.assertEqual(book.add_window(4, 4), 3)
        self.assertEqual(book.xs, [2, 3, 4])
        none = Book(capacity=0)
        self.refused(5, lambda: none.add_window(1, 1), none)
        self.assertEqual((none.extend([], []), none.xs, any(none.bits())), (0, [], False))

    def test_index(self):
        book = book_of(*PIT)
        for i in (6, 7, 4096, 2**32, 2**64 - 1):
            self.refused(6, lambda: book.correct(i, 1), book)
            self.refused(6, lambda: book.withdraw(i), book)

    def test_too_few(self):
        book = Book()
        asked = Settings(bound=0)
        for call in (lambda: book.fit(0), lambda: book.report(asked), lambda: book.losses(asked), lambda: book.split(asked)):
            self.refused(7, call, book)
        self.refused(7, lambda: book.band(0, 0), book)
        book.extend([1, 2, 3], [1, 2, 3])
        self.refused(7, lambda: book.split(asked), book)
        for folds in (0, 1, 4, 2**64 - 1):
            self.refused(7, lambda: book.validate(folds, asked), book)

    def test_degrees(self):
        book = book_of(range(20), range(20))
        for degree in (16, 20, 2**64 - 1):
            self.refused(8, lambda: book.fit(degree), book)
            self.refused(8, lambda: book.band(1, degree), book)
        # a degree that fills more than the library's word is still above 15
        for bound in (16, 2**32, 2**32 + 1, 2**64 - 1):
            for call in (book.report, book.losses, book.split, lambda asked: book.validate(2, asked)):
                self.refused(8, lambda: call(Settings(bound=bound)), book)

    def test_outside(self):
        book = book_of(*PIT)
        self.refused(9, lambda: book.band(1.2, 1), book)
        self.refused(9, lambda: book.band([0.5, 0.05, 0.6], 1), book)

    def test_unsolved(self):
        book = book_of(range(2000, 2021), [(i * 37 % 11) for i in range(21)])
        self.refused(10, lambda: book.fit(3), book)
        self.refused(10, lambda: book.band(2010, 3), book)

    def test_limit(self):
        book = book_of(range(8), [0, 1.1, 1.9, 3.05, 2.95, 2.1, 0.9, 0.02])
        asked = Settings(bound=1, criterion="aic")
        self.refused(16, lambda: book.split(asked, limit=29), book)
        self.assertEqual(book.split(asked, limit=30), book.split(asked))

    def test_no_degree(self):
        book = book_of([0] * 4, [sys.float_info.max] * 4)
        asked = Settings(bound=1, criterion="aic")
        for call in (book.report, book.losses, book.split, lambda asked: book.validate(2, asked)):
            self.refused(11, lambda: call(asked), book)

    def test_no_covariance(self):
        book = no_covariance()
        self.assertEqual(book.fit(1).degree, 1)
        asked = Settings(bound=1, criterion="aic")
        self.refused(12, lambda: book.report(asked), book)
        self.refused(12, lambda: book.losses(asked), book)
        self.refused(12, lambda: book.band(1, 1), book)

    def test_pickled(self):
        again = pickle.loads(pickle.dumps(Refused(6)))
        self.assertEqual((again.number, again.words, str(again)), (6, stakebook.WORDS[6], str(Refused(6))))


class Asked(unittest.TestCase):
    """What the library can't be asked at all is an error of Python's."""

    def test_names(self):
        for wrong in (
            dict(bound="loose"), dict(bound=1.0), dict(bound=True), dict(bound=None), dict(bound=-1), dict(bound=2**64),
            dict(criterion="AIC"), dict(criterion=None), dict(confidence="P97"), dict(confidence=None), dict(confidence=True),
            dict(tolerance="absolute"), dict(tolerance=("some", 1)), dict(tolerance=("absolute",)), dict(tolerance=(None, 1)),
            dict(pruning="none"), dict(pruning=None),
        ):  # fmt: skip
            with self.assertRaises(ValueError, msg=str(wrong)):
                Settings(**wrong)
        with self.assertRaisesRegex(ValueError, "bound is one of 'conservative', 'relaxed', 'aggressive' or a degree, not 'loose'"):
            Settings(bound="loose")

    def test_numbers(self):
        self.assertEqual(Settings(confidence=2).confidence, 2.0)
        self.assertEqual(Settings(tolerance=["absolute", 5]).tolerance, ("absolute", 5.0))
        self.assertEqual(Settings(confidence=Fraction(5, 2)), Settings(confidence=2.5))
        self.assertEqual(hash(Settings(bound=3)), hash(Settings(bound=3)))

    @unittest.skipIf(numpy is None, "numpy is not there")
    def test_numpy_numbers(self):
        made = Settings(bound=numpy.int32(3), confidence=numpy.float32(2.5), tolerance=("variance", numpy.float64(0.5)))
        self.assertEqual(made, Settings(bound=3, confidence=2.5, tolerance=("variance", 0.5)))
        self.assertEqual([type(made.bound), type(made.confidence), type(made.tolerance[1])], [int, float, float])
        book = book_of(*PIT)
        self.assertEqual(book.fit(numpy.int64(1)), book.fit(1))
        self.assertEqual(book.band(numpy.float64(0.5), 1), book.band(0.5, 1))
        self.assertEqual(book.band(numpy.array(0.5), 1), book.band(0.5, 1))
        self.assertEqual(book.band(numpy.array([0.5, 0.75]), 1), [book.band(0.5, 1), book.band(0.75, 1)])

    def test_copies(self):
        """Settings are copied and sent between processes with the lists that the library reads."""
        made = Settings(bound=2, criterion="aic", confidence=1.5, tolerance=("absolute", 3))
        book = book_of(*PIT)
        for other in (copy.copy(made), copy.deepcopy(made), pickle.loads(pickle.dumps(made)), dataclasses.replace(made)):
            self.assertEqual(other, made)
            self.assertEqual(book.report(other), book.report(made))
        self.assertNotEqual(book.report(dataclasses.replace(made, tolerance=None)).lower, book.report(made).lower)

    def test_whole_numbers(self):
        book = book_of(*PIT)
        before = memory(book)
        for wrong in (-1, 2**64, 2**64 + 1):
            for call in (
                lambda: book.withdraw(wrong), lambda: book.correct(wrong, 1), lambda: book.fit(wrong), lambda: book.band(0.5, wrong),
                lambda: book.validate(wrong), lambda: book.split(limit=wrong), lambda: Book(wrong), lambda: Calls().withdraw(wrong),
            ):  # fmt: skip
                self.assertRaises(ValueError, call)
        self.assertRaises(TypeError, lambda: book.withdraw(1.0))
        self.assertRaises(TypeError, lambda: book.fit("1"))
        self.assertRaises(ValueError, lambda: Book(4097))
        self.assertEqual(Book(4096).capacity, 4096)
        self.assertEqual(memory(book), before)

    def test_text_is_no_number(self):
        book = Book()
        for call in (
            lambda: book.add("1", 2), lambda: book.add(1, b"2"), lambda: book.add(1, None), lambda: book.extend("12", [1, 2]),
            lambda: book.extend(["1"], [2]), lambda: book.extend(bytes(8), [0]), lambda: book.band("1", 0), lambda: book.band(["1"], 0),
            lambda: Calls([("add", "1", 2)]),
        ):  # fmt: skip
            self.assertRaises(TypeError, call)
        self.assertEqual(book.count, 0)


class Extend(unittest.TestCase):
    """`extend` is that many adds, or nothing."""

    def one_by_one(self, xs, ys, ws):
        book = Book()
        for sample in zip(xs, ys, ws):
            book.add(*sample)
        return book

    def test_kinds(self):
        xs, ys, ws = [0.5, 1.25, -2, 3], [1, 2.5, 4, -8], [1, 0.5, 2, 4]
        expected = state(self.one_by_one(xs, ys, ws))
        for kind in (list, tuple, iter, lambda v: (each for each in v), lambda v: array("d", v), lambda v: array("f", v),
                     lambda v: memoryview(array("d", v)), lambda v: dict.fromkeys(v), lambda v: [Fraction(each) for each in v]):  # fmt: skip
            book = Book()
            self.assertEqual(book.extend(kind(xs), kind(ys), kind(ws)), 4)
            self.assertEqual(state(book), expected)
        self.assertEqual(state(book_of(xs, ys)), state(self.one_by_one(xs, ys, [1] * 4)))
        self.assertEqual(book_of(range(4), array("b", [1, 2, 3, 4])).ys, [1, 2, 3, 4])
        self.assertEqual(Book().extend([], []), 0)
        self.assertEqual(Book().extend([], [], []), 0)

    @unittest.skipIf(numpy is None, "numpy is not there")
    def test_numpy(self):
        xs, ys, ws = [0.5, 1.25, -2, 3], [1, 2.5, 4, -8], [1, 0.5, 2, 4]
        expected = state(self.one_by_one(xs, ys, ws))
        table = numpy.array([xs, ys, ws])
        frozen = numpy.array(table)
        frozen.flags.writeable = False
        for rows in (table, numpy.asfortranarray(table), numpy.repeat(table, 2, axis=1)[:, ::2], table[:, ::-1][:, ::-1], table.astype("f4"),
                     table.astype(">f8"), table.astype(object), frozen, numpy.ma.array(table)):  # fmt: skip
            self.assertEqual(state(book_of(*rows)), expected)
        self.assertEqual(book_of(numpy.arange(4), numpy.array([1, 2, 3, 4], "u1")).ys, [1, 2, 3, 4])
        # doubles are read where they stand, in any stride
        for column in (table[0], table.T[:, 0], numpy.repeat(table[0], 2)[::2], frozen[1]):
            view = book_module._column(column)
            self.assertIs(view.obj, column)
            self.assertEqual(view.tolist(), column.tolist())
        # a masked reading is not one: it is not a number, whatever stands behind the mask
        masked = numpy.ma.array(xs, mask=[0, 1, 0, 0])
        book = Book()
        with self.assertRaises(Refused) as caught, self.assertWarns(UserWarning):
            book.extend(masked, ys)
        self.assertEqual((caught.exception.number, book.count), (4, 0))
        self.assertRaises(ValueError, lambda: book.extend(table, table))
        self.assertRaises(ValueError, lambda: book.extend(numpy.array(1.0), ys))
        self.assertRaises(TypeError, lambda: book.extend(numpy.array(["2020-01-01"] * 4, "M8[D]"), ys))
        self.assertEqual(book.count, 0)

    def test_lengths(self):
        book = book_of(*PIT)
        before = memory(book)
        self.assertRaises(ValueError, lambda: book.extend([1, 2], [1]))
        self.assertRaises(ValueError, lambda: book.extend([1, 2], [1, 2], [1]))
        self.assertEqual(memory(book), before)

    def test_more_than_a_frame(self):
        """One frame holds 4,095 readings, or 2,730 with weights."""
        xs, ys = readings(4096)
        ws = [1 + i % 5 / 4 for i in range(4096)]
        for n in (2729, 2730, 2731, 4095, 4096):
            self.assertEqual(state(book_of(xs[:n], ys[:n])), state(self.one_by_one(xs[:n], ys[:n], [1] * n)))
            self.assertEqual(state(book_of(xs[:n], ys[:n], ws[:n])), state(self.one_by_one(xs[:n], ys[:n], ws[:n])))

    def test_refused_beyond_a_frame(self):
        """The refusal is that of a single frame of all, 4 before 15 before 5, and what went before is taken back."""
        book = book_of(*PIT)
        before = state(book)

        def number_of(n, **wrong):
            xs, ys = readings(n)
            ws = [1.0] * n
            for name, (place, value) in wrong.items():
                dict(x=xs, y=ys, w=ws)[name][place] = value
            with self.assertRaises(Refused) as caught:
                book.extend(xs, ys, ws)
            self.assertEqual((state(book), book.count), (before, 6))
            return caught.exception.number

        self.assertEqual(number_of(4091), 5)
        self.assertEqual(number_of(20000), 5)
        self.assertEqual(number_of(4000, y=(3999, NAN)), 4)
        self.assertEqual(number_of(4000, w=(3999, 0)), 15)
        self.assertEqual(number_of(4000, y=(3999, NAN), w=(0, 0)), 4)
        self.assertEqual(number_of(4000, y=(0, NAN), w=(3999, 0)), 4)
        self.assertEqual(number_of(9000, w=(8999, 0)), 15)
        self.assertEqual(number_of(9000, w=(0, 0), y=(8999, INF)), 4)
        xs, ys = readings(4090)
        self.assertEqual(book.extend(xs, ys, [1.0] * 4090), 4096)
        self.assertEqual(state(book), state(self.one_by_one(PIT[0] + xs, PIT[1] + ys, [1] * 4096)))


class Changes(unittest.TestCase):
    def test_hand(self):
        book = Book()
        self.assertEqual([book.add(1, 2), book.add(3, 4, 2), book.add(5, 6, weight=0.5)], [1, 2, 3])
        self.assertEqual(book.correct(1, 40), 3)
        self.assertEqual(book.withdraw(0), 2)
        self.assertEqual((book.count, len(book), book.xs, book.ys, book.ws), (2, 2, [3, 5], [40, 6], [2, 0.5]))
        self.assertEqual(book.add_lines("0.25 -212.5\n-0 7\n"), 4)
        self.assertEqual(book.add_lines(b"1 1\n"), 5)
        self.assertEqual(book.add_lines(""), 5)
        self.assertEqual((book.xs[2:], book.ys[2:], book.ws[2:]), ([0.25, -0.0, 1], [-212.5, 7, 1], [1, 1, 1]))
        self.assertEqual(math.copysign(1, book.xs[3]), -1)
        # A has the weights' sum, that of x times weight, ..; g, behind it, that of y times weight
        self.assertEqual((book.sums[0], book.sums[1], book.sums[256]), (5.5, 9.75, 80 + 3 - 212.5 + 7 + 1))
        self.assertEqual(repr(book), "<Book: 5 of 4096 readings>")

    def test_copies(self):
        book = book_of(*PIT)
        for other in (book.copy(), copy.copy(book), copy.deepcopy(book)):
            self.assertEqual((state(other), other.capacity), (state(book), book.capacity))
            before = memory(book)
            other.withdraw(0)
            self.assertEqual(memory(book), before)
            book.add(1, 1)
            self.assertEqual(other.count, 5)
            book.withdraw(6)
        self.assertRaises(TypeError, lambda: pickle.dumps(book))

    def test_bits(self):
        one, other = book_of(*PIT), book_of(*PIT)
        self.assertEqual(one.bits(), other.bits())
        other.correct(0, 211)
        self.assertNotEqual(one.bits(), other.bits())
        other.correct(0, 212)
        self.assertEqual(one.bits(), other.bits())
        self.assertNotEqual(book_of([0], [0.0]).bits(), book_of([0], [-0.0]).bits())

    def test_columns(self):
        book = book_of(*PIT)
        xs, ys, ws = book.columns()
        self.assertEqual((list(xs), list(ys), list(ws)), (PIT[0], PIT[1], [1] * 6))
        book.correct(2, 255)
        self.assertEqual(ys[2], 255)
        with self.assertRaises((TypeError, ValueError)):
            ys[2] = 3
        if numpy is not None:
            self.assertIsInstance(ys, numpy.ndarray)
            self.assertEqual(ys.ctypes.data, book._ys.buffer_info()[0])
        del book
        self.assertEqual(ys[2], 255)
        self.assertEqual([len(column) for column in Book(0).columns()], [0, 0, 0])

    def test_interrupt(self):
        """Ctrl-C in a change is raised behind the library's call; the change is taken back."""

        class Interrupting:
            def __init__(self, library, leave):
                self.library, self.leave = library, leave

            def __getattr__(self, name):
                function = getattr(self.library, name)

                def call(*arguments):
                    answer = function(*arguments)
                    self.leave -= 1
                    if self.leave < 0:
                        raise KeyboardInterrupt
                    return answer

                return call

        xs, ys = readings(3000)
        for change, leave in (
            (lambda book: book.add(3, 1), 0), (lambda book: book.extend([3], [1]), 0), (lambda book: book.add_lines("3 1\n"), 0),
            (lambda book: book.extend(xs, ys, [1.0] * 3000), 1), (lambda book: book.correct(0, 1), 0),
            (lambda book: book.withdraw(0), 0), (lambda book: book.add_window(3, 1), 0),
        ):  # fmt: skip
            for capacity in (6, 4096):
                book = book_of(*PIT, capacity=capacity)
                before = state(book)
                real, book._library = book._library, Interrupting(book._library, leave)
                if capacity == 4096 or leave == 0:
                    self.assertRaises(KeyboardInterrupt, change, book)
                self.assertEqual((state(book), book.count), (before, 6))
                book._library = real
                self.assertEqual(book.withdraw(0), 5)


    def test_signals(self):
        """The same by real signals, wherever they hit: the sums are always those of the readings."""

        class Stop(Exception):
            pass

        def stop(*_):
            raise Stop

        rng, book, hits = random.Random(1), Book(300), 0
        before, end = signal.signal(signal.SIGALRM, stop), time.monotonic() + 0.5
        try:
            while time.monotonic() < end:
                try:
                    signal.setitimer(signal.ITIMER_REAL, rng.uniform(2e-5, 4e-4))
                    while True:
                        try:
                            book.add(rng.random(), rng.random())
                            book.extend([rng.random(), 2.0], [1.0, 2.0])
                            book.correct(rng.randrange(200), rng.random())
                            book.add_window(rng.random(), rng.random())
                            book.withdraw(rng.randrange(200))
                        except Refused:
                            book.withdraw(0)
                except Stop:
                    hits += 1
                again, _ = Book.replay(("add", *sample) for sample in zip(book.xs, book.ys, book.ws))
                self.assertEqual((again.count, state(again)), (book.count, state(book)))
        finally:
            signal.signal(signal.SIGALRM, before)
        self.assertGreater(hits, 20)


class Replay(unittest.TestCase):
    """A replayed list leaves the book, and has the answers, of the same calls one by one."""

    def one_by_one(self, calls, capacity):
        book, answers = Book(capacity), []
        for name, *arguments in calls:
            try:
                answers.append((0, getattr(book, name)(*arguments)))
            except Refused as refused:
                answers.append((refused.number, 0))
        return book, answers

    def compare(self, calls, capacity=4096):
        expected, answers = self.one_by_one(calls, capacity)
        book, replayed = Book.replay(calls, capacity)
        self.assertEqual(len(replayed), len(answers))
        self.assertEqual([(i, *both) for i, both in enumerate(zip(replayed, answers)) if both[0] != both[1]][:3], [])
        self.assertEqual((book.count, book.capacity, state(book)), (expected.count, capacity, state(expected)))
        return book, replayed

    def test_random(self):
        seen = set()
        for seed in range(40):
            rng = random.Random(seed)
            calls = []
            for _ in range(rng.choice((0, 1, 5, 200))):
                i, y = rng.randrange(12), rng.choice((rng.uniform(-9, 9), rng.uniform(-9, 9), rng.uniform(-9, 9), NAN, -0.0))
                calls.append(
                    rng.choice(
                        (("add", rng.uniform(0, 5), y, rng.choice((1, 0.5, 2, 0))), ("add", i, y), ("correct", i, y), ("withdraw", i))
                    )
                )
            _, replayed = self.compare(calls, rng.choice((0, 1, 9, 4096)))
            seen.update(each.refusal for each in replayed)
        self.assertEqual(seen, {0, 4, 15, 5, 6})

    def test_long(self):
        xs, ys = readings(4096)
        calls = [("add", x, y, 1 + i % 3) for i, (x, y) in enumerate(zip(xs, ys))]
        book, replayed = self.compare(calls)
        self.assertEqual(replayed[-1], (0, 4096))
        self.assertEqual(state(book), state(book_of(xs, ys, [1 + i % 3 for i in range(4096)])))
        # a list may be longer than a book
        book, replayed = Book.replay(calls + [("add", 1, 1), ("withdraw", 4095), ("add", 1, 1)])
        self.assertEqual(replayed[-3:], [(5, 0), (0, 4095), (0, 4096)])
        self.assertEqual((book.count, book.xs[-1]), (4096, 1))

    def test_goes_on(self):
        """The book is one like others afterwards."""
        book, _ = Book.replay([("add", x, y) for x, y in zip(*PIT)], capacity=7)
        self.assertEqual(book.report(Settings(bound=2)), book_of(*PIT).report(Settings(bound=2)))
        self.assertEqual((book.add(2, 400), book.add_window(3, 500)), (7, 7))

    def test_wrong(self):
        self.assertRaises(ValueError, lambda: Book.replay([("report",)]))
        self.assertRaises(ValueError, lambda: Book.replay([("withdraw", -1)]))
        self.assertRaises(TypeError, lambda: Book.replay([("add", 1)]))
        self.assertEqual(Book.replay([])[1], [])


class LeastSquares(unittest.TestCase):
    """Curves against least squares from elsewhere."""

    samples = [(0.1, 212, 1), (0.3, 240.5, 2), (0.5, 251, 1), (0.75, 278, 0.5), (1, 290, 1), (1.25, 322.5, 3), (1.5, 331, 1), (2, 349.5, 0.25)]

    def exact(self, degree):
        """The weighted normal equations over fractions."""
        k = degree + 1
        rows = [[Fraction(0)] * (k + 1) for _ in range(k)]
        for x, y, w in self.samples:
            x, y, w = Fraction(x), Fraction(y), Fraction(w)
            for i in range(k):
                for j in range(k):
                    rows[i][j] += w * x ** (i + j)
                rows[i][k] += w * x**i * y
        for i in range(k):
            pivot = rows[i][i]
            rows[i] = [place / pivot for place in rows[i]]
            for other in range(k):
                if other != i:
                    rows[other] = [a - rows[other][i] * b for a, b in zip(rows[other], rows[i])]
        return [float(row[k]) for row in rows]

    def test_exact(self):
        book = book_of(*zip(*self.samples))
        for degree in range(5):
            fit = book.fit(degree)
            self.assertEqual((fit.n, fit.degree, len(fit.coefficients)), (8, degree, degree + 1))
            for ours, exact in zip(fit.coefficients, self.exact(degree)):
                self.assertAlmostEqual(ours, exact, delta=1e-8 * abs(exact))

    @unittest.skipIf(numpy is None, "numpy is not there")
    def test_polyfit(self):
        """numpy's weights multiply the residuals, and so are the roots of ours."""
        xs, ys, ws = (numpy.array(column, float) for column in zip(*self.samples))
        for degree in range(5):
            theirs = numpy.polyfit(xs, ys, degree, w=numpy.sqrt(ws))[::-1]
            numpy.testing.assert_allclose(book_of(xs, ys, ws).fit(degree).coefficients, theirs, rtol=1e-7)

    @unittest.skipIf(numpy is None, "numpy is not there")
    def test_errors_and_bands(self):
        """With weight 1 the errors are the usual ones: numpy's covariance, scaled by the residuals over n - k; a band is its z score about the value."""
        xs, ys, _ = (numpy.array(column, float) for column in zip(*self.samples))
        book = book_of(xs, ys)
        report = book.report(Settings(bound=1, criterion="aic", confidence=2))
        self.assertEqual(report.degree, 1)
        theirs, covariance = numpy.polyfit(xs, ys, 1, cov=True)
        numpy.testing.assert_allclose(report.coefficients, theirs[::-1], rtol=1e-9)
        numpy.testing.assert_allclose(report.errors, numpy.sqrt(numpy.diag(covariance))[::-1], rtol=1e-9)
        numpy.testing.assert_allclose(report.t, numpy.abs(report.coefficients) / report.errors, rtol=1e-15)
        powers = numpy.vander(xs, 2)
        half = 2 * numpy.sqrt(numpy.einsum("ni,ij,nj->n", powers, covariance, powers))
        numpy.testing.assert_allclose(report.lower, powers @ theirs - half, rtol=1e-9)
        numpy.testing.assert_allclose(report.upper, powers @ theirs + half, rtol=1e-9)
        self.assertEqual(report.outliers, [bool(y < l or y > u) for y, l, u in zip(ys, report.lower, report.upper)])
        bands = book.band(xs, 1, Settings(confidence=2))
        self.assertEqual([band.lower for band in bands], report.lower)
        self.assertEqual([band.upper for band in bands], report.upper)
        numpy.testing.assert_allclose([band.value for band in bands], powers @ theirs, rtol=1e-9)


def losses_of(xs, ys, coefficients):
    """The Huber losses about a curve, as include/stakebook.h has them: the scale is 1.345 times the median of the sizes' distances from theirs."""
    sizes = [abs(y - sum(c * x**i for i, c in enumerate(coefficients))) for x, y in zip(xs, ys)]
    middle = statistics.median(sizes)
    delta = 1.345 * statistics.median(abs(size - middle) for size in sizes)
    return [size * size / 2 if size <= delta else delta * (size - delta / 2) for size in sizes]


def score_of(losses, k, criterion):
    """AIC or BIC of a curve with k coefficients and these losses."""
    n = len(losses)
    fitted = n * math.log(max(sum(losses) / n, 2.0**-52))
    if criterion == "bic":
        return fitted + k * math.log(n)
    further = 2 * k * (k + 1) / (n - k - 1) if n / k < 4 and n > k + 1 else 0
    return fitted + 2 * k + further


class Scored(unittest.TestCase):
    def books(self):
        xs, ys = readings(60)
        for criterion in ("aic", "bic"):
            for n in (9, 20, 60):
                yield book_of(xs[:n], ys[:n], [1 + i % 2 for i in range(n)]), Settings(bound=4, criterion=criterion)

    def test_losses(self):
        for book, asked in self.books():
            losses = book.losses(asked)
            expected = losses_of(book.xs, book.ys, book.fit(losses.degree).coefficients)
            for ours, theirs in zip(losses.losses, expected):
                self.assertAlmostEqual(ours, theirs, delta=1e-6 * (1 + theirs))
            total = 0.0
            for loss in losses.losses:
                total += loss
            self.assertEqual((losses.total, losses.n, len(losses.losses)), (total, book.count, book.count))
            self.assertAlmostEqual(losses.score, score_of(losses.losses, losses.degree + 1, asked.criterion), places=9)
            self.assertEqual(losses.degree, book.report(asked).degree)

    @unittest.skipUnless(HAS_SCORES, "the library has no scores")
    def test_scores(self):
        for book, asked in self.books():
            scores = book.scores(asked)
            report, losses = book.report(asked), book.losses(asked)
            self.assertEqual((scores.settings, scores.n, scores.degree, scores.solved), (asked, book.count, report.degree, report.solved))
            self.assertEqual((scores.bound, [each.degree for each in scores.degrees]), (4, [0, 1, 2, 3, 4]))
            for each in scores.degrees:
                self.assertTrue(each.solved)
                expected = score_of(losses_of(book.xs, book.ys, book.fit(each.degree).coefficients), each.degree + 1, asked.criterion)
                self.assertAlmostEqual(each.score, expected, delta=1e-6 * (1 + abs(expected)))
            self.assertEqual(scores.degrees[scores.degree].score, losses.score)
            self.assertEqual(scores.least, min(each.score for each in scores.degrees))
            self.assertEqual(scores.within[0], scores.degree)
            # a solved degree d compares d + 1 pivots
            self.assertEqual(scores.tests, 1 + 2 + 3 + 4 + 5)
            self.assertIn("chosen", scores.summary())

    @unittest.skipUnless(HAS_SCORES, "the library has no scores")
    def test_unsolved(self):
        """Years leave every degree from 3 on unsolved."""
        book = book_of(range(2000, 2021), [(i * 37 % 11) for i in range(21)])
        scores = book.scores(Settings(bound=5, criterion="aic"))
        self.assertEqual([each.solved for each in scores.degrees], [True, True, True, False, False, False])
        self.assertEqual([each.score is None for each in scores.degrees], [False, False, False, True, True, True])
        self.assertEqual((scores.bound, scores.solved), (5, 3))
        self.assertEqual(scores.summary().count("unsolved"), 3)
        json.dumps(scores.as_dict(), allow_nan=False)

    @unittest.skipUnless(HAS_SCORES, "the library has no scores")
    def test_refused(self):
        cases = (
            (7, Book(), Settings(bound=1)),
            (4, book_of(*PIT), Settings(bound=1, confidence=NAN)),
            (8, book_of(range(20), range(20)), Settings(bound=16)),
            (11, book_of([0] * 4, [sys.float_info.max] * 4), Settings(bound=1)),
        )
        for number, book, asked in cases:
            before = memory(book)
            with self.assertRaises(Refused) as caught:
                book.scores(asked)
            self.assertEqual((caught.exception.number, memory(book)), (number, before))

    def test_bound_by_name(self):
        """By include/stakebook.h relaxed has degree 0 alone below 16 readings, 1 from 16, 2 from 24."""
        xs, ys = readings(24)
        for n, bound in ((15, 0), (16, 1), (24, 2)):
            book = book_of(xs[:n], ys[:n])
            self.assertEqual(book.report().solved, bound + 1)
            if HAS_SCORES:
                self.assertEqual(book.scores().bound, bound)

    def test_long_split(self):
        """A step in a long list is found where it is, and the number of tests is the limit that does and not one less."""
        n, at = 3300, 1000
        xs = [i / n for i in range(n)]
        book = book_of(xs, [(300 if i < at else 400) + i * 7919 % 101 / 10 for i in range(n)])
        asked = Settings(bound=3)
        split = book.split(asked)
        self.assertEqual(split.at, at)
        # ten pivots for each side of each break with four readings or more on it
        self.assertLessEqual(20 * (n - 7), split.tests)
        self.assertLessEqual(split.tests, 20 * (n - 3))
        self.assertGreater(split.tests, 0xFFFF)
        self.assertEqual(book.split(asked, split.tests), split)
        with self.assertRaises(Refused):
            book.split(asked, split.tests - 1)

    def test_earlier_library(self):
        book = book_of(*PIT)
        book._library = types.SimpleNamespace(scores=None, path="libstakebook.so.1")
        with self.assertRaisesRegex(LibraryError, "stakebook_scores"):
            book.scores()

    def test_table(self):
        """A table of scores as made by hand; the chosen degree is the lowest within 2."""
        degrees = [DegreeScore(0, True, 30.0), DegreeScore(1, True, 11.5), DegreeScore(2, True, 10.0), DegreeScore(3, False, None)]
        scores = Scores(Settings(bound=3), 9, 1, 3, 10.0, 3, degrees, 6)
        self.assertEqual(scores.within, [1, 2])
        self.assertEqual(
            scores.summary().splitlines(),
            [
                "9 readings, degrees 0 to 3: 3 solved, degree 1 chosen",
                "degree       BIC  above least",
                "0             30           20",
                "1           11.5          1.5    chosen",
                "2             10            0  within 2",
                "3       unsolved",
            ],
        )
        self.assertEqual(scores.as_dict()["degrees"][3], {"degree": 3, "solved": False, "score": None})


@unittest.skipUnless(HAS_GROUPS, "the library has no groups")
class Groups(unittest.TestCase):
    """Document 02, E10. What a call costs is counted by hand: degree d takes d + 1 pivot tests where none fails."""

    asked = Settings(bound=3, criterion="aic")

    def counters(self, allowance):
        return [allowance.left(group) for group in range(8)]

    def refused(self, number, call, **of):
        with self.assertRaises(Refused) as caught:
            call(**of)
        self.assertEqual(str(caught.exception), f"refused by {number}: {stakebook.WORDS[number]}")

    def test_report(self):
        book, allowance = book_of(*PIT), Allowance(10 + 9)
        before = memory(book)
        self.assertEqual(book.report(self.asked, group=3, allowance=allowance), book.report(self.asked))
        self.assertEqual(self.counters(allowance), [19, 19, 19, 9, 19, 19, 19, 19])
        for _ in range(2):
            self.refused(16, book.report, settings=self.asked, group=3, allowance=allowance)
            self.assertEqual(self.counters(allowance), [19, 19, 19, 9, 19, 19, 19, 19])
        # what costs 6 still gets through, and another group sees nothing of it
        lower = Settings(bound=2, criterion="aic")
        self.assertEqual(book.report(lower, group=3, allowance=allowance), book.report(lower))
        self.assertEqual(book.report(self.asked, group=7, allowance=allowance), book.report(self.asked))
        self.assertEqual(self.counters(allowance), [19, 19, 19, 3, 19, 19, 19, 9])
        allowance.renew()
        self.assertEqual((self.counters(allowance), allowance.quota), ([19] * 8, 19))
        book.report(self.asked, group=3, allowance=allowance)
        self.assertEqual(allowance.left(3), 9)
        self.assertEqual(memory(book), before)

    def test_to_the_last_test(self):
        book = book_of(*PIT)
        for quota, left in ((10, 0), (11, 1)):
            allowance = Allowance(quota)
            book.report(self.asked, group=0, allowance=allowance)
            self.assertEqual(allowance.left(0), left)
        allowance = Allowance(9)
        self.refused(16, book.report, settings=self.asked, group=0, allowance=allowance)
        self.assertEqual(allowance.left(0), 9)

    def test_cost_is_that_of_the_scores(self):
        for n, bound in ((1, 3), (30, 15), (200, "aggressive"), (40, 0)):
            book, asked, allowance = book_of(*readings(n)), Settings(bound=bound), Allowance(1000)
            try:
                tests = book.scores(asked).tests
            except Refused as refused:
                self.refused(refused.number, book.report, settings=asked, group=1, allowance=allowance)
                self.assertEqual(allowance.left(1), 1000)
            else:
                self.assertEqual(book.report(asked, group=1, allowance=allowance), book.report(asked))
                self.assertEqual(allowance.left(1), 1000 - tests)

    def test_split(self):
        book = book_of(range(8), [0, 1.1, 1.9, 3.05, 2.95, 2.1, 0.9, 0.02])
        asked = Settings(bound=1, criterion="aic")
        plain = book.split(asked)
        self.assertEqual(plain.tests, 30)
        allowance = Allowance(59)
        self.assertEqual(book.split(asked, group=0, allowance=allowance), plain)
        self.refused(16, book.split, settings=asked, group=0, allowance=allowance)
        self.assertEqual((allowance.left(0), allowance.left(1)), (29, 59))
        self.assertEqual(book.split(asked, group=1, allowance=allowance), plain)
        allowance.renew()
        self.assertEqual(book.split(asked, group=0, allowance=allowance), plain)

    def test_no_degree_costs_too(self):
        """11: x is 0 throughout, so that degree 1 has its second pivot fail, and no degree has a score."""
        book, allowance = book_of([0] * 4, [sys.float_info.max] * 4), Allowance(100)
        asked = Settings(bound=1, criterion="aic")
        self.refused(11, book.report, settings=asked, group=4, allowance=allowance)
        self.assertEqual(allowance.left(4), 97)
        self.refused(11, book.split, settings=asked, group=5, allowance=allowance)
        self.assertLess(allowance.left(5), 97)
        # with too few left it is 16, which comes first
        short = Allowance(2)
        self.refused(16, book.report, settings=asked, group=4, allowance=short)
        self.assertEqual(self.counters(short), [2] * 8)
        self.assertEqual(self.counters(allowance)[:4] + self.counters(allowance)[6:], [100] * 6)

    def test_no_covariance_costs_too(self):
        """12: degrees 0 and 1 were solved, by 1 and 2 tests, before the errors failed."""
        book, allowance = no_covariance(), Allowance(5)
        asked = Settings(bound=1, criterion="aic")
        self.refused(12, book.report, settings=asked, group=0, allowance=allowance)
        self.assertEqual(self.counters(allowance), [2] + [5] * 7)
        self.refused(16, book.report, settings=asked, group=0, allowance=allowance)
        self.assertEqual(self.counters(allowance), [2] + [5] * 7)

    def test_other_refusals_cost_nothing(self):
        book, allowance = Book(), Allowance(50)
        self.refused(7, book.report, group=0, allowance=allowance)
        self.refused(7, book.split, group=0, allowance=allowance)
        book.extend(*readings(20))
        self.refused(8, book.report, settings=Settings(bound=16), group=0, allowance=allowance)
        self.refused(4, book.report, settings=Settings(confidence=NAN), group=0, allowance=allowance)
        self.assertEqual(self.counters(allowance), [50] * 8)

    def test_group_above_7(self):
        book, allowance = book_of(*PIT), Allowance(1000)
        for group in (8, 9, 2**64 - 1):
            self.refused(17, book.report, group=group, allowance=allowance)
            self.refused(17, book.split, group=group, allowance=allowance)
            self.refused(17, Book().report, group=group, allowance=allowance)  # before 7
        self.assertEqual((self.counters(allowance), allowance.quota), ([1000] * 8, 1000))
        with self.assertRaises(ValueError):
            allowance.left(8)  # the quota's place, and no group's
        with self.assertRaises(ValueError):
            book.report(group=-1, allowance=allowance)

    def test_start(self):
        allowance = Allowance(5)
        book_of(*PIT).report(Settings(bound=0), group=6, allowance=allowance)
        self.assertEqual(repr(allowance), "<Allowance: 5, 5, 5, 5, 5, 5, 4, 5 left of 5>")
        allowance.start(2**64 - 1)
        self.assertEqual((self.counters(allowance), allowance.quota), ([2**64 - 1] * 8, 2**64 - 1))
        allowance.start(0)
        self.assertEqual((self.counters(allowance), allowance.quota), ([0] * 8, 0))
        for wrong in (-1, 2**64):
            with self.assertRaises(ValueError):
                allowance.start(wrong)
        with self.assertRaises(TypeError):
            Allowance(1.5)
        with self.assertRaises(TypeError):
            pickle.dumps(allowance)

    def test_given_together(self):
        book, surface, allowance = book_of(*PIT), Surface(), Allowance(100)
        for call in (book.report, book.split, surface.report):
            for of in (dict(group=0), dict(allowance=allowance)):
                with self.assertRaisesRegex(TypeError, "given together"):
                    call(**of)
        with self.assertRaisesRegex(TypeError, "no limit"):
            book.split(limit=5, group=0, allowance=allowance)
        self.assertEqual(allowance.left(0), 100)

    def test_earlier_library(self):
        book, allowance = book_of(*PIT), Allowance(100)
        allowance._library = types.SimpleNamespace(group_report=None, path="libstakebook.so.1")
        with self.assertRaisesRegex(LibraryError, "stakebook_group_report"):
            book.report(group=0, allowance=allowance)
        self.assertEqual(book.report(self.asked).degree, 1)

    def test_threads(self):
        """Eight groups at once: each counter ends as if its group had been alone."""
        allowance = Allowance(105)

        def work(group):
            book = book_of(*PIT)
            for _ in range(12):
                with contextlib.suppress(Refused):
                    book.report(self.asked, group=group, allowance=allowance)

        threads = [threading.Thread(target=work, args=(group,)) for group in range(8)]
        for thread in threads:
            thread.start()
        for thread in threads:
            thread.join()
        self.assertEqual(self.counters(allowance), [5] * 8)


class Told(unittest.TestCase):
    """Results as text and for programs."""

    def test_report(self):
        """The judge's bits for this pit stand in examples/c/season.answers."""
        report = book_of(*PIT).report(Settings(bound=3, criterion="aic"))
        self.assertEqual([bits(c) for c in report.coefficients], ["40697FD8FD8FD8FD", "405A524924924927"])
        self.assertEqual([bits(e) for e in report.errors], ["40192E1BC600A3A7", "40223C50D5979CAE"])
        self.assertEqual((report.n, report.degree, report.solved, report.df), (6, 1, 4, 4))
        self.assertEqual({type(mark) for mark in report.outliers + report.pruned}, {bool})
        self.assertEqual((report.outliers, report.outside), ([False, False, False, True, True, False], [3, 4]))
        self.assertEqual(report.pruned, [False, False])
        self.assertEqual(report.t, [abs(c) / e for c, e in zip(report.coefficients, report.errors)])

    def test_as_dict(self):
        book = book_of(*PIT)
        asked = Settings(bound=2, tolerance=("absolute", 0.1))
        told = [book.fit(1), book.band(0.3, 1), book.validate(2, asked), book.report(asked), book.losses(asked), book.split(asked)]
        if HAS_SCORES:
            told.append(book.scores(asked))
        for result in told:
            as_dict = result.as_dict()
            self.assertEqual(list(as_dict), [field.name for field in dataclasses.fields(result)])
            again = json.loads(json.dumps(as_dict, allow_nan=False))
            self.assertEqual(again, as_dict)
            for name, value in as_dict.items():
                if name not in ("settings", "degrees"):
                    self.assertEqual(value, getattr(result, name))
            self.assertTrue(result.summary())
            self.assertFalse(any(line != line.rstrip() for line in result.summary().splitlines()))
        expected = dict(bound=2, criterion="bic", confidence="P95", tolerance=["absolute", 0.1], pruning="size")
        self.assertEqual(told[3].as_dict()["settings"], expected)

    def test_not_finite(self):
        """JSON has no infinity: it becomes text, which float() reads."""
        report = book_of([1], [5]).report(Settings(bound=0))
        self.assertEqual((report.coefficients, report.errors, report.t, report.df), ([5], [0], [INF], 0))
        self.assertEqual(report.as_dict()["t"], ["inf"])
        self.assertEqual([settings.plain(value) for value in (-INF, NAN, 0.1, 3, None)], ["-inf", "nan", 0.1, 3, None])

    def test_ratio(self):
        """As floats have it; the error of -0 is a report's of as many samples as terms."""
        ratio = book_module._ratio
        self.assertEqual([ratio(-6, 3), ratio(6, 0.0), ratio(-6, -0.0), ratio(0.0, 2)], [2, INF, -INF, 0])
        self.assertTrue(all(math.isnan(value) for value in (ratio(0.0, 0.0), ratio(1, NAN), ratio(NAN, 1))))

    def test_pruned(self):
        """A weak constant beside a strong slope is pruned; by polyfit's rule only where it is above 0."""
        ys = [0.01 + 3 * x + (-1) ** x * 0.5 for x in range(8)]
        for sign, positive in ((1, [True, False]), (-1, [False, False])):
            book = book_of(range(8), [sign * y for y in ys])
            report = book.report(Settings(bound=1, criterion="aic"))
            self.assertEqual((report.degree, report.pruned), (1, [True, False]))
            # Student's t for P95 and 6 degrees of freedom is 2.447
            self.assertLess(report.t[0], 2.447)
            self.assertGreater(report.t[1], 2.447)
            self.assertIn("pruned", report.summary().splitlines()[2])
            self.assertEqual(book.report(Settings(bound=1, criterion="aic", pruning="positive")).pruned, positive)

    def test_summaries(self):
        book = book_of([0, 1, 2, 3], [1, 3, 5, 7])
        self.assertEqual(book.fit(0).summary(), "degree 0 through 4 readings\nterm  coefficient\n1               4")
        self.assertEqual(
            book.validate(2, Settings(bound=0)).summary().splitlines()[0],
            "4 readings in 2 folds: degree 0 by BIC",
        )
        split = book.split(Settings(bound=0))
        self.assertEqual((split.at, split.degree_before, split.degree_after, split.before, split.after), (2, 0, 0, [2], [6]))
        lines = split.summary().splitlines()
        self.assertRegex(lines[0], r"^4 readings, broken before reading 2: total -1\d\d\.\d+, 2 pivot tests$")
        self.assertEqual((lines[1], lines[4]), ("before: readings 0 to 1, degree 0", "after: readings 2 to 3, degree 0"))
        self.assertEqual(
            Settings("aggressive", "aic", 2.5, ("variance", 0.125), "positive").summary(),
            "bound aggressive, AIC, z score 2.5, tolerance variance 0.125, only positive terms pruned",
        )
        self.assertEqual(results._term(0) + results._term(1) + results._term(2) + results._term(15), "1xx^2x^15")


class Threads(unittest.TestCase):
    """Real threads: the library's calls run beside each other."""

    def run_all(self, works):
        """Runs each in a thread of its own, all begun at once; what one raises is raised here."""
        barrier, wrong = threading.Barrier(len(works)), []

        def run(work):
            try:
                barrier.wait(30)
                work()
            except BaseException as error:
                wrong.append(error)

        threads = [threading.Thread(target=run, args=(work,)) for work in works]
        for thread in threads:
            thread.start()
        for thread in threads:
            thread.join(60)
            self.assertFalse(thread.is_alive())
        if wrong:
            raise wrong[0]

    def test_books_apart(self):
        """What each of four books answers, change by change, is what it answers alone."""

        def season(seed, done):
            book, answers = Book(300), []
            asked = Settings(bound=2 + seed % 3, criterion=("aic", "bic")[seed % 2])
            xs, ys = readings(250)
            for i in range(0, 250, 10):
                book.extend(xs[i : i + 10], [y * (seed + 1) + seed for y in ys[i : i + 10]])
                book.correct(i // 2, float(seed))
                book.withdraw(i // 3)
                answers += [book.report(asked), book.band(xs[i + 5], 1, asked), book.losses(asked)]
            done[seed] = answers, state(book)

        alone, together = {}, {}
        for seed in range(4):
            season(seed, alone)
        self.run_all([lambda seed=seed: season(seed, together) for seed in range(4)])
        self.assertEqual(together, alone)
        self.assertEqual(len({book for _, book in together.values()}), 4)

    def test_one_book(self):
        """Threads that share a book: no change is lost, and a reader sees whole changes only."""
        book, pairs = Book(), []

        end = time.monotonic() + 30

        def add():
            for _ in range(200):
                book.extend([1.0, 2.0], [3.0, 5.0])

        def read():
            while book.count < 1600 and time.monotonic() < end:
                if book.count:
                    fit = book.fit(0)
                    pairs.append((fit.n % 2, fit.coefficients))

        self.run_all([add, add, add, add, read])
        self.assertEqual(book.count, 1600)
        self.assertEqual(state(book), state(book_of([1.0, 2.0] * 800, [3.0, 5.0] * 800)))
        self.assertTrue(all(pair == (0, [4.0]) for pair in pairs))

        def add_and_withdraw():
            for _ in range(300):
                book.add(1.0, 3.0)
                book.add_lines("1 3\n")
                book.withdraw(1600)

        self.run_all([add_and_withdraw] * 4)
        self.assertEqual(book.count, 1600 + 4 * 300)
        self.assertEqual(state(book), state(book_of([1.0, 2.0] * 800 + [1.0] * 1200, [3.0, 5.0] * 800 + [3.0] * 1200)))

    def test_at_the_same_time(self):
        """While one book's long search runs in the library, another book answers."""
        long = book_of(*readings(4096))
        other = book_of(*PIT)
        times = []

        def search():
            times.append(time.perf_counter())
            with self.assertRaises(Refused) as caught:
                long.split(Settings(bound=3), limit=40000)
            times.append(time.perf_counter())
            self.assertEqual(caught.exception.number, 16)

        thread = threading.Thread(target=search)
        thread.start()
        answered = []
        while thread.is_alive():
            other.report(Settings(bound=1))
            answered.append(time.perf_counter())
        thread.join()
        begin, end = times
        within = [at for at in answered if begin + (end - begin) / 4 < at < end - (end - begin) / 4]
        self.assertGreater(len(within), 10)


class Found(unittest.TestCase):
    """How the library is found, by new processes."""

    def run_python(self, code, root=ROOT / "python", **environment):
        """A Python that has the module alone: no site packages, no settings of the user's."""
        kept = {name: value for name, value in os.environ.items() if name not in ("STAKEBOOK_LIBRARY", "PYTHONPATH", "LD_LIBRARY_PATH")}
        code = f"import sys; sys.path.insert(0, {str(root)!r})\n{code}"
        return subprocess.run(
            [sys.executable, "-S", "-B", "-c", code], env={**kept, **environment}, stdout=subprocess.PIPE, stderr=subprocess.STDOUT, text=True, timeout=60
        )

    def library(self):
        """The file that the tests run with."""
        path = _library.library().path
        if not os.path.exists(path):
            self.skipTest(f"the tests run with the system's {path}")
        return os.path.abspath(path)

    def test_import(self):
        """Importing needs the standard library alone, and no C library."""
        code = "import stakebook; print('numpy' in sys.modules, stakebook.Settings().bound)"
        done = self.run_python(code, STAKEBOOK_LIBRARY="/nowhere/libstakebook.so")
        self.assertEqual((done.returncode, done.stdout), (0, "False relaxed\n"))

    def test_without_numpy(self):
        code = "from stakebook import Book\nb = Book(); b.extend([1, 2], [3, 4])\nprint([list(c) for c in b.columns()], 'numpy' in sys.modules)"
        done = self.run_python(code, STAKEBOOK_LIBRARY=self.library())
        self.assertEqual((done.returncode, done.stdout), (0, "[[1.0, 2.0], [3.0, 4.0], [1.0, 1.0]] False\n"))

    def test_named_and_not_there(self):
        done = self.run_python("import stakebook\nstakebook.Book()", STAKEBOOK_LIBRARY="/nowhere/libstakebook.so")
        self.assertEqual(done.returncode, 1)
        self.assertIn("LibraryError: the library /nowhere/libstakebook.so can't be loaded", done.stdout)

    def test_not_a_stake_book(self):
        code = "import stakebook\ntry:\n    stakebook.Book()\nexcept stakebook.LibraryError as error:\n    print(error)"
        done = self.run_python(code, STAKEBOOK_LIBRARY="libc.so.6")
        self.assertEqual(done.stdout, "the library libc.so.6 has no function stakebook_open\n")

    def test_places(self):
        """Beside the package, in a checkout's target/lib and in an installed tree's lib; with none, nor one of the system's, it says where it looked."""
        code = "from stakebook import _library\nprint(_library.library().path)"
        library = self.library()
        with tempfile.TemporaryDirectory() as folder:
            folder = os.path.realpath(folder)
            package = Path(folder, "python", "stakebook")
            shutil.copytree(ROOT / "python" / "stakebook", package, ignore=shutil.ignore_patterns("*.so*", "__pycache__"))
            nothing = "from stakebook import _library\n_library._SONAME = 'libnothere.so.1'\n_library.library()"
            done = self.run_python(nothing, package.parent)
            self.assertEqual(done.returncode, 1)
            self.assertIn("LibraryError: no library was found", done.stdout)
            self.assertIn(str(Path(folder, "target", "lib", "libstakebook.so")), done.stdout)
            installed = Path(folder, "lib", "python3", "dist-packages")
            shutil.copytree(package, installed / "stakebook")
            Path(folder, "lib", "libstakebook.so.1").symlink_to(library)
            done = self.run_python(code, installed)
            self.assertEqual((done.returncode, done.stdout), (0, f"{folder}/lib/libstakebook.so.1\n"))
            places = [Path(folder, "target", "lib", "libstakebook.so"), package / "libstakebook.so", package / "libstakebook.so.1"]
            for place in places:
                place.parent.mkdir(parents=True, exist_ok=True)
                place.symlink_to(library)
                done = self.run_python(code, package.parent)
                self.assertEqual((done.returncode, done.stdout), (0, f"{place}\n"))

    def test_syntax(self):
        """Python 3.8 reads every file of the module."""
        for path in sorted((ROOT / "python").glob("**/*.py")):
            ast.parse(path.read_text("utf-8"), str(path), feature_version=(3, 8))


def load_tests(loader, tests, pattern):
    """The examples of the docstrings and of docs/PYTHON.md are tests too."""
    flags = doctest.ELLIPSIS
    modules = (stakebook, _library, settings, results, book_module, surface_module)
    for module in modules + (allowance_module,) * HAS_GROUPS + (glacier_module,) * HAS_SEASONS:
        for case in doctest.DocTestSuite(module, optionflags=flags):
            if (HAS_SCORES or not case.id().endswith("Book.scores")) and (HAS_SURFACE or "Surface" not in case.id()):
                tests.addTest(case)
    path = ROOT / "docs" / "PYTHON.md"
    # a fence ends an example as a blank line does
    text = re.sub(r"^```.*$", "", path.read_text("utf-8"), flags=re.M)
    for part, section in enumerate(re.split(r"^(?=## )", text, flags=re.M)):
        words = (r"\.scores\(", HAS_SCORES), (r"Surface\(", HAS_SURFACE), (r"Allowance\(", HAS_GROUPS), (r"Season\(", HAS_SEASONS)
        lacking = [word for word, there in words if not there]
        if ">>>" in section and not any(re.search(rf"^>>> .*{word}", section, flags=re.M) for word in lacking):
            name = section.splitlines()[0].lstrip("# ")
            example = doctest.DocTestParser().get_doctest(section, {}, f"PYTHON.md: {name}", str(path), 0)
            tests.addTest(doctest.DocTestCase(example, optionflags=flags))
    return tests


if __name__ == "__main__":
    unittest.main()
