"""The book itself, and lists of changes to run again."""

from __future__ import annotations

import math
import sys
import threading
from array import array
from typing import Any, Iterable, List, NoReturn, Optional, Sequence, Tuple, Type, TypeVar, Union, overload

from ._library import ANSWER, BAND, LOSSES, MOST, SIZE_MAX, SUMS, TERMS, Call, Refused, first_of, later, library, number, whole
from .allowance import Allowance, ask
from .results import Band, DegreeScore, Fit, Losses, Replayed, Report, Scores, Split, Validation
from .settings import Settings

_DEFAULT = Settings()
_Book = TypeVar("_Book", bound="Book")
_Report = TypeVar("_Report", bound=Report)

# A frame: a length of 2 bytes, the version, and the samples. The 3 bytes stand at the end of 8, so that the numbers behind them are aligned.
_FRAME_MOST = 0xFFFF
_FRAME_AT = 5


def _doubles(places: int) -> "array[float]":
    """Memory of so many numbers. It has one place at least, since no pointer may be null."""
    return array("d", bytes(8 * max(places, 1)))


def _bytes(places: int) -> "array[int]":
    return array("B", bytes(max(places, 1)))


def _place(memory: "array[Any]") -> int:
    return memory.buffer_info()[0]


def _listed(memory: Any) -> List[float]:
    numbers: List[float] = memory.tolist()
    return numbers


def _column(values: Any) -> memoryview:
    """A column to read: the memory itself of an array of doubles, and a copy of anything else that can be gone through."""
    if isinstance(values, (str, bytes, bytearray)):
        raise TypeError("a column is a sequence of numbers, not text; readings as written go by add_lines")
    numpy = sys.modules.get("numpy")
    # Not a subclass of ndarray: behind the values of a masked array its memory holds others.
    if isinstance(values, (array, memoryview)) or (numpy is not None and type(values) is numpy.ndarray):
        if getattr(values, "ndim", 1) != 1:
            raise ValueError("a column has one dimension")
        try:
            view = memoryview(values)
        except ValueError:  # numpy's dates, for one, have no buffer
            pass
        else:
            if view.format == "d":
                return view
    return memoryview(array("d", iter(values)))


def _frame(columns: Sequence[memoryview], begin: int, end: int) -> Tuple["array[float]", int]:
    """The samples from begin up to end as a frame, of version 1 without weights and of version 2 with them; and its length in bytes."""
    width = len(columns)
    frame = _doubles(1 + width * (end - begin))
    numbers = memoryview(frame)
    for i, column in enumerate(columns):
        numbers[1 + i :: width] = column[begin:end]
    if sys.byteorder == "little":
        frame.byteswap()
    length = 1 + 8 * width * (end - begin)
    numbers.cast("B")[_FRAME_AT:8] = bytes((length >> 8, length & 0xFF, width - 1))
    return frame, length + 2


def _many(values: Any) -> bool:
    """Whether it is a sequence of numbers and not one of them."""
    return hasattr(values, "__iter__") and getattr(values, "ndim", None) != 0 and not isinstance(values, (str, bytes))


def _ratio(c: float, error: float) -> float:
    """The size of a coefficient over its error, also where that is 0, as floats have it."""
    if error:
        return abs(c) / error
    return math.copysign(math.inf, error) if c else math.nan


class Calls:
    """A list of changes for ``Book.replay``: adds, corrections and withdrawals, in their order.

    >>> calls = Calls([("add", 0, 1), ("add", 1, 4, 0.5), ("correct", 1, 3)])
    >>> calls.withdraw(0)
    >>> len(calls)
    4
    """

    __slots__ = ("kinds", "indices", "xs", "ys", "ws")

    def __init__(self, calls: Iterable[Tuple[Any, ...]] = ()) -> None:
        self.kinds = array("I")
        self.indices = array("Q")
        self.xs = array("d")
        self.ys = array("d")
        self.ws = array("d")
        for name, *arguments in calls:
            if name == "add":
                self.add(*arguments)
            elif name == "correct":
                self.correct(*arguments)
            elif name == "withdraw":
                self.withdraw(*arguments)
            else:
                raise ValueError(f"a call is one of 'add', 'correct', 'withdraw', not {name!r}")

    def __len__(self) -> int:
        return len(self.kinds)

    def _append(self, kind: int, index: int, x: float, y: float, weight: float) -> None:
        self.kinds.append(kind)
        self.indices.append(index)
        self.xs.append(x)
        self.ys.append(y)
        self.ws.append(weight)

    def add(self, x: float, y: float, weight: float = 1.0) -> None:
        """One reading at the end."""
        self._append(0, 0, number(x), number(y), number(weight))

    def correct(self, i: int, y: float) -> None:
        """Reading i gets a new y."""
        self._append(1, whole(i, "an index"), 0.0, number(y), 1.0)

    def withdraw(self, i: int) -> None:
        """Reading i goes."""
        self._append(2, whole(i, "an index"), 0.0, 0.0, 1.0)


class Lent:
    """The memory of books of one capacity, one behind the other, and the pointers by which the library is lent all of it."""

    #: What is cut into a part for each book, with the places of a part, if they are not the capacity; and what is not cut.
    PARTS = {
        **dict.fromkeys(("_xs", "_ys", "_ws", "_scratch", "_lower", "_upper", "_outliers"), 0),
        **dict.fromkeys(("_coefficients", "_errors", "_pruned"), TERMS),
        "_sums": SUMS,
    }
    ALL = (
        ("_library", "_lock", "_capacity", "_numbers", "_losses", "_before", "_after", "_solved")
        + ("_lent", "_for_fit", "_for_band", "_for_report", "_for_losses", "_for_split", "_for_scores")
    )

    def _lend(self, capacity: int, books: int = 1, counts: Tuple[int, ...] = ()) -> None:
        capacity = whole(capacity, "the capacity")
        if capacity > MOST:
            raise ValueError(f"a book holds at most {MOST} readings, not {capacity}")
        self._library = library()
        self._lock = threading.Lock()
        self._capacity = capacity
        n, terms, sums = books * capacity, books * TERMS, books * SUMS
        # Arrays, or of a stake views of its parts of a season's.
        self._xs: Any = _doubles(n)
        self._ys: Any = _doubles(n)
        self._ws: Any = _doubles(n)
        self._sums: Any = _doubles(sums)
        # What reading calls write; each copies it to its result while it has the lock.
        self._scratch: Any = _doubles(n)
        self._lower: Any = _doubles(n)
        self._upper: Any = _doubles(n)
        self._coefficients: Any = _doubles(terms)
        self._errors: Any = _doubles(terms)
        self._numbers: Any = _doubles(BAND)
        self._pruned: Any = _bytes(terms)
        self._outliers: Any = _bytes(n)
        # Pointers are made once. The memory is never resized: its views forbid it.
        self._lent = counts + (_place(self._xs), n, _place(self._ys), n, _place(self._ws), n, _place(self._sums), sums)
        scratch = (_place(self._scratch), n)
        coefficients = (_place(self._coefficients), terms)
        errors = (_place(self._errors), terms)
        numbers = _place(self._numbers)
        pruned = (_place(self._pruned), terms)
        lower = (_place(self._lower), n)
        self._for_fit = self._lent + scratch + coefficients
        self._for_band = self._lent + scratch + (numbers, BAND)
        self._for_report = self._for_fit + errors + pruned + lower + (_place(self._upper), n, _place(self._outliers), n)
        # What losses, a split and scores write is one book's, also in a season: they are lent it for the call alone, and it is not cut.
        self._losses, self._before, self._after, self._solved = self._lower, self._coefficients, self._errors, self._pruned
        self._for_losses = self._lent + scratch + (lower[0], capacity, numbers, LOSSES)
        self._for_split = self._lent + scratch + (coefficients[0], TERMS, errors[0], TERMS, numbers, 1)
        self._for_scores = self._lent + scratch + (pruned[0], TERMS, coefficients[0], TERMS, numbers, 1)


class BookCalls(Lent):
    """What a book and a stake of a season have alike: readings, changes and questions."""

    #: How many readings it holds.
    _count: int

    @property
    def _which(self) -> int:
        """What a call names first: of a book its count."""
        return self._count

    def _view(self) -> None:
        self._kept = [memoryview(memory) for memory in (self._sums, self._xs, self._ys, self._ws)]

    # ---- what it holds

    @property
    def count(self) -> int:
        """How many readings it holds."""
        return self._count

    def __len__(self) -> int:
        return self._count

    @property
    def capacity(self) -> int:
        """How many it can hold."""
        return self._capacity

    @property
    def xs(self) -> List[float]:
        """The readings' x's, a copy."""
        with self._lock:
            return _listed(self._xs[: self._count])

    @property
    def ys(self) -> List[float]:
        """The readings' y's, a copy."""
        with self._lock:
            return _listed(self._ys[: self._count])

    @property
    def ws(self) -> List[float]:
        """The readings' weights, a copy."""
        with self._lock:
            return _listed(self._ws[: self._count])

    @property
    def sums(self) -> List[float]:
        """The 272 sums over the readings, 16 rows of 16 and then 16 more, a copy."""
        with self._lock:
            return _listed(self._sums)

    def columns(self) -> Tuple[Any, Any, Any]:
        """x's, y's and weights without a copy: numpy arrays where numpy is there, else memoryviews. They can't be written, and are to be
        taken anew after a change: they show the book's memory as it is at the time, and the readings that it had."""
        views = [memory[: self._count].toreadonly() for memory in self._kept[1:]]
        try:
            import numpy
        except ImportError:
            return views[0], views[1], views[2]
        return numpy.asarray(views[0]), numpy.asarray(views[1]), numpy.asarray(views[2])

    def bits(self) -> bytes:
        """Readings and sums as bytes: books with equal bits and capacities answer every call alike. All NaNs are one."""
        with self._lock:
            parts = [memory[: self._count] for memory in self._kept[1:]] + [self._kept[0]]
            return b"".join(array("d", [math.nan if value != value else value for value in part]).tobytes() for part in parts)

    # ---- changes

    def _change(self, moves: bool, call: Call, *arguments: Any) -> int:
        """Makes a change and answers the new count. An interrupt, which Python raises only behind the call, takes the change back: else the
        count would not be that of the sums. `moves` says that readings below the count may change too."""
        with self._lock:
            count = self._count
            kept = self._keep(count if moves else 0)
            try:
                answer = call(self._which, *arguments, *self._lent)
                refusal = answer >> 56
                if not refusal:
                    self._count = answer
            except BaseException:
                self._restore(count, kept)
                raise
        if refusal:
            raise Refused(refusal)
        return answer

    def _keep(self, count: int) -> List[bytes]:
        """The sums, and so many readings."""
        sums = self._kept[0].tobytes()
        return [sums] + [part[:count].tobytes() for part in self._kept[1:]] if count else [sums]

    def _restore(self, count: int, kept: List[bytes]) -> None:
        for memory, was in zip(self._kept, kept):
            if was:
                memory.cast("B")[: len(was)] = was
        self._count = count

    def add(self, x: float, y: float, weight: float = 1.0) -> int:
        """One reading at the end; answers the new count."""
        return self._change(False, self._library.add, number(x), number(y), number(weight))

    def extend(self, xs: Iterable[float], ys: Iterable[float], weights: Optional[Iterable[float]] = None) -> int:
        """Many readings at the end, all or none; answers the new count.

        They go to the library as frames, which it takes whole or not at all. A numpy array of float64 is read where it stands, also
        a slice of one. A frame holds 4,095 readings, or 2,730 with weights; where there are more, a refused frame takes those before it
        back, and the refusal is the one that a single frame of all would have.

        >>> book = Book()
        >>> book.extend([0, 1, 2], [1, 3, 5])
        3
        >>> book.extend((3, 4), (7, 9), weights=(1, 0))
        Traceback (most recent call last):
            ...
        stakebook.Refused: refused by 15: ...
        >>> book.count
        3
        """
        columns = [_column(xs), _column(ys)]
        if weights is not None:
            columns.append(_column(weights))
        n = len(columns[0])
        if any(len(column) != n for column in columns):
            raise ValueError(f"the columns are of different lengths: {', '.join(str(len(column)) for column in columns)}")
        step = (_FRAME_MOST - 1) // (8 * len(columns))
        refusals = []
        with self._lock:
            count = self._count
            kept = self._keep(0)
            try:
                for begin in range(0, max(n, 1), step):
                    frame, length = _frame(columns, begin, min(begin + step, n))
                    answer = self._library.add_frame(self._which, _place(frame) + _FRAME_AT, length, *self._lent)
                    if answer >> 56:
                        refusals.append(answer >> 56)
                    else:
                        self._count = answer
                if refusals:
                    self._restore(count, kept)
            except BaseException:
                self._restore(count, kept)
                raise
        if refusals:
            raise Refused(first_of(refusals))
        return answer

    def add_lines(self, text: Union[str, bytes]) -> int:
        r"""Readings as written in the field book, all or none: x, one space, y and a newline each. Answers the new count.

        >>> Book().add_lines("0.10 212\n0.30 240.5\n")
        2
        """
        # Nothing but ASCII passes the library's reader, so that the encoding is of no account.
        lines = text.encode("utf-8", "surrogatepass") if isinstance(text, str) else bytes(text)
        return self._change(False, self._library.add_lines, lines, len(lines))

    def add_frame(self, frame: bytes) -> int:
        """The samples of a frame as a logger sends it, of version 1 or 2, all or none; answers the new count.

        >>> Book().add_frame(bytes.fromhex("0011013FF4CCCCCCCCCCCD4074B00000000000"))
        1
        """
        frame = bytes(frame)
        return self._change(False, self._library.add_frame, frame, len(frame))

    def add_window(self, x: float, y: float, weight: float = 1.0) -> int:
        """One reading at the end; a full book first loses its oldest, so that it keeps the latest ones. Answers the count.

        >>> book = Book(capacity=2)
        >>> [book.add_window(day, 10 * day) for day in (1, 2, 3)]
        [1, 2, 2]
        >>> book.xs
        [2.0, 3.0]
        """
        return self._change(True, self._library.add_window, number(x), number(y), number(weight))

    def correct(self, i: int, y: float) -> int:
        """Reading i, counted from 0, gets a new y and keeps its weight; answers the count."""
        return self._change(True, self._library.correct, whole(i, "an index"), number(y))

    def withdraw(self, i: int) -> int:
        """Reading i, counted from 0, goes, and the later ones move down one; answers the new count."""
        return self._change(True, self._library.withdraw, whole(i, "an index"))

    # ---- questions

    def fit(self, degree: int) -> Fit:
        """The curve of a degree.

        >>> book = Book()
        >>> book.extend([0, 1, 2], [1, 3, 5])
        3
        >>> book.fit(1).coefficients
        [1.0, 2.0]
        """
        degree = whole(degree, "a degree")
        with self._lock:
            answer = self._library.fit(self._which, degree, *self._for_fit)
            if answer >> 56:
                raise Refused(answer >> 56)
            return Fit(self._count, answer, self._coefficients[: answer + 1].tolist())

    @overload
    def band(self, x: float, degree: int, settings: Settings = _DEFAULT) -> Band:
        ...

    @overload
    def band(self, x: Iterable[float], degree: int, settings: Settings = _DEFAULT) -> List[Band]:
        ...

    def band(self, x: Union[float, Iterable[float]], degree: int, settings: Settings = _DEFAULT) -> Union[Band, List[Band]]:
        """The band around the curve of a degree at an x, or at each of many: where the curve lies, and not where single readings do.

        Of the settings it takes confidence and tolerance. Where one of many is refused there is no answer to any.

        >>> book = Book()
        >>> book.extend([0, 1, 2, 3], [1, 3, 5, 7])
        4
        >>> print(book.band(1.5, 1).summary())
        at 1.5 the curve of degree 1 is 4, between 4 and 4
        >>> [band.value for band in book.band([0.5, 2.5], 1)]
        [2.0, 6.0]
        """
        if _many(x):
            return self._bands([number(each) for each in x], degree, settings)  # type: ignore[union-attr]
        return self._bands([number(x)], degree, settings)[0]

    def _bands(self, xs: List[float], degree: int, settings: Settings) -> List[Band]:
        degree = whole(degree, "a degree")
        call, asked, lent, numbers = self._library.band, settings.codes.band, self._for_band, self._numbers
        bands = []
        with self._lock:
            which = self._which
            for x in xs:
                answer = call(which, x, degree, *asked, *lent)
                if answer:
                    raise Refused(answer >> 56)
                bands.append(Band(x, degree, *numbers))
        return bands

    def validate(self, folds: int, settings: Settings = _DEFAULT) -> Validation:
        """The curve of the degree that cross-validation in so many folds chooses. Of the settings it takes bound and criterion.

        >>> book = Book()
        >>> book.extend(range(8), [1, 3, 5, 7, 9, 11, 13, 15])
        8
        >>> book.validate(2, Settings(bound=2)).degree
        1
        """
        folds = whole(folds, "the number of folds")
        with self._lock:
            answer = self._library.validate(self._which, folds, *settings.codes.validation, *self._for_fit)
            if answer >> 56:
                raise Refused(answer >> 56)
            return Validation(settings, self._count, folds, answer, self._coefficients[: answer + 1].tolist())

    def report(self, settings: Settings = _DEFAULT) -> Report:
        """Chooses a degree, fits it, and says how far the curve can be trusted."""
        with self._lock:
            answer = self._library.report_by(self._which, *settings.codes.lists, *self._for_report)
            return self._reported(Report, settings, answer, (answer & 0xFF) + 1)

    def _reported(self, made: Type[_Report], settings: Settings, answer: int, k: int) -> _Report:
        """What a report of k coefficients has written, or its refusal."""
        if answer >> 56:
            raise Refused(answer >> 56)
        n = self._count
        coefficients, errors = self._coefficients[:k].tolist(), self._errors[:k].tolist()
        return made(
            settings=settings,
            n=n,
            degree=answer & 0xFF,
            solved=answer >> 8 & 0xFF,
            coefficients=coefficients,
            errors=errors,
            t=list(map(_ratio, coefficients, errors)),
            pruned=list(map(bool, self._pruned[:k])),
            df=n - k,
            lower=self._lower[:n].tolist(),
            upper=self._upper[:n].tolist(),
            outliers=list(map(bool, self._outliers[:n])),
        )

    def losses(self, settings: Settings = _DEFAULT) -> Losses:
        """The loss of each reading at the degree that the report with these settings chooses.

        >>> book = Book()
        >>> book.extend([0, 1, 2, 3], [1, 3, 5, 7])
        4
        >>> book.losses(Settings(bound=1)).losses
        [0.0, 0.0, 0.0, 0.0]
        """
        with self._lock:
            n = self._count
            answer = self._library.losses(self._which, *settings.codes.lists, *self._for_losses)
            if answer >> 56:
                raise Refused(answer >> 56)
            total, score = self._numbers[:LOSSES]
            return Losses(settings, n, answer, self._losses[:n].tolist(), total, score)

    def scores(self, settings: Settings = _DEFAULT) -> Scores:
        """Of each degree within the bound whether it is solved and its score, and which is chosen: why a report chooses as it does.

        >>> book = Book()
        >>> book.extend([0.1, 0.3, 0.5, 0.7, 0.9, 1.1], [212, 240.5, 251, 287, 290, 322.5])
        6
        >>> print(book.scores(Settings(bound=3, criterion="aic")).summary())
        6 readings, degrees 0 to 3: 4 solved, degree 1 chosen
        degree      AIC  above least
        0       35.2561      11.4362
        1       23.8198            0  chosen
        2       33.9846      10.1648
        3       63.2789      39.4591
        """
        call = later(self._library, "scores")
        with self._lock:
            n = self._count
            answer = call(self._which, *settings.codes.lists, *self._for_scores)
            if answer >> 56:
                raise Refused(answer >> 56)
            bound = answer >> 16 & 0xFFFF
            degrees = [
                DegreeScore(degree, bool(solved), score if solved else None)
                for degree, (solved, score) in enumerate(zip(self._solved[: bound + 1], self._before))
            ]
            least = self._numbers[0]
        return Scores(settings, n, answer & 0xFF, bound, least, answer >> 8 & 0xFF, degrees, answer >> 32 & 0xFFFFFF)

    def split(self, settings: Settings = _DEFAULT, limit: Optional[int] = None) -> Split:
        """Breaks the list in two, melt season and cold season, where the two sides' scores total least. ``limit`` is the most pivot tests to make."""
        with self._lock:
            return self._broken(settings, self._library.split(self._which, *settings.codes.lists, _most(limit), *self._for_split))

    def _broken(self, settings: Settings, answer: int) -> Split:
        """What a split has written, or its refusal."""
        if answer >> 56:
            raise Refused(answer >> 56)
        before, after = answer & 0xFF, answer >> 8 & 0xFF
        return Split(
            settings=settings,
            n=self._count,
            at=answer >> 16 & 0xFFFF,
            degree_before=before,
            degree_after=after,
            before=self._before[: before + 1].tolist(),
            after=self._after[: after + 1].tolist(),
            total=self._numbers[0],
            tests=answer >> 32 & 0xFFFFFF,
        )


def _most(limit: Optional[int]) -> int:
    return SIZE_MAX if limit is None else whole(limit, "the limit")


class Book(BookCalls):
    """The readings of one season: x, y and a weight each, at most ``capacity`` of them, which is 4,096 or less.

    A call that the library refuses raises ``Refused`` and leaves the book as it was. Each book has memory and a lock of its own:
    threads may share one, and two books never meet.

    >>> book = Book()
    >>> book.add(0.1, 212)
    1
    >>> book.add(0.3, 240.5, weight=2)
    2
    >>> book.add(0.5, float("nan"))
    Traceback (most recent call last):
        ...
    stakebook.Refused: refused by 4: ...
    >>> book.count, book.xs, book.ys, book.ws
    (2, [0.1, 0.3], [212.0, 240.5], [1.0, 2.0])
    """

    def __init__(self, capacity: int = MOST) -> None:
        self._lend(capacity)
        self._view()
        self._count = 0
        self._library.open(_place(self._sums), SUMS)

    def copy(self: _Book) -> _Book:
        """A book of its own with the same readings, say to try a change on."""
        other = type(self)(self._capacity)
        with self._lock:
            for theirs, ours in zip(other._kept, self._kept):
                theirs[:] = ours
            other._count = self._count
        return other

    __copy__ = copy

    def __deepcopy__(self: _Book, memo: Any) -> _Book:
        return self.copy()

    def __reduce__(self) -> NoReturn:
        raise TypeError("a book can't be pickled: its memory is lent to the library by address")

    def __repr__(self) -> str:
        return f"<Book: {self._count} of {self._capacity} readings>"

    @classmethod
    def replay(cls: Type[_Book], calls: Union[Calls, Iterable[Tuple[Any, ...]]], capacity: int = MOST) -> Tuple[_Book, List[Replayed]]:
        """A book made by a list of changes, and what each of them answered. Refused ones are part of the list and change nothing.

        The list runs inside the library, which is proved to leave the book that the same calls, one by one, would leave.

        >>> book, answers = Book.replay([("add", 0, 1), ("add", 1, 4), ("withdraw", 2), ("correct", 1, 3)])
        >>> book.ys
        [1.0, 3.0]
        >>> answers[2]
        Replayed(refusal=6, n=0)
        """
        if not isinstance(calls, Calls):
            calls = Calls(calls)
        n = len(calls)
        book = cls(capacity)
        kinds, words = array("I", bytes(20 * n or 4)), array("Q", bytes(72 * n or 8))
        numbers, results = _doubles(5 * n), array("Q", bytes(40 * n or 8))
        if n:
            kinds[::5], words[::9] = calls.kinds, calls.indices
            numbers[::5], numbers[1::5], numbers[2::5] = calls.xs, calls.ys, calls.ws
        # No report is in the list, and so no place is lent for one.
        nothing = [part for memory in (book._scratch, book._coefficients, book._errors) for part in (_place(memory), 0)]
        nothing += [_place(book._pruned), 0, _place(book._lower), 0, _place(book._upper), 0, _place(book._outliers), 0]
        answer = book._library.replay(
            _place(kinds), 5 * n, _place(words), 9 * n, _place(numbers), 5 * n, 0, *book._lent, _place(results), 5 * n, *nothing
        )
        if answer >> 56:
            raise Refused(answer >> 56)
        book._count = answer
        return book, list(map(Replayed, results[: 5 * n : 5], results[1 : 5 * n : 5]))

    def report(self, settings: Settings = _DEFAULT, *, group: Optional[int] = None, allowance: Optional[Allowance] = None) -> Report:
        """Chooses a degree, fits it, and says how far the curve can be trusted. With a course group and its allowance it costs its pivot tests.

        >>> book = Book()
        >>> book.extend([0.1, 0.3, 0.5, 0.7, 0.9, 1.1], [212, 240.5, 251, 287, 290, 322.5])
        6
        >>> print(book.report(Settings(bound=3, criterion="aic")).summary())
        6 readings: degree 1, 4 degrees solved (degrees up to 3, AIC, P95, no tolerance, terms pruned by size)
        term  coefficient    error        t
        1         203.995  6.29503  32.4058
        x         105.286   9.1178  11.5473
        4 degrees of freedom
        2 of 6 outside the band, which is the curve's and not the readings': 3, 4
        """
        with self._lock:
            call = self._library.report_by
            answer = ask(call, "group_report", group, allowance, self._count, *settings.codes.lists, *self._for_report)
            return self._reported(Report, settings, answer, (answer & 0xFF) + 1)

    def split(
        self, settings: Settings = _DEFAULT, limit: Optional[int] = None, *, group: Optional[int] = None, allowance: Optional[Allowance] = None
    ) -> Split:
        """Breaks the list in two, melt season and cold season, where the two sides' scores total least.

        Of the settings it takes bound and criterion. ``limit`` is the most pivot tests to make, which bounds the time; None is no limit, and
        with thousands of readings that is seconds. Of a group what it has left stands for the limit. On short lists don't believe the break: sides of two readings score very low.

        >>> book = Book()
        >>> book.extend(range(8), [0, 1.1, 1.9, 3.05, 2.95, 2.1, 0.9, 0.02])
        8
        >>> split = book.split(Settings(bound=1, criterion="aic"))
        >>> split.at, split.total, split.tests
        (3, -113.35496093152223, 30)
        >>> book.split(Settings(bound=1, criterion="aic"), limit=29)
        Traceback (most recent call last):
            ...
        stakebook.Refused: refused by 16: ...
        """
        most = _most(limit)
        if limit is not None and group is not None:
            raise TypeError("a group's split has no limit but what the group has left")
        with self._lock:
            n, lists, lent = self._count, settings.codes.lists, self._for_split
            answer = ask(lambda *_: self._library.split(n, *lists, most, *lent), "group_split", group, allowance, n, *lists, *lent)
            return self._broken(settings, answer)
