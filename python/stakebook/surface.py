"""A surface: readings with two coordinates, depth and elevation say, and what is fitted to them."""

from __future__ import annotations

import threading
from typing import Any, Iterable, List, NoReturn, Optional, Tuple, Union, overload

from ._library import MOST, Refused, first_of, later, number, whole
from .allowance import Allowance, ask
from .book import _DEFAULT, Book, Calls, _column, _many, _place
from .results import Replayed, SurfaceBand, SurfaceFit, SurfaceReport, surface_terms
from .settings import Settings


class Surface:
    """Readings of y at an x and a z each, unweighted, at most ``capacity`` of them, which is 4,096 or less.

    A surface has the terms x^a z^b with a + b up to its total degree, which is 4 at most. A call that the library refuses raises
    ``Refused`` and leaves the readings as they were. Threads may share a surface.

    >>> surface = Surface()
    >>> surface.extend([0, 1, 0, 1], [0, 0, 1, 1], [1, 3, 4, 6])
    4
    >>> print(surface.fit(1).summary())
    degree 1 through 4 readings
    term  coefficient
    1               1
    x               2
    z               3
    >>> surface.add(0.5, float("nan"), 4)
    Traceback (most recent call last):
        ...
    stakebook.Refused: refused by 4: ...
    >>> surface.count
    4
    """

    def __init__(self, capacity: int = MOST) -> None:
        self._lend(Book(capacity), Book(capacity))

    def _lend(self, by_x: Book, by_z: Book) -> None:
        # The library reads a surface from three columns. Two books keep them, x with y and z with y, so that every change is judged and
        # made by the library too; of the first the surface takes also the memory that its answers are written to.
        self._books = by_x, by_z
        self._lock = threading.Lock()
        self._library = by_x._library
        places = by_x.capacity
        lent = (_place(by_x._xs), places, _place(by_z._xs), places, _place(by_x._ys), places)
        own = len(by_x._lent)
        self._for_fit, self._for_report, self._for_band = (lent + of[own:] for of in (by_x._for_fit, by_x._for_report, by_x._for_band))

    # ---- what it holds

    @property
    def count(self) -> int:
        """How many readings it holds."""
        return self._books[0].count

    def __len__(self) -> int:
        return self.count

    @property
    def capacity(self) -> int:
        """How many it can hold."""
        return self._books[0].capacity

    @property
    def xs(self) -> List[float]:
        """The readings' x's, a copy."""
        with self._lock:
            return self._books[0].xs

    @property
    def zs(self) -> List[float]:
        """The readings' z's, a copy."""
        with self._lock:
            return self._books[1].xs

    @property
    def ys(self) -> List[float]:
        """The readings' y's, a copy."""
        with self._lock:
            return self._books[0].ys

    def bits(self) -> bytes:
        """The readings as bytes, to compare two surfaces."""
        with self._lock:
            return b"".join(book.bits() for book in self._books)

    def __reduce__(self) -> NoReturn:
        raise TypeError("a surface can't be pickled: its memory is lent to the library by address")

    def __repr__(self) -> str:
        return f"<Surface: {self.count} of {self.capacity} readings>"

    # ---- changes

    def _change(self, moves: bool, name: str, by_x: Tuple[Any, ...], by_z: Tuple[Any, ...]) -> int:
        """Makes a change of both books or of neither, also where it is interrupted between them. `moves` says that readings may move."""
        with self._lock:
            were = [(book, book._count, book._keep(book._count if moves else 0)) for book in self._books]
            refusals = []
            try:
                for book, arguments in zip(self._books, (by_x, by_z)):
                    try:
                        getattr(book, name)(*arguments)
                    except Refused as refused:
                        refusals.append(refused.number)
                if refusals:
                    raise Refused(first_of(refusals))
            except BaseException:
                for book, count, kept in were:
                    book._restore(count, kept)
                raise
            return self.count

    def add(self, x: float, z: float, y: float) -> int:
        """One reading at the end; answers the new count."""
        return self._change(False, "add", (x, y), (z, y))

    def extend(self, xs: Iterable[float], zs: Iterable[float], ys: Iterable[float]) -> int:
        """Many readings at the end, all or none; answers the new count. Numpy arrays of float64 are read where they stand."""
        columns = [_column(values) for values in (xs, zs, ys)]
        if len({len(column) for column in columns}) > 1:
            raise ValueError(f"the columns are of different lengths: {', '.join(str(len(column)) for column in columns)}")
        return self._change(False, "extend", (columns[0], columns[2]), (columns[1], columns[2]))

    def correct(self, i: int, y: float) -> int:
        """Reading i, counted from 0, gets a new y; answers the count."""
        return self._change(True, "correct", (i, y), (i, y))

    def withdraw(self, i: int) -> int:
        """Reading i, counted from 0, goes, and the later ones move down one; answers the new count."""
        return self._change(True, "withdraw", (i,), (i,))

    @classmethod
    def replay(cls, by_x: Calls, by_z: Calls, capacity: int = MOST) -> Tuple["Surface", List[Replayed]]:
        """A surface made by a list of changes, and what each of them answered: ``by_x`` has the adds' x and y, ``by_z`` the same with z for x."""
        (first, answers), (second, others) = Book.replay(by_x, capacity), Book.replay(by_z, capacity)
        surface = cls.__new__(cls)
        surface._lend(first, second)
        return surface, [answer if answer.refusal else other for answer, other in zip(answers, others)]

    # ---- questions

    def fit(self, degree: int) -> SurfaceFit:
        """The surface of a total degree, 0 to 4; it needs as many readings as it has terms: 1, 3, 6, 10, 15."""
        degree = whole(degree, "a degree")
        call, book = later(self._library, "surface_fit"), self._books[0]
        with self._lock:
            answer = call(book._count, degree, *self._for_fit)
            if answer >> 56:
                raise Refused(answer >> 56)
            return SurfaceFit(book._count, answer, book._coefficients[: surface_terms(answer)].tolist())

    def report(self, settings: Settings = _DEFAULT, *, group: Optional[int] = None, allowance: Optional[Allowance] = None) -> SurfaceReport:
        """Chooses a total degree, fits it, and says how far the surface can be trusted. With a course group and its allowance it costs its
        pivot tests.

        Total degrees with more terms than readings are not tried. Give the bound as a degree, 4 at most: a bound by name passes 4 where
        there are many readings, which is refused by 8.

        >>> surface = Surface()
        >>> surface.extend([0, 1, 2, 0, 1, 2], [0, 0, 0, 1, 1, 1], [1, 3.25, 5, 4, 5.75, 8])
        6
        >>> report = surface.report(Settings(bound=1))
        >>> report.degree, report.terms, report.df
        (1, ['1', 'x', 'z'], 3)
        """
        call, book = later(self._library, "surface_report"), self._books[0]
        with self._lock:
            answer = ask(call, "group_surface_report", group, allowance, book._count, *settings.codes.lists, *self._for_report)
            return book._reported(SurfaceReport, settings, answer, surface_terms(answer & 0xFF))

    @overload
    def band(self, x: float, z: float, degree: int, settings: Settings = _DEFAULT) -> SurfaceBand:
        ...

    @overload
    def band(self, x: Iterable[float], z: Iterable[float], degree: int, settings: Settings = _DEFAULT) -> List[SurfaceBand]:
        ...

    def band(
        self, x: Union[float, Iterable[float]], z: Union[float, Iterable[float]], degree: int, settings: Settings = _DEFAULT
    ) -> Union[SurfaceBand, List[SurfaceBand]]:
        """The band around the surface of a total degree at a point, or at each of many: where the surface lies, and not where single readings do.

        x and z are two numbers, or two sequences of the same length. Of the settings it takes confidence and tolerance. Where one of
        many is refused there is no answer to any.

        >>> surface = Surface()
        >>> surface.extend([0, 1, 0, 1], [0, 0, 1, 1], [1, 3, 4, 6])
        4
        >>> print(surface.band(0.5, 0.5, 1).summary())
        at x 0.5, z 0.5 the surface of degree 1 is 3.5, between 3.5 and 3.5
        """
        if _many(x) != _many(z):
            raise ValueError("x and z are two numbers, or two sequences")
        if not _many(x):
            return self._bands([(number(x), number(z))], degree, settings)[0]
        xs, zs = [[number(each) for each in values] for values in (x, z)]  # type: ignore[union-attr]
        if len(xs) != len(zs):
            raise ValueError(f"the columns are of different lengths: {len(xs)}, {len(zs)}")
        return self._bands(list(zip(xs, zs)), degree, settings)

    def _bands(self, points: List[Tuple[float, float]], degree: int, settings: Settings) -> List[SurfaceBand]:
        degree = whole(degree, "a degree")
        call, book = later(self._library, "surface_band"), self._books[0]
        asked, lent, numbers = settings.codes.band, self._for_band, book._numbers
        bands = []
        with self._lock:
            for x, z in points:
                answer = call(book._count, x, z, degree, *asked, *lent)
                if answer:
                    raise Refused(answer >> 56)
                bands.append(SurfaceBand(x, z, degree, *numbers))
        return bands
