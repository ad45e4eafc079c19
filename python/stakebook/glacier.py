"""The season book: 32 stakes of a glacier in one memory, each with a book's calls on its part of it."""

from __future__ import annotations

from array import array
from typing import Any, Iterable, Iterator, List, NoReturn, Optional, Tuple, Union, overload

from ._library import MOST, STAKES, Refused, later, of_stakes, whole
from .book import _DEFAULT, BookCalls, Lent, _place
from .results import Band, Fit, Losses, Report, Scores, SeasonReport, Split, Validation
from .settings import Settings


class Stake(BookCalls):
    """A stake of a season, as ``season[3]``: a book's calls on its part of the season's memory. It has no copy, no replay and no course groups."""

    def __init__(self, season: "Season", stake: int) -> None:
        for name in self.ALL:
            setattr(self, name, getattr(season, name))
        # A stake that is none has no part, and is the library's to refuse.
        for name, places in self.PARTS.items():
            places = (places or season.capacity) * (stake < STAKES)
            setattr(self, name, memoryview(getattr(season, name))[stake * places : (stake + 1) * places])
        self._library = season._of_stakes
        self._counts = season._counts
        self._stake = stake
        self._view()

    @property
    def _which(self) -> int:
        return self._stake

    @property
    def _count(self) -> int:
        return self._counts[self._stake] if self._stake < STAKES else 0

    @_count.setter
    def _count(self, count: int) -> None:
        # The library has written it; this is for a change that is taken back.
        if self._stake < STAKES:
            self._counts[self._stake] = count

    @property
    def stake(self) -> int:
        """Its number."""
        return self._stake

    def __reduce__(self) -> NoReturn:
        raise TypeError("a stake can't be pickled: its memory is lent to the library by address")

    def __repr__(self) -> str:
        return f"<Stake {self._stake}: {self._count} of {self._capacity} readings>"


class Season(Lent):
    """The readings of 32 stakes, numbered 0 to 31, unused ones empty: at most ``capacity`` of each, which is 4,096 or less.

    Every call names a stake and is a book's own on it; no other stake's readings or sums change. A call that the library refuses raises
    ``Refused`` and leaves all as it was; a stake above 31 is refused by 18. Threads may share a season.

    >>> season = Season()
    >>> season.extend(3, [0, 1, 2, 3], [1, 3, 6, 7])
    4
    >>> season.add(7, 0.1, 212)
    1
    >>> season.correct(3, 2, 5)
    4
    >>> season.add(32, 0.1, 212)
    Traceback (most recent call last):
        ...
    stakebook.Refused: refused by 18: a stake's number is above 31
    >>> season[3].ys, season[7].count, season.count
    ([1.0, 3.0, 5.0, 7.0], 1, 5)
    >>> print(season.report(settings=Settings(bound=1)).summary())
    2 of 32 stakes are not refused (degrees up to 1, BIC, P95, no tolerance, terms pruned by size)
    stake 3: 4 readings, degree 1, 0 outside the band, no term pruned
    stake 7: 1 reading, degree 0, 0 outside the band, no term pruned
    stakes 0 to 2, 4 to 6, 8 to 31: no readings
    """

    def __init__(self, capacity: int = MOST) -> None:
        self._counts = array("L", bytes(array("L").itemsize * STAKES))
        self._answers = array("Q", bytes(8 * STAKES))
        counts = (_place(self._counts), STAKES)
        self._lend(capacity, STAKES, counts)
        self._of_stakes = of_stakes(self._library)
        self._opened = counts + (_place(self._sums), len(self._sums))
        self._stakes = [Stake(self, stake) for stake in range(STAKES)]
        self.open()

    # ---- what it holds

    @property
    def counts(self) -> List[int]:
        """How many readings each stake holds."""
        with self._lock:
            return self._counts.tolist()

    @property
    def count(self) -> int:
        """How many readings all of them hold."""
        return sum(self.counts)

    @property
    def capacity(self) -> int:
        """How many each can hold."""
        return self._capacity

    def __getitem__(self, stake: int) -> Stake:
        """A stake of 0 to 31, to read and to call as a book."""
        stake = whole(stake, "a stake")
        if stake >= STAKES:
            raise IndexError(f"the stakes are 0 to {STAKES - 1}, and {stake} is none")
        return self._stakes[stake]

    def __iter__(self) -> Iterator[Stake]:
        return iter(self._stakes)

    def columns(self, stake: int) -> Tuple[Any, Any, Any]:
        """x's, y's and weights of a stake without a copy, as ``Book.columns``."""
        return self[stake].columns()

    def bits(self) -> bytes:
        """All stakes' counts, readings and sums as bytes, as ``Book.bits``."""
        return b"".join(b"%d " % each.count + each.bits() for each in self._stakes)

    def __reduce__(self) -> NoReturn:
        raise TypeError("a season can't be pickled: its memory is lent to the library by address")

    def __repr__(self) -> str:
        counts = self.counts
        return f"<Season: {sum(counts)} readings of {sum(map(bool, counts))} stakes>"

    def at(self, stake: int) -> Stake:
        """A stake to call; one above 31 is the library's to refuse."""
        stake = whole(stake, "a stake")
        return self._stakes[stake] if stake < STAKES else Stake(self, stake)

    # ---- changes

    def _open(self, name: str, *stake: int) -> None:
        call = later(self._library, name)
        with self._lock:
            answer = call(*stake, *self._opened)
        if answer >> 56:
            raise Refused(answer >> 56)

    def open(self) -> None:
        """Empties all stakes."""
        self._open("season_open")

    def open_stake(self, stake: int) -> None:
        """Empties one stake."""
        self._open("season_open_stake", whole(stake, "a stake"))

    def add(self, stake: int, x: float, y: float, weight: float = 1.0) -> int:
        """One reading at the end of a stake; answers its new count, and so the next ones. Each is ``Book``'s call of that name."""
        return self.at(stake).add(x, y, weight)

    def extend(self, stake: int, xs: Iterable[float], ys: Iterable[float], weights: Optional[Iterable[float]] = None) -> int:
        return self.at(stake).extend(xs, ys, weights)

    def add_lines(self, stake: int, text: Union[str, bytes]) -> int:
        return self.at(stake).add_lines(text)

    def add_frame(self, stake: int, frame: bytes) -> int:
        return self.at(stake).add_frame(frame)

    def add_window(self, stake: int, x: float, y: float, weight: float = 1.0) -> int:
        return self.at(stake).add_window(x, y, weight)

    def correct(self, stake: int, i: int, y: float) -> int:
        return self.at(stake).correct(i, y)

    def withdraw(self, stake: int, i: int) -> int:
        return self.at(stake).withdraw(i)

    # ---- questions: of a stake they are ``Book``'s

    def fit(self, stake: int, degree: int) -> Fit:
        return self.at(stake).fit(degree)

    @overload
    def band(self, stake: int, x: float, degree: int, settings: Settings = _DEFAULT) -> Band:
        ...

    @overload
    def band(self, stake: int, x: Iterable[float], degree: int, settings: Settings = _DEFAULT) -> List[Band]:
        ...

    def band(self, stake: int, x: Union[float, Iterable[float]], degree: int, settings: Settings = _DEFAULT) -> Union[Band, List[Band]]:
        return self.at(stake).band(x, degree, settings)

    def validate(self, stake: int, folds: int, settings: Settings = _DEFAULT) -> Validation:
        return self.at(stake).validate(folds, settings)

    def losses(self, stake: int, settings: Settings = _DEFAULT) -> Losses:
        return self.at(stake).losses(settings)

    def scores(self, stake: int, settings: Settings = _DEFAULT) -> Scores:
        return self.at(stake).scores(settings)

    def split(self, stake: int, settings: Settings = _DEFAULT, limit: Optional[int] = None) -> Split:
        return self.at(stake).split(settings, limit)

    @overload
    def report(self, stake: int, settings: Settings = _DEFAULT) -> Report:
        ...

    @overload
    def report(self, stake: None = None, settings: Settings = _DEFAULT) -> SeasonReport:
        ...

    def report(self, stake: Optional[int] = None, settings: Settings = _DEFAULT) -> Union[Report, SeasonReport]:
        """The report of a stake; or, by one call of the library, of each stake its report or its refusal, and how many are not refused.

        >>> season = Season()
        >>> season.extend(5, [0.1, 0.3, 0.5, 0.7, 0.9, 1.1], [212, 240.5, 251, 287, 290, 322.5])
        6
        >>> asked = Settings(bound=3, criterion="aic")
        >>> season.report(5, asked).degree
        1
        >>> all_of_them = season.report(settings=asked)
        >>> all_of_them.answered, all_of_them.reports[5] == season.report(5, asked), all_of_them.reports[6].number
        (1, True, 7)
        """
        if stake is not None:
            return self.at(stake).report(settings)
        call = later(self._library, "season_report")
        with self._lock:
            answered = call(*settings.codes.lists, *self._for_report, _place(self._answers), STAKES)
            if answered >> 56:
                raise Refused(answered >> 56)
            reports: List[Union[Report, Refused]] = [
                Refused(answer >> 56) if answer >> 56 else each._reported(Report, settings, answer, (answer & 0xFF) + 1)
                for each, answer in zip(self._stakes, self._answers)
            ]
        return SeasonReport(settings, reports, answered)
