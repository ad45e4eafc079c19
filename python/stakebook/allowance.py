"""What the course groups have left of one machine's time, counted in pivot tests."""

from __future__ import annotations

import threading
from array import array
from typing import Any, List, NoReturn, Optional

from ._library import GROUPS, TABLE, Call, Refused, later, library, whole


class Allowance:
    """A counter for each of eight course groups, numbered 0 to 7, and one quota at which all of them begin.

    ``Book.report``, ``Book.split`` and ``Surface.report`` take it with a group's number, and take their pivot tests from that group alone.
    With too few left they are refused by 16, and the counter stands. Threads may share an allowance: its calls wait for each other.

    >>> from stakebook import Allowance, Book, Settings
    >>> book = Book()
    >>> book.extend([0.1, 0.3, 0.5, 0.7, 0.9, 1.1], [212, 240.5, 251, 287, 290, 322.5])
    6
    >>> asked = Settings(bound=3, criterion="aic")
    >>> book.scores(asked).tests
    10
    >>> allowance = Allowance(15)
    >>> book.report(asked, group=2, allowance=allowance).degree
    1
    >>> allowance.left(2), allowance.left(3)
    (5, 15)
    >>> book.report(asked, group=2, allowance=allowance)
    Traceback (most recent call last):
        ...
    stakebook.Refused: refused by 16: ...
    >>> allowance.renew()
    >>> allowance.left(2)
    15
    """

    def __init__(self, quota: int) -> None:
        self._library = library()
        self._lock = threading.Lock()
        self._table = array("Q", bytes(8 * TABLE))
        self._lent = (self._table.buffer_info()[0], TABLE)
        self.start(quota)

    def start(self, quota: int) -> None:
        """Another quota, at which all groups begin anew."""
        self._change("start", whole(quota, "the quota"))

    def renew(self) -> None:
        """All groups have the whole quota again, whatever they had left."""
        self._change("renew")

    def _change(self, name: str, *arguments: int) -> None:
        call = later(self._library, name)
        with self._lock:
            answer = call(*arguments, *self._lent)
        if answer >> 56:
            raise Refused(answer >> 56)

    @property
    def quota(self) -> int:
        """The pivot tests of each group after a renewal."""
        return self._all()[GROUPS]

    def left(self, group: int) -> int:
        """The pivot tests that a group has left."""
        group = whole(group, "a group")
        if group >= GROUPS:
            raise ValueError(f"the groups are 0 to {GROUPS - 1}, and {group} is none")
        return self._all()[group]

    def _all(self) -> List[int]:
        with self._lock:
            return self._table.tolist()

    def __reduce__(self) -> NoReturn:
        raise TypeError("an allowance can't be pickled: its table is lent to the library by address")

    def __repr__(self) -> str:
        *left, quota = self._all()
        return f"<Allowance: {', '.join(map(str, left))} left of {quota}>"

    def _ask(self, name: str, group: int, *arguments: Any) -> int:
        call = later(self._library, name)
        with self._lock:
            return call(group, *arguments, *self._lent)


def ask(plain: Call, name: str, group: Optional[int], allowance: Optional[Allowance], *arguments: Any) -> int:
    """A call without a group, or the one of that name with it."""
    if allowance is None or group is None:
        if allowance is not None or group is not None:
            raise TypeError("a group and its allowance are given together")
        return plain(*arguments)
    return allowance._ask(name, whole(group, "a group"), *arguments)
