"""The mirror image of a season: its calls with the sign of every y changed, and what must become of the answers (document 02, E13).

That it is so is proved of the library; here a season's own numbers are compared, and nothing is written.
"""

from __future__ import annotations

from array import array
from dataclasses import dataclass, field, replace
from typing import Any, Callable, Dict, List, Optional, Sequence, Tuple, TypeVar

from ._library import Refused
from .book import Book, Calls
from .results import Report, Scores
from .season import Answers
from .seasonfile import counted
from .settings import Settings, plain
from .surface import Surface

_Answer = TypeVar("_Answer")


@dataclass
class Mirrored:
    """What a comparison with the mirror image found."""

    path: str
    settings: Settings
    calls: int
    readings: int
    #: What was compared and agrees, in words.
    agree: List[str] = field(default_factory=list)
    #: The first difference, in words.
    difference: Optional[str] = None

    def as_dict(self) -> Dict[str, Any]:
        names = ("path", "settings", "calls", "readings", "agree", "difference")
        return {"good": self.difference is None, **{name: plain(getattr(self, name)) for name in names}}


class _Differs(Exception):
    """The first difference."""


def _same(one: float, other: float) -> bool:
    """Equal as numbers: zeros of either sign are alike, and NaN matches NaN."""
    return one == other or (one != one and other != other)


def _compare(what: str, ours: Sequence[float], theirs: Sequence[float], expected: Optional[Sequence[float]] = None) -> None:
    """Compares numbers with those of the mirror image. `expected` is what these must be, where they are not to be equal."""
    due = ours if expected is None else expected
    if len(due) != len(theirs):
        raise _Differs(f"{what}: {len(due)} here, {len(theirs)} in the mirror image")
    for place, (our, must, their) in enumerate(zip(ours, due, theirs)):
        if not _same(must, their):
            raise _Differs(f"{what} {place}: {our!r} here, {their!r} in the mirror image, where {must!r} is due")


def _equal(what: str, ours: int, theirs: int) -> None:
    if ours != theirs:
        raise _Differs(f"{what}: {ours} here, {theirs} in the mirror image")


def _opposite(values: Sequence[float]) -> List[float]:
    return [-value for value in values]


def compare_reports(ours: Report, theirs: Report) -> List[str]:
    """What of two reports agrees, or the first difference."""
    _equal("readings", ours.n, theirs.n)
    _equal("solved degrees", ours.solved, theirs.solved)
    _equal("chosen degree", ours.degree, theirs.degree)
    _compare("coefficient", ours.coefficients, theirs.coefficients, _opposite(ours.coefficients))
    _compare("error", ours.errors, theirs.errors)
    _compare("pruned term", ours.pruned, theirs.pruned)
    _compare("lower end of the band, there the upper, at reading", ours.lower, theirs.upper, _opposite(ours.lower))
    _compare("upper end of the band, there the lower, at reading", ours.upper, theirs.lower, _opposite(ours.upper))
    _compare("outlier mark of reading", ours.outliers, theirs.outliers)
    return [
        f"the number of solved degrees, {ours.solved}, and the chosen degree, {ours.degree}, are equal",
        f"{counted(len(ours.coefficients), 'coefficient')}: of opposite sign",
        f"{counted(len(ours.errors), 'error')} and {counted(len(ours.pruned), 'mark')} of pruned terms, by size: equal",
        f"{counted(len(ours.lower), 'band')}: lower and upper have changed places and sign",
        f"{counted(len(ours.outliers), 'outlier mark')}: equal",
    ]


def compare_scores(ours: Scores, theirs: Scores) -> List[str]:
    """The same of the scores by degree."""
    _equal("highest degree tried", ours.bound, theirs.bound)
    _equal("solved degrees of the scores", ours.solved, theirs.solved)
    _equal("chosen degree of the scores", ours.degree, theirs.degree)
    _compare("whether solved, degree", [each.solved for each in ours.degrees], [each.solved for each in theirs.degrees])
    _compare("score of degree", *([0.0 if each.score is None else each.score for each in of.degrees] for of in (ours, theirs)))
    return [f"{counted(ours.solved, 'score')} by degree: equal"]


def _compare_answers(
    what: str, ask: Callable[[Any], _Answer], books: Tuple[Any, Any], compare: Callable[[_Answer, _Answer], List[str]]
) -> List[str]:
    """Asks both books the same. Where they refuse, the numbers are compared."""
    answers: List[_Answer] = []
    refusals = []
    for book in books:
        try:
            answers.append(ask(book))
            refusals.append(0)
        except Refused as refused:
            refusals.append(refused.number)
    if refusals[0] != refusals[1]:
        words = ["answered" if not number else f"refused by {number}" for number in refusals]
        raise _Differs(f"{what}: {words[0]} here, {words[1]} in the mirror image")
    if refusals[0]:
        return [f"{what}: both {Refused(refusals[0])}"]
    return compare(answers[0], answers[1])


def _image(calls: Calls) -> Calls:
    """The same calls with the sign of every y changed."""
    image = Calls()
    for name in Calls.__slots__:
        getattr(image, name).extend(getattr(calls, name))
    image.ys = array("d", _opposite(calls.ys))
    return image


def check(season: Answers) -> Mirrored:
    """Runs the calls of a season twice, as they are and mirrored, and compares the reports of both, with terms pruned by size."""
    settings = replace(season.settings, pruning="size")
    lists = season.lists
    (ours, answers), (theirs, others) = (
        Surface.replay(*of) if season.surface else Book.replay(*of) for of in (lists, [_image(calls) for calls in lists])
    )
    found = Mirrored(season.path, settings, len(lists[0]), len(ours))
    try:
        _compare("refusal of call", [answer.refusal for answer in answers], [answer.refusal for answer in others])
        found.agree.append(f"{counted(found.calls, 'call')}: {sum(bool(answer.refusal) for answer in answers)} refused, the same by number")
        books = (ours, theirs)
        found.agree += _compare_answers("the report", lambda book: book.report(settings), books, compare_reports)
        if not season.surface:
            found.agree += _compare_answers("the scores", lambda book: book.scores(settings), books, compare_scores)
    except _Differs as differs:
        found.difference = str(differs)
    return found
