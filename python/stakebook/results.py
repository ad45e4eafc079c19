"""What a book answers. Each result has ``summary()``, a text to read, and ``as_dict()``, all of it for programs.

A summary rounds to six digits; ``as_dict`` keeps every digit.
"""

from __future__ import annotations

from dataclasses import dataclass, fields
from typing import Any, ClassVar, Dict, List, NamedTuple, Optional, Union

from ._library import Refused
from .settings import Settings, plain


def _six(value: float) -> str:
    return f"{value:.6g}"


def _term(power: int) -> str:
    return ("1", "x")[power] if power < 2 else f"x^{power}"


def _counted(n: int, what: str) -> str:
    return f"{n} {what}" if n == 1 else f"{n} {what}s"


def _table(rows: List[List[str]]) -> List[str]:
    """Rows as text, the first column to the left and the others to the right."""
    widths = [max(len(row[i]) for row in rows) for i in range(len(rows[0]))]
    lines = []
    for row in rows:
        cells = [row[0].ljust(widths[0])] + [cell.rjust(width) for cell, width in zip(row[1:], widths[1:])]
        lines.append("  ".join(cells).rstrip())
    return lines


def _curve(coefficients: List[float]) -> List[str]:
    return [_term(i) for i in range(len(coefficients))]


def _terms(coefficients: List[float], names: Optional[List[str]] = None) -> List[str]:
    return _table([["term", "coefficient"]] + [[name, _six(c)] for name, c in zip(names or _curve(coefficients), coefficients)])


class Result:
    """What all results have."""

    def as_dict(self) -> Dict[str, Any]:
        """All of it by name, as JSON can hold it: floats with every digit, and "inf", "-inf" or "nan" for those that are not finite."""
        return {field.name: plain(getattr(self, field.name)) for field in fields(self)}

    def summary(self) -> str:
        """A text to read, with six digits."""
        raise NotImplementedError


@dataclass(frozen=True)
class Fit(Result):
    """The curve of a degree. Its value at an x is the book's to say: ``Book.band``."""

    n: int
    degree: int
    #: Those of 1, x, x^2 .., degree + 1 of them.
    coefficients: List[float]

    @property
    def terms(self) -> List[str]:
        """The names of the terms, in the coefficients' order."""
        return _curve(self.coefficients)

    def summary(self) -> str:
        return "\n".join([f"degree {self.degree} through {_counted(self.n, 'reading')}"] + _terms(self.coefficients, self.terms))


@dataclass(frozen=True)
class Band(Result):
    """Where the curve itself lies at an x, and not where single readings do."""

    x: float
    degree: int
    value: float
    lower: float
    upper: float

    def summary(self) -> str:
        return f"at {_six(self.x)} the curve of degree {self.degree} is {_six(self.value)}, between {_six(self.lower)} and {_six(self.upper)}"


@dataclass(frozen=True)
class Validation(Result):
    """The curve of the degree that cross-validation chooses."""

    settings: Settings
    n: int
    folds: int
    degree: int
    coefficients: List[float]

    def summary(self) -> str:
        first = f"{_counted(self.n, 'reading')} in {self.folds} folds: degree {self.degree} by {self.settings.criterion.upper()}"
        return "\n".join([first] + _terms(self.coefficients))


@dataclass(frozen=True)
class DegreeScore(Result):
    """One degree within the bound: whether it is solved, and then its score."""

    degree: int
    solved: bool
    #: None where the degree is unsolved.
    score: Optional[float]

    def summary(self) -> str:
        return f"degree {self.degree}: " + ("unsolved" if self.score is None else f"score {_six(self.score)}")


@dataclass(frozen=True)
class Scores(Result):
    """Why a report chooses its degree: the lowest whose score is at most 2 above the least."""

    settings: Settings
    n: int
    #: The chosen one.
    degree: int
    #: The highest that was tried.
    bound: int
    least: float
    #: How many degrees were solved.
    solved: int
    degrees: List[DegreeScore]
    #: Pivot tests made.
    tests: int

    @property
    def within(self) -> List[int]:
        """The degrees whose score is at most 2 above the least, of which the lowest is chosen."""
        return [each.degree for each in self.degrees if each.score is not None and each.score - self.least <= 2.0]

    def summary(self) -> str:
        within = self.within
        rows = [["degree", self.settings.criterion.upper(), "above least", ""]]
        for each in self.degrees:
            if each.score is None:
                rows.append([str(each.degree), "unsolved", "", ""])
                continue
            mark = "chosen" if each.degree == self.degree else "within 2" if each.degree in within else ""
            rows.append([str(each.degree), _six(each.score), _six(each.score - self.least), mark])
        first = f"{_counted(self.n, 'reading')}, degrees 0 to {self.bound}: {self.solved} solved, degree {self.degree} chosen"
        return "\n".join([first] + _table(rows))


@dataclass(frozen=True)
class Report(Result):
    """The chosen curve, and how far it can be trusted."""

    #: What is fitted, in a word.
    shape: ClassVar[str] = "curve"

    settings: Settings
    n: int
    #: The chosen one.
    degree: int
    #: How many of the degrees from 0 to the bound were solved.
    solved: int
    #: Those of 1, x, x^2 .., degree + 1 of them, and so the next three.
    coefficients: List[float]
    errors: List[float]
    #: The size of each coefficient over its error.
    t: List[float]
    #: Whether a term is insignificant: the curve can do without it.
    pruned: List[bool]
    #: Degrees of freedom: readings less coefficients.
    df: int
    #: The band at each reading: where the curve lies, and not where single readings do.
    lower: List[float]
    upper: List[float]
    #: Whether a reading lies outside the band, which does not make it a bad one.
    outliers: List[bool]

    @property
    def terms(self) -> List[str]:
        """The names of the terms, in the coefficients' order."""
        return _curve(self.coefficients)

    @property
    def outside(self) -> List[int]:
        """The indices of the readings outside the band."""
        return [i for i, out in enumerate(self.outliers) if out]

    def summary(self) -> str:
        rows = [["term", "coefficient", "error", "t", ""]]
        for name, c, e, t, pruned in zip(self.terms, self.coefficients, self.errors, self.t, self.pruned):
            rows.append([name, _six(c), _six(e), _six(t), "pruned" if pruned else ""])
        outside = self.outside
        where = f": {', '.join(map(str, outside))}" if outside else ""
        return "\n".join(
            [f"{_counted(self.n, 'reading')}: degree {self.degree}, {_counted(self.solved, 'degree')} solved ({self.settings.summary()})"]
            + _table(rows)
            + [
                f"{_counted(self.df, 'degree')} of freedom",
                f"{len(outside)} of {self.n} outside the band, which is the {self.shape}'s and not the readings'{where}",
            ]
        )


@dataclass(frozen=True)
class SeasonReport(Result):
    """The reports of all stakes of a season, with the same settings."""

    settings: Settings
    #: One a stake, in order: its report, or why there is none.
    reports: List[Union[Report, Refused]]
    #: How many stakes are not refused.
    answered: int

    def as_dict(self) -> Dict[str, Any]:
        reports = [
            {"refused": {"number": each.number, "words": each.words}} if isinstance(each, Refused) else each.as_dict() for each in self.reports
        ]
        return {"settings": self.settings.as_dict(), "reports": reports, "answered": self.answered}

    @property
    def lines(self) -> List[str]:
        """A line for each stake, and one for all that have no readings."""
        lines, empty = [], []
        for stake, each in enumerate(self.reports):
            if not isinstance(each, Refused):
                lines.append(f"stake {stake}: {in_a_line(each)}")
            elif each.number == 7:
                empty.append(stake)
            else:
                lines.append(f"stake {stake}: {each}")
        return lines + ([f"{stakes(empty)}: no readings"] if empty else [])

    def summary(self) -> str:
        return "\n".join([f"{self.answered} of {len(self.reports)} stakes are not refused ({self.settings.summary()})"] + self.lines)


def in_a_line(report: Report) -> str:
    """A report in one line: readings, degree, how many lie outside the band, and which terms are pruned."""
    pruned = [term for term, mark in zip(report.terms, report.pruned) if mark]
    words = f"{_counted(report.n, 'reading')}, degree {report.degree}, {len(report.outside)} outside the band"
    return words + (f", pruned: {', '.join(pruned)}" if pruned else ", no term pruned")


def runs(numbers: List[int]) -> str:
    """1, 2, 3, 7 as 1 to 3, 7."""
    found: List[List[int]] = []
    for number in numbers:
        if found and number == found[-1][1] + 1:
            found[-1][1] = number
        else:
            found.append([number, number])
    return ", ".join(str(first) if first == last else f"{first} to {last}" for first, last in found)


def stakes(numbers: List[int]) -> str:
    return f"stake{'s' * (len(numbers) > 1)} {runs(numbers)}"


@dataclass(frozen=True)
class Losses(Result):
    """The Huber loss of each reading at the degree that a report chooses, and the score that is made of them."""

    settings: Settings
    n: int
    degree: int
    losses: List[float]
    #: The losses added up in their order from 0.
    total: float
    score: float

    def summary(self) -> str:
        rows = [["reading", "loss"]] + [[str(i), _six(loss)] for i, loss in enumerate(self.losses)]
        first = f"{_counted(self.n, 'reading')}, degree {self.degree}: {self.settings.criterion.upper()} {_six(self.score)}"
        return "\n".join([first] + _table(rows + [["total", _six(self.total)]]))


@dataclass(frozen=True)
class Split(Result):
    """The list broken in two, each side with a curve of its own. Don't believe a break of a short list."""

    settings: Settings
    n: int
    #: How many readings lie before the break: the index of the first one behind it.
    at: int
    degree_before: int
    degree_after: int
    before: List[float]
    after: List[float]
    #: The sum of the two sides' scores, the least of all breaks.
    total: float
    #: Pivot tests made.
    tests: int

    def summary(self) -> str:
        lines = [f"{_counted(self.n, 'reading')}, broken before reading {self.at}: total {_six(self.total)}, {_counted(self.tests, 'pivot test')}"]
        for words, degree, first, last, coefficients in (
            ("before", self.degree_before, 0, self.at - 1, self.before),
            ("after", self.degree_after, self.at, self.n - 1, self.after),
        ):
            lines += [f"{words}: readings {first} to {last}, degree {degree}"] + _terms(coefficients)
        return "\n".join(lines)


class Replayed(NamedTuple):
    """What one call of a replayed list answered."""

    #: The refusal's number, 0 for none.
    refusal: int
    #: How many readings the book has after it; 0 where it was refused.
    n: int


# ---- surfaces


def _factor(letter: str, power: int) -> str:
    return ("", letter, letter + "²", letter + "³", letter + "⁴")[power]


#: The terms x^a z^b of a surface, by a + b and then by falling a.
SURFACE_TERMS = ["1"] + [_factor("x", total - b) + _factor("z", b) for total in range(1, 5) for b in range(total + 1)]


def surface_terms(degree: int) -> int:
    """How many of them a total degree has: 1, 3, 6, 10, 15."""
    return (degree + 1) * (degree + 2) // 2


class _OfSurface(Result):
    """What a surface's results have in place of a curve's."""

    shape: ClassVar[str] = "surface"
    coefficients: List[float]

    @property
    def terms(self) -> List[str]:
        """The names of the terms, in the coefficients' order: 1, x, z, x², xz, z² .."""
        return SURFACE_TERMS[: len(self.coefficients)]

    def as_dict(self) -> Dict[str, Any]:
        return {**super().as_dict(), "terms": self.terms}


@dataclass(frozen=True)
class SurfaceFit(_OfSurface, Fit):
    """The surface of a total degree. Its value at a point is the surface's to say: ``Surface.band``."""


@dataclass(frozen=True)
class SurfaceReport(_OfSurface, Report):
    """The chosen surface, and how far it can be trusted. ``degree`` is the total one; it has 1, 3, 6, 10 or 15 terms."""


@dataclass(frozen=True)
class SurfaceBand(Result):
    """Where the surface itself lies at a point, and not where single readings do."""

    x: float
    z: float
    degree: int
    value: float
    lower: float
    upper: float

    def summary(self) -> str:
        where = f"at x {_six(self.x)}, z {_six(self.z)}"
        return f"{where} the surface of degree {self.degree} is {_six(self.value)}, between {_six(self.lower)} and {_six(self.upper)}"
