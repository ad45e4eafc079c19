"""The stake book: the readings of one season, or of 32 stakes, curves fitted to them, the degree chosen for them, and bands around them.

Every number comes from the proved library, and this module decides nothing that the library decides. It needs the standard
library alone; numpy arrays are taken where numpy is there.

>>> from stakebook import Book, Settings
>>> book = Book()
>>> book.extend([0, 1, 2, 3], [1, 3, 5, 7])
4
>>> print(book.fit(1).summary())
degree 1 through 4 readings
term  coefficient
1               1
x               2
"""

from ._library import LibraryError, MOST, Refused, WORDS
from .allowance import Allowance
from .book import Book, Calls
from .glacier import Season, Stake
from .results import (
    Band,
    DegreeScore,
    Fit,
    Losses,
    Replayed,
    Report,
    Scores,
    SeasonReport,
    Split,
    SurfaceBand,
    SurfaceFit,
    SurfaceReport,
    Validation,
)
from .settings import Settings
from .surface import Surface

__all__ = [
    "Allowance",
    "Band",
    "Book",
    "Calls",
    "DegreeScore",
    "Fit",
    "LibraryError",
    "Losses",
    "MOST",
    "Refused",
    "Replayed",
    "Report",
    "Scores",
    "Season",
    "SeasonReport",
    "Settings",
    "Split",
    "Stake",
    "Surface",
    "SurfaceBand",
    "SurfaceFit",
    "SurfaceReport",
    "Validation",
    "WORDS",
]
