"""The C library: where it is found, how its functions are called, and the words of its refusals.

Nothing is decided here. ``include/stakebook.h`` says what each function does.
"""

from __future__ import annotations

import ctypes
import functools
import operator
import os
from pathlib import Path
from typing import Any, Callable, Dict, List, Optional, Tuple

#: Places of the sums, of coefficients, of a band and of the numbers of losses, and the most samples of a book.
SUMS, TERMS, BAND, LOSSES, MOST = 272, 16, 3, 2, 4096

#: The course groups, and the places of their table.
GROUPS, TABLE = 8, 9

#: The stakes of a season.
STAKES = 32

#: The greatest whole number that the library can be given.
SIZE_MAX = ctypes.c_size_t(-1).value

#: Of an answer, all but the refusal's number.
ANSWER = 0x00FF_FFFF_FFFF_FFFF

_SONAME = "libstakebook.so.1"
_HERE = Path(__file__).resolve().parent

Call = Callable[..., int]


class LibraryError(RuntimeError):
    """The C library is not there, or is too old for what was asked."""


def _read_words() -> Dict[int, str]:
    """The refusals' words by number, in the order in which the library checks them."""
    words = {}
    with open(Path(__file__).with_name("refusals.txt"), encoding="utf-8") as lines:
        for line in lines:
            number, _, text = line.rstrip("\n").partition("\t")
            words[int(number)] = text
    return words


#: The words of each refusal by its number, in the order in which the library checks them.
WORDS = _read_words()
_ORDER = {number: place for place, number in enumerate(WORDS)}


class Refused(Exception):
    """The library refused a call, and the book stands as it was.

    >>> try:
    ...     Book().withdraw(3)
    ... except Refused as refused:
    ...     print(refused.number, refused.words)
    6 the index is at or above the count
    """

    #: The refusal's number, 1 to 18, or 255 for a list of calls that is malformed.
    number: int
    #: What it says, as the C header has it.
    words: str

    def __init__(self, number: int, words: Optional[str] = None) -> None:
        if words is None:
            words = WORDS.get(number, "a refusal that this version of the module has no words for")
        super().__init__(number, words)
        self.number = number
        self.words = words

    def __str__(self) -> str:
        return f"refused by {self.number}: {self.words}"


Refused.__module__ = "stakebook"  # its name in a traceback


def first_of(numbers: List[int]) -> int:
    """Of several refusals' numbers the one that is checked first."""
    return min(numbers, key=lambda number: _ORDER.get(number, len(_ORDER)))


def number(value: Any) -> float:
    """A number as the library takes it; it judges which ones will do. Text has a reader of its own, ``add_lines``."""
    if type(value) is float:
        return value
    if isinstance(value, (str, bytes, bytearray)):
        raise TypeError(f"{value!r} is text, not a number; readings as written go by add_lines")
    return float(value)


def whole(value: Any, name: str) -> int:
    """A whole number as the library takes it: one that does not fit in its argument can't be put to it at all."""
    value = operator.index(value)
    if 0 <= value <= SIZE_MAX:
        return int(value)
    raise ValueError(f"{name} is a whole number from 0 to {SIZE_MAX}, not {value}")


_whole, _word, _number = [ctypes.c_size_t], [ctypes.c_uint32], [ctypes.c_double]
_lent = [ctypes.c_void_p, ctypes.c_size_t]
_book = _lent * 4  # xs, ys, ws, sums
_lists = _lent * 2  # words, values
_surface = _lent * 3  # xs, zs, ys
_season = _lent + _book  # counts before them

#: Each function with the types of its arguments; all answer one uint64_t.
DECLARED: Dict[str, List[Any]] = {
    "open": _lent,
    "add": _whole + _number * 3 + _book,
    "add_window": _whole + _number * 3 + _book,
    "correct": _whole * 2 + _number + _book,
    "withdraw": _whole * 2 + _book,
    "add_frame": _whole + _lent + _book,
    "add_lines": _whole + _lent + _book,
    "fit": _whole * 2 + _book + _lent * 2,
    "validate": _whole * 2 + _word + _whole + _word + _book + _lent * 2,
    "band": _whole + _number + _whole + _word + _number + _word + _number + _book + _lent * 2,
    "report_by": _whole + _lists + _book + _lent * 7,
    "losses": _whole + _lists + _book + _lent * 3,
    "split": _whole + _lists + _whole + _book + _lent * 4,
    "replay": _lent * 3 + _whole + _book + _lent * 8,
    "scores": _whole + _lists + _book + _lent * 4,
    "surface_fit": _whole * 2 + _surface + _lent * 2,
    "surface_report": _whole + _lists + _surface + _lent * 7,
    "surface_band": _whole + _number * 2 + _whole + _word + _number + _word + _number + _surface + _lent * 2,
    "start": _whole + _lent,
    "renew": _lent,
    "group_report": _whole * 2 + _lists + _book + _lent * 8,
    "group_surface_report": _whole * 2 + _lists + _surface + _lent * 8,
    "group_split": _whole * 2 + _lists + _book + _lent * 5,
    "season_open": _lent * 2,
    "season_open_stake": _whole + _lent * 2,
    "season_add": _whole + _number * 3 + _season,
    "season_add_window": _whole + _number * 3 + _season,
    "season_correct": _whole * 2 + _number + _season,
    "season_withdraw": _whole * 2 + _season,
    "season_add_frame": _whole + _lent + _season,
    "season_add_lines": _whole + _lent + _season,
    "season_fit": _whole * 2 + _season + _lent * 2,
    "season_validate": _whole * 2 + _word + _whole + _word + _season + _lent * 2,
    "season_band": _whole + _number + _whole + _word + _number + _word + _number + _season + _lent * 2,
    "season_report_stake": _whole + _lists + _season + _lent * 7,
    "season_losses": _whole + _lists + _season + _lent * 3,
    "season_split": _whole + _lists + _whole + _season + _lent * 4,
    "season_scores": _whole + _lists + _season + _lent * 4,
    "season_report": _lists + _season + _lent * 8,
}

#: What a library of an earlier version may lack.
LATER = (
    ("scores", "surface_fit", "surface_report", "surface_band")
    + ("start", "renew", "group_report", "group_surface_report", "group_split")
    + tuple(name for name in DECLARED if name.startswith("season_"))
)

#: A stake's functions by the names of a book's.
_STAKE = {
    **{name: "season_" + name for name in ("add", "add_window", "correct", "withdraw", "add_frame", "add_lines", "fit", "validate", "band")},
    **{name: "season_" + name for name in ("losses", "split", "scores")},
    "report_by": "season_report_stake",
}


class Library:
    """The functions of one library, by their names without ``stakebook_``."""

    open: Call
    add: Call
    add_window: Call
    correct: Call
    withdraw: Call
    add_frame: Call
    add_lines: Call
    fit: Call
    validate: Call
    band: Call
    report_by: Call
    losses: Call
    split: Call
    replay: Call
    scores: Optional[Call]
    surface_fit: Optional[Call]
    surface_report: Optional[Call]
    surface_band: Optional[Call]
    start: Optional[Call]
    renew: Optional[Call]
    group_report: Optional[Call]
    group_surface_report: Optional[Call]
    group_split: Optional[Call]

    def __init__(self, path: str) -> None:
        try:
            loaded = ctypes.CDLL(path)
        except OSError as error:
            raise LibraryError(f"the library {path} can't be loaded: {error}") from error
        #: The file, or the name by which the system found it.
        self.path = path
        for name, arguments in DECLARED.items():
            try:
                function = loaded["stakebook_" + name]
            except AttributeError:
                if name not in LATER:
                    raise LibraryError(f"the library {path} has no function stakebook_{name}") from None
                setattr(self, name, None)
                continue
            function.argtypes = arguments
            function.restype = ctypes.c_uint64
            setattr(self, name, function)


def later(loaded: Library, name: str) -> Call:
    """One of the functions that a library of an earlier version may lack."""
    call: Optional[Call] = getattr(loaded, name)
    if call is None:
        raise LibraryError(f"the library {loaded.path} has no function stakebook_{name}: it is of an earlier version")
    return call


def of_stakes(loaded: Library) -> Library:
    """The functions of a season's stakes under the names of a book's: they take a stake's number for the count, and the counts before the columns."""
    made = Library.__new__(Library)
    made.path = loaded.path
    for name, theirs in _STAKE.items():
        setattr(made, name, later(loaded, theirs))
    return made


def _places() -> Tuple[Path, ...]:
    """Where a library is looked for: beside the package, then PREFIX/lib of an installed one, or where `make` puts it in a checkout."""
    if _HERE.parent.name == "dist-packages":
        where = _HERE.parents[2] / _SONAME
    else:
        where = _HERE.parents[1] / "target" / "lib" / "libstakebook.so"
    return _HERE / _SONAME, _HERE / "libstakebook.so", where


@functools.lru_cache(maxsize=None)
def library() -> Library:
    """The library, loaded once: STAKEBOOK_LIBRARY's, else beside the package, else its tree's, else the system's."""
    named = os.environ.get("STAKEBOOK_LIBRARY")
    if named:
        return Library(named)
    for place in _places():
        if place.exists():
            return Library(str(place))
    try:
        return Library(_SONAME)
    except LibraryError:
        looked = ", ".join(str(place) for place in _places())
        raise LibraryError(
            f"no library was found: not by STAKEBOOK_LIBRARY, which is not set, not as {looked}, and not as the system's {_SONAME};"
            " install libstakebook, or run `make` in the checkout"
        ) from None
