"""What a report is asked with."""

from __future__ import annotations

import ctypes
import functools
import math
from dataclasses import dataclass
from typing import Any, Dict, NamedTuple, Optional, Tuple, Union

from ._library import number, whole

_BOUNDS = {"conservative": 0, "relaxed": 1, "aggressive": 2}
_CUSTOM_DEGREE = 3
_CRITERIA = {"aic": 0, "bic": 1}
_CONFIDENCES = {"P80": 0, "P90": 1, "P95": 2, "P98": 3, "P99": 4, "P999": 5}
_CUSTOM_SCORE = 6
_TOLERANCES = {"absolute": 1, "variance": 2, "measurement": 3}
_NO_TOLERANCE = 0
_PRUNINGS = {"positive": 0, "size": 1}


def _named(value: Any, names: Dict[str, int], what: str, or_else: str = "") -> int:
    """The library's number for a name."""
    if isinstance(value, str) and value in names:
        return names[value]
    known = ", ".join(repr(name) for name in names)
    raise ValueError(f"{what} is one of {known}{or_else}, not {value!r}")


def plain(value: Any) -> Any:
    """A value as JSON has it. A float keeps all its digits; one that is not finite, which JSON has no word for, becomes text: "inf", "-inf", "nan"."""
    if isinstance(value, float):
        return value if math.isfinite(value) else repr(value)
    if isinstance(value, (list, tuple)):
        return [plain(each) for each in value]
    if hasattr(value, "as_dict"):
        return value.as_dict()
    return value


class Codes(NamedTuple):
    """Settings as the library takes them."""

    #: The two lists of stakebook_report_by, each with its length: words, values.
    lists: Tuple[Any, int, Any, int]
    #: Of a validation: bound, its degree, criterion.
    validation: Tuple[int, int, int]
    #: Of a band: confidence, its score, tolerance, its number.
    band: Tuple[int, float, int, float]


@dataclass(frozen=True)
class Settings:
    """How a degree is bounded and scored, and how far a curve is trusted.

    An unknown name is a ``ValueError``. Numbers go to the library as they are: a degree above 15 or a score that is not finite
    is refused by the call that is given it.

    >>> Settings()
    Settings(bound='relaxed', criterion='bic', confidence='P95', tolerance=None, pruning='size')
    >>> print(Settings(bound=3, criterion="aic", tolerance=("absolute", 5)).summary())
    degrees up to 3, AIC, P95, tolerance absolute 5, terms pruned by size
    >>> Settings(criterion="cp")
    Traceback (most recent call last):
        ...
    ValueError: criterion is one of 'aic', 'bic', not 'cp'
    """

    #: "conservative", "relaxed", "aggressive" (which need many readings), or the highest degree to try.
    bound: Union[int, str] = "relaxed"
    #: "aic" or "bic", both made from Huber losses.
    criterion: str = "bic"
    #: "P80", "P90", "P95", "P98", "P99", "P999", or a z score.
    confidence: Union[float, str] = "P95"
    #: What a band allows besides: None, or "absolute", "variance" or "measurement" with its number.
    tolerance: Optional[Tuple[str, float]] = None
    #: "size", or polyfit's "positive", which marks no negative term.
    pruning: str = "size"

    def __post_init__(self) -> None:
        # Numbers of other kinds, numpy's say, become plain ones; `codes` finds names that are unknown.
        if not isinstance(self.bound, (str, bool)) and hasattr(self.bound, "__index__"):
            object.__setattr__(self, "bound", whole(self.bound, "the bound's degree"))
        if not isinstance(self.confidence, (str, bool)) and hasattr(self.confidence, "__float__"):
            object.__setattr__(self, "confidence", number(self.confidence))
        if self.tolerance is not None:
            if isinstance(self.tolerance, str) or len(self.tolerance) != 2:
                raise ValueError(f"tolerance is None or a name and a number, not {self.tolerance!r}")
            object.__setattr__(self, "tolerance", (self.tolerance[0], number(self.tolerance[1])))
        self.codes

    @functools.cached_property
    def codes(self) -> Codes:
        """What the library is given for them, made once."""
        bound, most = _CUSTOM_DEGREE, 0
        if type(self.bound) is int:
            most = self.bound
        else:
            bound = _named(self.bound, _BOUNDS, "bound", " or a degree")
        criterion = _named(self.criterion, _CRITERIA, "criterion")
        confidence, score = _CUSTOM_SCORE, 0.0
        if type(self.confidence) is float:
            score = self.confidence
        else:
            confidence = _named(self.confidence, _CONFIDENCES, "confidence", " or a z score")
        tolerance, value = _NO_TOLERANCE, 0.0
        if self.tolerance is not None:
            tolerance, value = _named(self.tolerance[0], _TOLERANCES, "tolerance"), self.tolerance[1]
        pruning = _named(self.pruning, _PRUNINGS, "pruning")
        # By the header a degree above 32 bits is as good as the greatest word.
        words = (ctypes.c_uint32 * 6)(bound, min(most, 0xFFFF_FFFF), criterion, confidence, tolerance, pruning)
        values = (ctypes.c_double * 2)(score, value)
        return Codes((words, 6, values, 2), (bound, most, criterion), (confidence, score, tolerance, value))

    def __reduce__(self) -> Tuple[Any, ...]:
        # The codes are made anew: they are the library's lists, and no part of what was asked.
        return Settings, (self.bound, self.criterion, self.confidence, self.tolerance, self.pruning)

    def summary(self) -> str:
        """In one line."""
        bound = f"degrees up to {self.bound}" if isinstance(self.bound, int) else f"bound {self.bound}"
        confidence = self.confidence if isinstance(self.confidence, str) else f"z score {self.confidence:.6g}"
        tolerance = "no tolerance" if self.tolerance is None else f"tolerance {self.tolerance[0]} {self.tolerance[1]:.6g}"
        pruning = "terms pruned by size" if self.pruning == "size" else "only positive terms pruned"
        return f"{bound}, {self.criterion.upper()}, {confidence}, {tolerance}, {pruning}"

    def as_dict(self) -> Dict[str, Any]:
        """By name, for programs."""
        return {
            "bound": self.bound,
            "criterion": self.criterion,
            "confidence": plain(self.confidence),
            "tolerance": plain(self.tolerance),
            "pruning": self.pruning,
        }
