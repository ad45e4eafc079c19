"""A season for other programs: a table, a frame, or the list of calls that `journal` runs (docs/JOURNAL.md)."""

from __future__ import annotations

import csv
import io
import os
import struct
from typing import List

from .season import Answers
from .seasonfile import SeasonError, counted
from .settings import Settings

#: The most readings of a frame, whose length has 16 bits.
FRAME_MOST = (0xFFFF - 1) // 24


def to_csv(season: Answers) -> bytes:
    """The readings that stand, with their numbers as they were written. `stake import` takes it back, weights with --weight weight, z with --z z,
    a glacier's stakes with --stake-column stake."""
    text = io.StringIO(newline="")
    table = csv.writer(text, lineterminator="\n")
    table.writerow(["reading"] + ["stake"] * season.glacier + ["x", "y", "z" if season.surface else "weight", "name", "source", "note"])
    for reading in season.standing:
        third = reading.z_text if season.surface else reading.weight_text
        stake = [reading.stake] if season.glacier else []
        row = [reading.name, *stake, reading.x_text, reading.y_text, third, reading.called or "", reading.source or "", reading.note or ""]
        table.writerow(row)
    return text.getvalue().encode("utf-8")


def to_frame(season: Answers) -> bytes:
    """The readings that stand as one frame of version 2."""
    _of_curves(season, "a frame")
    readings = season.standing
    if len(readings) > FRAME_MOST:
        raise SeasonError(f"a frame holds at most {FRAME_MOST:,} readings, and {counted(len(readings), 'reading')} stand: take csv or calls")
    samples = b"".join(struct.pack(">3d", reading.x, reading.y, reading.weight) for reading in readings)
    return struct.pack(">HB", 1 + len(samples), 2) + samples


def _of_curves(season: Answers, what: str) -> None:
    if season.surface:
        raise SeasonError(f"{season.path}: {what} has no place for a z: take csv")


def _bits(value: float) -> str:
    return struct.pack(">d", value).hex().upper()


def report_call(settings: Settings) -> str:
    """The line of `journal` for a report."""
    bound = f"custom {settings.bound}" if isinstance(settings.bound, int) else f"{settings.bound} 0"
    confidence = f"{settings.confidence.lower()} {_bits(0.0)}" if isinstance(settings.confidence, str) else f"custom {_bits(settings.confidence)}"
    tolerance = f"none {_bits(0.0)}" if settings.tolerance is None else f"{settings.tolerance[0]} {_bits(settings.tolerance[1])}"
    return f"report {bound} {settings.criterion} {confidence} {tolerance} {settings.pruning}"


def to_calls(season: Answers) -> bytes:
    """The calls in force, a report with the season's settings, and what it wrote, for `journal`."""
    _of_curves(season, "a list of a book's calls")
    # A comment is a line, and a file's name may have a line break in it.
    name = os.path.basename(season.path).encode("unicode_escape").decode("ascii")
    lines: List[str] = [f"# {name}: the calls in force, for journal (docs/JOURNAL.md)", "open"]
    calls = season.calls
    for kind, index, x, y, weight in zip(calls.kinds, calls.indices, calls.xs, calls.ys, calls.ws):
        if kind == 0:
            lines.append(f"add {_bits(x)} {_bits(y)} {_bits(weight)}")
        elif kind == 1:
            lines.append(f"correct {index} {_bits(y)}")
        else:
            lines.append(f"withdraw {index}")
    n = season.book.count
    lines += [report_call(season.settings), "show coefficients 0 16", "show errors 0 16", "show pruned 0 16"]
    lines += [f"show {memory} 0 {n}" for memory in ("lower", "upper", "outliers")]
    return "".join(line + "\n" for line in lines).encode("ascii")


#: By the name of the format.
FORMATS = {"csv": to_csv, "frame": to_frame, "calls": to_calls}
