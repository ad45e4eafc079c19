"""Tables of readings as programs and observers send them: comma, semicolon or tab, decimal comma, CRLF, a byte order mark, missing values.

Nothing is guessed from the numbers. docs/STAKE.md has the rules; what a number is, the library's reader says.
"""

from __future__ import annotations

import codecs
import csv
import io
import os
import re
import sys
from dataclasses import dataclass
from typing import Dict, Iterable, List, Optional, Sequence, Tuple

from .season import NewRow
from .seasonfile import Numbers, RefusedText, SeasonError, counted

#: Headings by which a column is found without an option. Case, and what stands in brackets, do not count.
X_NAMES = ("x", "depth", "tiefe", "profondeur", "profondità", "profondita")
Y_NAMES = ("y", "density", "dichte", "densité", "densite", "densità", "densita")
OWN_NAMES = ("name",)
REMARK_NAMES = ("note", "notes", "remark", "remarks", "bemerkung", "remarque", "nota")

#: What stands where nothing was measured, case aside.
MISSING = ("", "na", "n/a", "#n/a", "nan", "null", "none", "-", "--")

_DELIMITERS = (("\t", "tab"), (";", "semicolon"), (",", "comma"))

#: A line with no number missing: which it is, its numbers as they stand there, the observer's name and remark.
_Taken = Tuple[int, Dict[str, str], Optional[str], Optional[str]]


class TableError(SeasonError):
    """A table that can't be imported: which file and line, and why."""


class RefusedField(RefusedText):
    """A number of a table that the library's reader refused."""

    #: File, line and column.
    where: str

    def __init__(self, number: int, text: str, where: str) -> None:
        super().__init__(number, text)
        self.where = where


@dataclass
class Table:
    """The readings of a table, none of them added yet."""

    source: str
    rows: List[NewRow]
    #: The headings of x, y, the weight and z.
    columns: Tuple[str, str, Optional[str], Optional[str]]
    #: The lines that are left out, since a number is missing in them.
    missing: List[int]
    delimiter: str
    decimal_comma: bool
    encoding: str


def decimal_point(text: str) -> str:
    """A decimal comma becomes a point, as text; anything else stays as it is."""
    return text.replace(",", ".") if text.count(",") == 1 and "." not in text else text


def read_bytes(path: str) -> bytes:
    """A file's bytes, or those of standard input for a path of one minus."""
    try:
        if path == "-":
            return sys.stdin.buffer.read()
        with open(path, "rb") as file:
            return file.read()
    except OSError as error:
        raise TableError(f"{path}: {error.strerror or error}") from error


def _decoded(data: bytes, source: str) -> Tuple[str, str]:
    """The text, and by which encoding. A byte order mark says which; without one it is UTF-8, and what is not that is Windows' of western Europe."""
    if data.startswith((codecs.BOM_UTF16_LE, codecs.BOM_UTF16_BE)):
        encodings, mark = ["UTF-16"], 0
    elif data.startswith(codecs.BOM_UTF8):
        encodings, mark = ["UTF-8"], len(codecs.BOM_UTF8)
    else:
        encodings, mark = ["UTF-8", "Windows-1252"], 0
    line = 1
    for encoding in encodings:
        try:
            text = data[mark:].decode(encoding)
        except UnicodeDecodeError as error:
            line = data.count(b"\n", 0, mark + error.start) + 1
            continue
        if "\0" in text:
            raise TableError(f"{source}:{text.count(chr(10), 0, text.index(chr(0))) + 1}: it has a byte 0, and so it is no text")
        return text, encoding
    raise TableError(f"{source}:{line}: it is {'not ' + encodings[0] if len(encodings) == 1 else 'neither ' + ' nor '.join(encodings)}")


def _begin(text: str, source: str) -> Tuple[str, int, str]:
    """From its heading on: the text, how many lines stand before, and the delimiter. Lines of comment before the heading are passed over, and so is
    Excel's `sep=` line."""
    lines = io.StringIO(text, newline="")
    before = at = 0
    delimiter: Optional[str] = None
    for line in lines:
        content = line.strip("\r\n")
        told = re.fullmatch(r"sep=([,;\t])", content)
        if told is None and content.strip() and not content.startswith("#"):
            unquoted = re.sub(r'"[^"]*"', "", content)
            delimiter = delimiter or next((sign for sign, _ in _DELIMITERS if sign in unquoted), None)
            if delimiter is None:
                raise TableError(f"{source}:{before + 1}: there is no tab, semicolon or comma between headings: {content.strip()!r}")
            return text[at:], before, delimiter
        if told is not None:
            delimiter = told.group(1)
        at += len(line)
        before += 1
    raise TableError(f"{source}:1: there is no line of headings in it")


def _plain(heading: str) -> str:
    return " ".join(re.sub(r"\([^)]*\)|\[[^\]]*\]", " ", heading).casefold().split())


def _column(headings: Sequence[str], asked: Optional[str], known: Sequence[str], option: str, where: str, needed: bool) -> Optional[int]:
    """The column of a heading: the one asked for, or the one with a known heading."""
    names = ", ".join(repr(heading) for heading in headings)
    if asked is not None:
        exact = [i for i, heading in enumerate(headings) if heading == asked.strip()]
        found = exact or [i for i, heading in enumerate(headings) if heading.casefold() == asked.strip().casefold()]
        if len(found) == 1:
            return found[0]
        raise TableError(f"{where}: {'no' if not found else 'more than one'} column is headed {asked!r}; the headings are {names}")
    found = [i for i, heading in enumerate(headings) if _plain(heading) in known]
    if len(found) == 1:
        return found[0]
    if needed:
        which = "none is known as" if not found else "more than one may be"
        raise TableError(f"{where}: give {option} COLUMN: of the headings {which} that of {option[2:]}; they are {names}")
    return None


def read_table(
    path: str,
    x: Optional[str] = None,
    y: Optional[str] = None,
    weight: Optional[str] = None,
    name: Optional[str] = None,
    remarks: Optional[str] = None,
    missing: Iterable[str] = (),
    data: Optional[bytes] = None,
    z: Optional[str] = None,
    stake: Optional[str] = None,
) -> Table:
    """The readings of a table, or a `TableError` or `RefusedField` with file and line of what is wrong."""
    source = "standard input" if path == "-" else os.path.basename(path)
    text, encoding = _decoded(read_bytes(path) if data is None else data, source)
    rest, before, delimiter = _begin(text, source)
    reader = csv.reader(io.StringIO(rest, newline=""), delimiter=delimiter, skipinitialspace=delimiter != "\t", strict=True)
    try:
        headings = [heading.strip() for heading in next(reader)]
        where = f"{source}:{before + 1}"
        at = {
            "x": _column(headings, x, X_NAMES, "--x", where, True),
            "y": _column(headings, y, Y_NAMES, "--y", where, True),
            # A pit's sheet may have the snow's weight in grams: a weight is taken only where it is asked for.
            "weight": _column(headings, weight, (), "--weight", where, False) if weight is not None else None,
            "z": _column(headings, z, (), "--z", where, False) if z is not None else None,
            "stake": _column(headings, stake, (), "--stake-column", where, False) if stake is not None else None,
        }
        own, remark = _column(headings, name, OWN_NAMES, "--name", where, False), _column(headings, remarks, REMARK_NAMES, "--remarks", where, False)
        numbers = {key: column for key, column in at.items() if column is not None}
        if len(set(numbers.values())) < len(numbers):
            raise TableError(f"{where}: one column can't be two of x, y, z, the weight and the stake")
        taken: List[_Taken] = []
        left: List[int] = []
        absent = {*MISSING, *(sign.casefold() for sign in missing)}
        line = before + reader.line_num + 1
        for row in reader:
            fields = [field.strip() for field in row]
            if any(fields):
                while len(fields) > len(headings) and not fields[-1]:
                    fields.pop()
                if len(fields) != len(headings):
                    raise TableError(f"{source}:{line}: it has {counted(len(fields), 'field')}, and the heading has {len(headings)}")
                values = {key: fields[column] for key, column in numbers.items()}
                if any(value.casefold() in absent for value in values.values()):
                    left.append(line)
                else:
                    taken.append((line, values, fields[own] if own is not None else None, fields[remark] if remark is not None else None))
            line = before + reader.line_num + 1
    except csv.Error as error:
        raise TableError(f"{source}:{before + reader.line_num}: {error}") from error
    columns = {key: headings[column] for key, column in numbers.items()}
    comma = _decimal_comma(taken, source)
    rows = []
    for line, values, called, note in taken:
        texts = {key: decimal_point(values[key]) for key in numbers}
        of = texts.get("stake")
        if of is not None and not re.fullmatch(r"[0-9]{1,9}", of):
            raise TableError(f"{source}:{line}: column {columns['stake']!r}: {of!r} is no whole number, and so no stake's")
        number = int(of) if of is not None else None
        rows.append(NewRow(texts["x"], texts["y"], texts.get("weight"), line, called or None, note or None, texts.get("z"), number))
    try:
        Numbers().read([text for row in rows for text in (*row[:3], row.z) if text is not None])
    except RefusedText as refused:
        _refuse(refused, taken, rows, columns, source)
    names = dict(_DELIMITERS)
    return Table(source, rows, (columns["x"], columns["y"], columns.get("weight"), columns.get("z")), left, names[delimiter], comma, encoding)


def _decimal_comma(taken: Sequence[_Taken], source: str) -> bool:
    """Whether the table has decimal commas. If it has points too, one of them may part thousands, and nobody can say which."""
    comma = point = None
    for line, values, _, _ in taken:
        for value in values.values():
            if "," in value and "." not in value:
                comma = comma or line
            elif "." in value and "," not in value:
                point = point or line
    if comma and point:
        raise TableError(f"{source}:{max(comma, point)}: line {comma} has a decimal comma and line {point} a decimal point; a table has one of them")
    return comma is not None


def _refuse(refused: RefusedText, taken: Sequence[_Taken], rows: Sequence[NewRow], columns: Dict[str, str], source: str) -> None:
    for (line, values, _, _), row in zip(taken, rows):
        for key, text in zip(("x", "y", "weight", "z"), (*row[:3], row.z)):
            if text == refused.text:
                raise RefusedField(refused.number, values[key], f"{source}:{line}: column {columns[key]!r}") from None
    raise refused
