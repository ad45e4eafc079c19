"""The season file as text and on disk: numbers, lines, which of them are left out, reading and appending. docs/SEASON.md has the format."""

from __future__ import annotations

import contextlib
import errno
import fcntl
import json
import os
import re
import stat
import time
import zlib
from typing import Any, Callable, Dict, Iterable, Iterator, List, NamedTuple, NoReturn, Optional, Set, Tuple, Union

from ._library import MOST, Refused
from .book import Book
from .settings import Settings

#: A number as it is given: text as the observer wrote it, or a number of a program.
Number = Union[str, float, int]

FIRST = b"stake season 1"
#: Of a glacier, a file of up to 32 stakes.
FIRST_OF_GLACIER = b"stake season 2"
#: What closes a tail that has no newline. It keeps a line that lacked nothing but its newline from becoming a good one.
CLOSES = b"!\n"


class SeasonError(Exception):
    """A season that can't be read or written, in words."""


class NotSaved(SeasonError):
    """A call was tried and could not be written to the file."""


class RefusedText(Refused):
    """The proved reader refused a number as it is written."""

    #: The number as it was given.
    text: str

    def __init__(self, number: int, text: str) -> None:
        super().__init__(number)
        self.text = text


# ---- numbers

_HEX = re.compile(r"-?0x([01])(?:\.([0-9a-f]{1,13}))?p([+-][0-9]{1,4})")


def _is_exact(text: str) -> bool:
    """Whether a text is a double in hexadecimal, in one of the forms that need no rounding."""
    match = _HEX.fullmatch(text)
    if match is None:
        return False
    lead, digits, exponent = match.group(1), match.group(2) or "", int(match.group(3))
    if lead == "1":
        return -1022 <= exponent <= 1023
    return exponent == -1022 or (exponent == 0 and not digits.strip("0"))


def written(value: Number) -> str:
    """A number as it stands in the file: text as it is, a whole number in decimal, any other double in hexadecimal, which is exact."""
    if isinstance(value, str):
        return value
    if type(value) is int and abs(value) < 10**15:
        return str(value)
    mantissa, _, exponent = float(value).hex().partition("p")
    return mantissa.rstrip("0").rstrip(".") + "p" + exponent if "." in mantissa else mantissa + "p" + exponent


class Numbers(Dict[str, float]):
    """Numbers by their text. Decimals are read by the library alone, all new ones at once, on a book of their own.

    >>> numbers = Numbers()
    >>> numbers.read(["0.30", "-0", "0x1.8p+1"])
    >>> numbers["0.30"], numbers["-0"], numbers["0x1.8p+1"]
    (0.3, -0.0, 3.0)
    >>> numbers.read(["1e3"])
    Traceback (most recent call last):
        ...
    stakebook.season.RefusedText: refused by 13: a line is not two readings with one space between them and a newline behind them
    """

    def read(self, texts: Iterable[str]) -> None:
        new = [text for text in dict.fromkeys(texts) if text not in self]
        decimals = []
        for text in new:
            if "x" in text and _is_exact(text):
                self[text] = float.fromhex(text)
            else:
                decimals.append(text)
        for begin in range(0, len(decimals), 2 * MOST):
            self._read_decimals(decimals[begin : begin + 2 * MOST])

    def _read_decimals(self, texts: List[str]) -> None:
        pairs = texts + ["0"] * (len(texts) % 2)
        firsts, seconds = pairs[0::2], pairs[1::2]
        book = Book(len(firsts))
        try:
            book.add_lines("".join([f"{first} {second}\n" for first, second in zip(firsts, seconds)]))
            whole = book.count == len(firsts)
        except (Refused, UnicodeEncodeError):
            whole = False
        if not whole:
            _refuse_first(texts)
        self.update(zip(firsts, book.xs))
        self.update(zip(seconds, book.ys))


def _refuse_first(texts: List[str]) -> NoReturn:
    """Refuses the first of some texts that the reader refuses when it is alone."""
    for text in texts:
        # A break of lines or a sign that has no bytes would not stay in its line. A question mark is as little of a number.
        line = re.sub(r"[\s\ud800-\udfff]", "?", text) + " 0\n"
        try:
            Book(1).add_lines(line)
        except Refused as refused:
            raise RefusedText(refused.number, text) from None
    raise AssertionError("a text of numbers was refused, and none of them")


# ---- lines

_NAME = r"(r[1-9][0-9]{0,8})"
_WHOLE = r"([1-9][0-9]{0,8})"
_NUMBER = r'([^ "]+)'
_TEXT = r'("[^"\\\x00-\x1f]*(?:\\(?:["\\/bfnrt]|u[0-9a-fA-F]{4})[^"\\\x00-\x1f]*)*")'
_TAIL = rf"(?: source {_TEXT})?(?: note {_TEXT})?(?: at ([0-9]{{4}}-[0-9]{{2}}-[0-9]{{2}}T[0-9]{{2}}:[0-9]{{2}}:[0-9]{{2}}Z))?"
_SETTINGS = (
    r"(surface )?bound (conservative|relaxed|aggressive|0|[1-9][0-9]{0,8}) criterion (aic|bic) "
    r'confidence (P80|P90|P95|P98|P99|P999|[^ "P][^ "]*) tolerance (none|(?:absolute|variance|measurement) [^ "]+) pruning (size|positive)'
)


def _forms(stake: str) -> Dict[str, "re.Pattern[str]"]:
    """What stands behind a line's number and word, by the word. `stake` is the form of a stake's number."""
    reading = rf"{_NAME} {_NUMBER} {_NUMBER}(?: z {_NUMBER})?(?: weight {_NUMBER})?{stake}"
    forms = (
        ("settings", _SETTINGS + _TAIL),
        ("add", reading + _TAIL),
        ("correct", rf"{_NAME} {_NUMBER}{_TAIL}"),
        ("withdraw", _NAME + _TAIL),
        ("import", rf"{_WHOLE}(?: x {_TEXT})?(?: y {_TEXT})?(?: z {_TEXT})?(?: weight {_TEXT})?{stake}{_TAIL}"),
        ("row", rf"{reading}(?: line {_WHOLE})?(?: called {_TEXT})?(?: note {_TEXT})?"),
        ("undo", _WHOLE + _TAIL),
        ("left-out", rf"{_WHOLE} {_WHOLE}{_TAIL}"),
    )
    return {word: re.compile(form) for word, form in forms}


#: Of a season of one stake, where no line has a stake's number, and of a glacier.
_FORMS = {False: _forms("((?!))?"), True: _forms("(?: stake (0|[1-9][0-9]{0,8}))?")}

#: A good line's word and fields; None stands for a line that is not good.
Entry = Optional[Tuple[str, Tuple[Any, ...]]]


def checked(body: bytes) -> bytes:
    return b"%b %08x\n" % (body, zlib.crc32(body))


def number_and_entry(raw: bytes, glacier: bool = False) -> Optional[Tuple[str, Tuple[str, Tuple[Any, ...]]]]:
    """The number that a line says, and its word and fields, if its check is right and it is of a form. Its newline is not in `raw`."""
    body = raw[:-9]
    if raw[-9:] != b" %08x" % zlib.crc32(body):
        return None
    try:
        number, word, rest = body.decode("utf-8").split(" ", 2)
    except ValueError:
        return None
    form = _FORMS[glacier].get(word)
    match = form.fullmatch(rest) if form is not None else None
    return (number, (word, match.groups())) if match is not None else None


def _why(place: int, raw: bytes, ended: bool) -> str:
    """Why a line is not good."""
    body = raw[:-9]
    if not ended:
        return "it is cut off"
    if raw.endswith(CLOSES[:-1]):
        return "it was cut off"
    if raw.endswith(b"\r") and checked(raw[:-10]) == raw[:-1] + b"\n":
        return "its line end was changed to that of Windows"
    if checked(body) != raw + b"\n":
        return "it does not match its check"
    try:
        fields = body.decode("utf-8").split(" ", 2)
    except UnicodeDecodeError:
        return "it is not UTF-8"
    if fields[0] != str(place):
        return f"it says that it is line {fields[0]}"
    if len(fields) < 3 or fields[1] not in _FORMS[False]:
        return "it is no call that this version knows"
    return f"what follows its {fields[1]!r} is not as the format has it"


def said(text: Optional[str]) -> Optional[str]:
    """What a field of text says."""
    if text is None:
        return None
    if "\\" not in text:
        return text[1:-1]
    # Half a pair, which JSON can write and UTF-8 can't, becomes the sign for what can't be read.
    told: str = json.loads(text)
    return told.encode("utf-16", "surrogatepass").decode("utf-16", "replace")


def quoted(text: str) -> str:
    try:
        text.encode("utf-8")
    except UnicodeEncodeError:
        raise SeasonError(f"{text!r} has a sign that UTF-8 does not have, and can't be kept") from None
    return json.dumps(text, ensure_ascii=False)


def _now() -> str:
    """The time, or that of SOURCE_DATE_EPOCH where a file is to come out the same again."""
    fixed = os.environ.get("SOURCE_DATE_EPOCH")
    return time.strftime("%Y-%m-%dT%H:%M:%SZ", time.gmtime(int(fixed) if fixed and fixed.isdigit() else None))


def tail(source: Optional[str], note: Optional[str]) -> str:
    return (f" source {quoted(source)}" if source else "") + (f" note {quoted(note)}" if note else "") + f" at {_now()}"


class SettingsText(NamedTuple):
    """Settings as they stand in a line, their numbers as they were written."""

    bound: str = "relaxed"
    criterion: str = "bic"
    confidence: str = "P95"
    #: none, or a name, a space and a number.
    tolerance: str = "none"
    pruning: str = "size"
    #: What is fitted: nothing for a curve, or surface. It is the season's for good.
    surface: str = ""

    @classmethod
    def of(cls, settings: Settings, surface: str = "") -> "SettingsText":
        tolerance = "none" if settings.tolerance is None else f"{settings.tolerance[0]} {written(settings.tolerance[1])}"
        return cls(
            str(settings.bound),
            settings.criterion,
            settings.confidence if isinstance(settings.confidence, str) else written(settings.confidence),
            tolerance,
            settings.pruning,
            surface,
        )

    @property
    def numbers(self) -> List[str]:
        """The numbers in it."""
        confidence = [] if self.confidence.startswith("P") else [self.confidence]
        return confidence + self.tolerance.split(" ")[1:]

    def meant(self, numbers: Numbers) -> Settings:
        """What the library is given for it. The numbers are read by its own reader."""
        numbers.read(self.numbers)
        name, *value = self.tolerance.split(" ")
        return Settings(
            int(self.bound) if self.bound.isdigit() else self.bound,
            self.criterion,
            self.confidence if self.confidence.startswith("P") else numbers[self.confidence],
            (name, numbers[value[0]]) if value else None,
            self.pruning,
        )

    @property
    def body(self) -> str:
        words = f"settings {self.surface}{' ' * bool(self.surface)}bound {self.bound} criterion {self.criterion} confidence {self.confidence}"
        return f"{words} tolerance {self.tolerance} pruning {self.pruning}"


def counted(number: int, thing: str) -> str:
    """1 reading, 2 readings."""
    return f"{number:,} {thing}" + ("" if number == 1 else "s")


# ---- the lines of a file, good or not


class Scan:
    """The lines of a file, and which of them are left out."""

    def __init__(self, path: str, data: bytes) -> None:
        self.path = path
        self.raw = data.split(b"\n")
        #: Whether the last line has its newline.
        self.ended = self.raw[-1] == b""
        if self.ended:
            self.raw.pop()
        self._first_lines(data)
        self.entries: List[Entry] = [None, None]
        #: Calls on another line than they say: no cut-off write leaves these.
        self.moved: Set[int] = set()
        for place, raw in enumerate(self.raw[1:], 2):
            found = number_and_entry(raw, self.glacier)
            if found is not None and found[0] == str(place):
                self.entries.append(found[1])
            else:
                self.entries.append(None)
                if found is not None and found[1][0] != "row":
                    self.moved.add(place)
        if not self.ended:
            self.entries[-1] = None
        #: Lines marked by a `left-out` line.
        self.marked: Set[int] = set()
        for place, entry in enumerate(self.entries):
            if entry is not None and entry[0] == "left-out":
                self._mark(place, int(entry[1][0]), int(entry[1][1]))
        if self.entries[2] is None or self.entries[2][0] != "settings":
            raise SeasonError(f"{path}: line 2 does not have the season's settings: {self.why(2)}")
        #: The first line of a tail that is torn, or None; and the lines that are not good where the file is damaged, not torn.
        self.torn: Optional[int] = None
        self.damaged: List[int] = []
        broken = self._first_broken()
        if broken is not None:
            if self.moved - self.marked or any(entry is not None and entry[0] != "row" for entry in self.entries[broken + 1 :]):
                self.damaged = self._all_bad()
            else:
                self.torn = broken

    @property
    def count(self) -> int:
        return len(self.raw)

    def _first_lines(self, data: bytes) -> None:
        cut_off = f"{self.path}: the season was cut off while it was made, before anything was in it: remove the file and make it again"
        firsts = (checked(FIRST), checked(FIRST_OF_GLACIER))
        if not self.raw or self.raw[0] + b"\n" not in firsts:
            if any(first.startswith(data) for first in firsts):
                raise SeasonError(cut_off)
            if self.raw[0].rstrip(b"\r") + b"\n" in firsts:
                raise SeasonError(f"{self.path}: its line ends were changed to those of Windows; take them back to those of Unix (dos2unix) first")
            _no_season(self.path, data[:100])
        #: Whether it is a glacier's, of several stakes.
        self.glacier = self.raw[0] + b"\n" == firsts[1]
        if len(self.raw) < 2 or (len(self.raw) == 2 and not self.ended):
            raise SeasonError(cut_off)

    def _mark(self, place: int, first: int, last: int) -> None:
        if not 3 <= first <= last < place or any(entry is not None and entry[0] == "left-out" for entry in self.entries[first : last + 1]):
            raise SeasonError(f"{self.path}: line {place} leaves out lines {first} to {last}, which can't be left out")
        self.marked.update(range(first, last + 1))

    def block(self, place: int) -> range:
        """The places of an import's rows."""
        entry = self.entries[place]
        assert entry is not None
        return range(place + 1, place + 1 + int(entry[1][0]))

    def is_row(self, place: int) -> bool:
        """Whether a place has a row of an import, or one that was given up."""
        entry = self.entries[place]
        return place in self.marked or (entry is not None and entry[0] == "row")

    def _first_broken(self) -> Optional[int]:
        """The first line of the first unit that is not whole and good."""
        place = 2
        while place <= self.count:
            entry = self.entries[place]
            if place not in self.marked:
                if entry is None or entry[0] == "row":
                    return place
                if entry[0] == "import":
                    block = self.block(place)
                    if block.stop > self.count + 1 or not all(map(self.is_row, block)):
                        return place
                    place = block.stop - 1
            place += 1
        return None

    def _all_bad(self) -> List[int]:
        """The lines without which the others could be read: those that are not good, rows with no import, imports that lack rows."""
        bad = []
        place = 2
        while place <= self.count:
            entry = self.entries[place]
            if place not in self.marked:
                if entry is None or entry[0] == "row":
                    bad.append(place)
                elif entry[0] == "import":
                    block = self.block(place)
                    if block.stop <= self.count + 1 and all(self.entries[row] is None or self.is_row(row) for row in block):
                        bad += [row for row in block if not self.is_row(row)]
                        place = block.stop - 1
                    else:
                        bad.append(place)
            place += 1
        return bad

    def why(self, place: int) -> str:
        """Why a line can't be taken."""
        entry = self.entries[place]
        if entry is None:
            return _why(place, self.raw[place - 1], self.ended or place < self.count)
        if entry[0] == "import":
            rows = sum(self.is_row(row) for row in self.block(place) if row <= self.count)
            return f"its import has {rows:,} of its {int(entry[1][0]):,} rows"
        return "it is a row with no import before it" if entry[0] == "row" else f"it is a {entry[0]!r} line"


# ---- the file on disk


def words_of(error: OSError, path: str) -> str:
    return f"{path}: {error.strerror or error}"


def lock(descriptor: int, how: int, waiting: Optional[Callable[[], None]]) -> None:
    try:
        fcntl.flock(descriptor, how | fcntl.LOCK_NB)
    except OSError as error:
        if error.errno not in (errno.EAGAIN, errno.EACCES):
            raise
        if waiting is not None:
            waiting()
        fcntl.flock(descriptor, how)


@contextlib.contextmanager
def opened(path: str, to_write: bool, waiting: Optional[Callable[[], None]]) -> Iterator[int]:
    """The file, locked: for itself to write, with other readers to read."""
    try:
        while True:
            # Something that is no file, a pipe say, might never answer.
            if not stat.S_ISREG(os.stat(path).st_mode):
                raise SeasonError(f"{path}: it is not a file")
            descriptor = os.open(path, (os.O_RDWR | os.O_APPEND if to_write else os.O_RDONLY) | os.O_CLOEXEC)
            try:
                lock(descriptor, fcntl.LOCK_EX if to_write else fcntl.LOCK_SH, waiting)
                # While one waits, the name may have come to mean another file.
                if os.path.samestat(os.fstat(descriptor), os.stat(path)):
                    yield descriptor
                    return
            finally:
                os.close(descriptor)
    except OSError as error:
        raise SeasonError(words_of(error, path)) from error


def read_all(descriptor: int, path: str) -> bytes:
    parts: List[bytes] = []
    at = 0
    while True:
        part = os.pread(descriptor, 1 << 20, at)
        if not part:
            return b"".join(parts)
        # A large file that was named by mistake is not read to its end.
        if at == 0 and part[: len(FIRST) - 1] != FIRST[:-1][: len(part)]:
            _no_season(path, part)
        parts.append(part)
        at += len(part)


def _no_season(path: str, begin: bytes) -> NoReturn:
    line = begin.split(b"\n")[0][:100]
    body = line[:-9]
    if body.startswith(FIRST[:-1]) and checked(body) == line + b"\n":
        raise SeasonError(f"{path}: the season is of version {body[len(FIRST) - 1 :].decode('utf-8', 'replace')}, and this program reads versions 1 and 2")
    if line.startswith((FIRST, FIRST_OF_GLACIER)):
        raise SeasonError(f"{path}: line 1 is damaged: it does not match its check")
    raise SeasonError(f"{path}: it is no season: its first line does not begin with 'stake season 1' or 'stake season 2'")


def write_whole(descriptor: int, data: bytes) -> None:
    """Writes, and goes on where a write was short."""
    left = memoryview(data)
    while left:
        left = left[os.write(descriptor, left) :]


def append_all(descriptor: int, path: str, data: bytes) -> None:
    """Appends, and has it on disk."""
    try:
        write_whole(descriptor, data)
    except OSError as error:
        raise NotSaved(f"{words_of(error, path)}: nothing was saved. What was written of it is left out, and the season is unchanged") from error
    try:
        os.fsync(descriptor)
    except OSError as error:
        raise NotSaved(
            f"{words_of(error, path)}: it was written, but perhaps not to the disk. See by `stake list` whether it is there before you do it again"
        ) from error


def sync_folder(path: str) -> None:
    folder = os.open(os.path.dirname(os.path.abspath(path)), os.O_RDONLY | os.O_DIRECTORY | os.O_CLOEXEC)
    try:
        os.fsync(folder)
    finally:
        os.close(folder)
