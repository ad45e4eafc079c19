"""A season: readings with names that stay, the settings, and the book that the calls of a season file make."""

from __future__ import annotations

import contextlib
import fcntl
import itertools
import os
from array import array
from dataclasses import dataclass
from typing import Any, Callable, Dict, Iterable, Iterator, List, NamedTuple, NoReturn, Optional, Sequence, Set, Tuple, Union

from ._library import STAKES, Refused
from .book import Book, BookCalls, Calls
from .glacier import Season
from .results import Report, Scores, SeasonReport, Split, stakes
from .seasonfile import (
    CLOSES,
    FIRST,
    FIRST_OF_GLACIER,
    Number,
    Numbers,
    NotSaved,
    RefusedText,
    Scan,
    SeasonError,
    SettingsText,
    append_all,
    checked,
    counted,
    lock,
    number_and_entry,
    opened,
    quoted,
    read_all,
    said,
    sync_folder,
    tail,
    words_of,
    write_whole,
    written,
)
from .settings import Settings
from .surface import Surface

#: Below so many readings on a side a break is not to be believed.
MANY = 10


class Row(NamedTuple):
    """A reading as it was given."""

    name: str
    x_text: str
    y_text: str
    weight_text: str
    source: Optional[str]
    note: Optional[str]
    called: Optional[str]
    line: int
    #: Of a surface's reading, and so in what follows.
    z_text: Optional[str] = None
    #: Of a glacier's, and so in what follows.
    stake: Optional[int] = None


@dataclass(eq=False)
class Reading:
    """A reading of the season, as it is now."""

    #: r1, r2, ..: it stays, whatever becomes of others.
    name: str
    #: The numbers as they were written.
    x_text: str
    y_text: str
    weight_text: str
    #: Where it comes from, as pit.csv:3.
    source: Optional[str]
    note: Optional[str]
    #: Its place in the book, or None if it was withdrawn.
    index: Optional[int]
    #: The observer's own name for it.
    called: Optional[str]
    #: The line of the file on which it was given.
    line: int
    x: float
    y: float
    weight: float
    #: The y's that it had before it was corrected, the oldest first.
    was: Tuple[str, ...] = ()
    z_text: Optional[str] = None
    z: Optional[float] = None
    stake: Optional[int] = None

    @property
    def state(self) -> str:
        """stands, corrected or withdrawn."""
        return "withdrawn" if self.index is None else "corrected" if self.was else "stands"


class Call:
    """A call of the season, an import being one."""

    #: How many lines it takes.
    lines = 1
    #: Whether it was taken back.
    undone = False
    #: The reading's name, of add, correct and withdraw.
    name: Optional[str] = None
    #: The readings of an add or import.
    rows: Sequence[Row] = ()
    #: A correction's y, and the one that it replaced.
    y_text = was = ""
    settings: Tuple[str, ...] = ()
    #: An import's headings of x, y, the weight and z.
    columns: Tuple[Optional[str], ...] = (None, None, None, None)
    #: Of an undo, the call that it takes back; of left-out, the lines.
    of: Any = None

    def __init__(self, line: int, call: str, source: Optional[str], note: Optional[str], at: Optional[str]) -> None:
        #: Its first line.
        self.line = line
        #: new, settings, import, add, correct, withdraw, undo or left-out.
        self.call = call
        self.source = source
        self.note = note
        self.time = at

    @property
    def text(self) -> str:
        """The call in words."""
        if self.call == "add":
            row = self.rows[0]
            weight = f", weight {row.weight_text}" if row.weight_text != "1" else ""
            z = f", z {row.z_text}" if row.z_text else ""
            return f"add {row.name}: x {row.x_text}{z}, y {row.y_text}{weight}{self._of_stakes}"
        if self.call == "import":
            names = self.rows[0].name + (f" to {self.rows[-1].name}" if len(self.rows) > 1 else "") if self.rows else "none"
            return f"import of {counted(len(self.rows), 'reading')} ({names}) from {self.source or 'an unnamed source'}{self._of_stakes}"
        if self.call == "correct":
            return f"correct {self.name}: y {self.y_text}, was {self.was}"
        if self.call == "withdraw":
            return f"withdraw {self.name}"
        if self.call == "undo":
            return f"undo of line {self.of.line}: {self.of.text}"
        if self.call == "left-out":
            first, last = self.of
            return f"line {first} left out" if first == last else f"lines {first} to {last} left out"
        bound, criterion, confidence, tolerance, pruning, surface = self.settings
        words = f"bound {bound}, {criterion}, confidence {confidence}, tolerance {tolerance}, pruning {pruning}"
        return (f"a new season{' of a surface' * bool(surface)}: " if self.call == "new" else "settings: ") + words


    @property
    def stakes(self) -> List[int]:
        """The stakes of a glacier whose readings it gives."""
        return sorted({row.stake for row in self.rows if row.stake is not None})

    @property
    def _of_stakes(self) -> str:
        return f", {stakes(self.stakes)}" if self.stakes else ""


def _judged(settings: Union[Settings, SettingsText], numbers: Numbers, surface: str) -> SettingsText:
    """Has the library refuse settings by which a report would be refused, by 4 or 8, however the readings are. A bound is capped by the readings less
    one, so that a degree above 15 is judged from 17 on, and a surface's above 4 from 6 on."""
    meant = settings.meant(numbers) if isinstance(settings, SettingsText) else settings
    book: Union[Book, Surface] = Surface(6) if surface else Book(17)
    book.extend(*([range(book.capacity)] * (3 if surface else 2)))
    try:
        book.report(meant)
    except Refused as refused:
        if refused.number in (4, 8):
            raise
    text = settings if isinstance(settings, SettingsText) else SettingsText.of(settings)
    return text._replace(surface=surface)


class NewRow(NamedTuple):
    """A reading of an import, before it has a name."""

    x: str
    y: str
    weight: Optional[str] = None
    line: Optional[int] = None
    called: Optional[str] = None
    note: Optional[str] = None
    z: Optional[str] = None
    stake: Optional[int] = None


class RefusedName(Refused):
    """The library refused a change of a reading that is not in the book."""

    #: What became of the reading.
    why: str

    def __init__(self, number: int, why: str) -> None:
        super().__init__(number)
        self.why = why


class RefusedRow(Refused):
    """The library refused one reading of an import."""

    #: Which, from 0.
    row: int

    def __init__(self, number: int, row: int) -> None:
        super().__init__(number)
        self.row = row


def _state(descriptor: int) -> Tuple[int, ...]:
    """By which a file that was changed is told from one that was not."""
    status = os.fstat(descriptor)
    return (status.st_dev, status.st_ino, status.st_size, status.st_mtime_ns)


_NO_SURFACES = "the library has no surfaces by stakes: a glacier of several stakes has curves alone"
_ONE_STAKE = "it is a season of one stake, which has no number; a glacier of several is begun by `stake new --glacier`"


def _lines_named(first: int, last: int) -> str:
    return f"line {first}" if first == last else f"lines {first} to {last}"


# ---- a season


class Answers:
    """What is asked of a season of one stake, or of a stake of a glacier."""

    #: The file.
    path: str
    #: The Book as replayed, or the Surface; of a glacier the Season, and of a stake of it the Stake.
    book: Any
    settings: Settings
    settings_text: SettingsText
    #: All readings not undone, in the order in which they were given.
    readings: List[Reading]
    #: All calls of the file, in its order; of a stake those that are not of others alone.
    history: List[Call]
    #: Lines that are left out, in words.
    left_out: List[str]
    #: Of these, the tail that was cut off and that no line of the file tells of yet; None if there is none.
    torn: Optional[str]
    #: Whether it is a glacier, and its book a Season of several stakes.
    glacier = False
    #: Of a stake of a glacier, which it is.
    number: Optional[int] = None
    #: The calls in force, and how the list that is run has them.
    _stack: List[Call]
    _orders: Dict[int, List[Reading]]

    @property
    def standing(self) -> List[Reading]:
        """The readings in the book, in its order; of a glacier stake by stake."""
        return [reading for stake in sorted(self._orders) for reading in self._orders[stake]]

    @property
    def surface(self) -> bool:
        """Whether it is a season of a surface: its readings have a z, and its book is a Surface."""
        return bool(self.settings_text.surface)

    @property
    def calls(self) -> Calls:
        """The adds, corrections and withdrawals in force, as the list that the book is made of."""
        raise NotImplementedError

    @property
    def lists(self) -> List[Calls]:
        """That list; and of a surface a second one, with z for x."""
        return [self.calls]

    def report(self, settings: Optional[Settings] = None) -> Report:
        self._of_one()
        report: Report = self.book.report(settings or self.settings)
        return report

    def scores(self, settings: Optional[Settings] = None) -> Scores:
        self._of_one()
        if self.surface:
            raise SeasonError(f"{self.path}: the library answers no scores of a surface; its report has the chosen total degree")
        scores: Scores = self.book.scores(settings or self.settings)
        return scores

    def _of_one(self) -> None:
        if self.glacier:
            raise SeasonError(f"{self.path}: it is a glacier of {STAKES} stakes: ask one of them")

    def _column(self, which: int) -> Optional[str]:
        return next((call.columns[which] for call in self._stack if call.columns[which]), None)

    @property
    def x_name(self) -> Optional[str]:
        """The heading of x in the first import, and so the next two."""
        return self._column(0)

    @property
    def y_name(self) -> Optional[str]:
        return self._column(1)

    @property
    def weight_name(self) -> Optional[str]:
        return self._column(2)

    @property
    def z_name(self) -> Optional[str]:
        return self._column(3)

    def warnings(self, report: Optional[Report] = None, scores: Optional[Scores] = None, split: Optional[Split] = None) -> List[str]:
        """Where the numbers can mislead, each in a sentence or two. Of the season's own report, if none is given."""
        said = []
        if report is None:
            report = self.report()
        if scores is None and not self.surface:
            scores = self.scores(report.settings)
        n = report.n
        # Of a surface no call answers the bound: below 16 readings one by name is 0.
        bound = scores.bound if scores is not None else 0 if n < 16 else 1
        if bound == 0 and isinstance(report.settings.bound, str):
            said.append(
                f"The bound {report.settings.bound!r} allows degree 0 alone at {counted(n, 'reading')}: a bound by name needs many readings."
                " Give the highest degree to try instead, as --bound 2."
            )
        unsolved = [each.degree for each in scores.degrees if not each.solved] if scores is not None else []
        if unsolved:
            different = len(set(self.book.xs))
            words = f"Of the degrees 0 to {bound}, {len(unsolved)} could not be solved ({', '.join(map(str, unsolved))})"
            if unsolved[0] < different:
                said.append(f"{words}: x lies far from 0 beside its spread. Subtract the middle of the x's from every x, and all may be.")
            else:
                said.append(f"{words}: there are {counted(different, 'different value')} of x, and a degree needs one more than its number.")
        if report.df == 0:
            said.append(
                f"There are as many coefficients as readings: the {report.shape} goes through all of them, and its errors and band say nothing."
            )
        outside = sum(report.outliers)
        if outside:
            said.append(
                f"{outside:,} of {counted(n, 'reading')} {'lies' if outside == 1 else 'lie'} outside the band. It is the band of the mean {report.shape}: it says where the"
                f" {report.shape} lies, not where single readings do, and grows narrower with more of them. So a mark is no sign of a bad reading."
            )
        if split is not None and min(split.at, split.n - split.at) < MANY:
            said.append(
                f"One side of the break has {counted(min(split.at, split.n - split.at), 'reading')}. Sides of few readings score very low, so"
                " don't believe the break of a short list: look at the readings about it."
            )
        return said


class SeasonFile(Answers):
    """A season: its readings by name, its settings, and the book that its calls make.

    >>> import os, tempfile
    >>> folder = tempfile.TemporaryDirectory()
    >>> season = SeasonFile.create(os.path.join(folder.name, "pit.stake"), Settings(bound=2))
    >>> season.add("0.10", "212", source="field book, page 12").name
    'r1'
    >>> season.add("0.30", "287").name
    'r2'
    >>> season.correct("r2", "278", note="mistyped").y_text
    '278'
    >>> again = SeasonFile.open(season.path)
    >>> [(reading.name, reading.x_text, reading.y_text, reading.state) for reading in again.readings]
    [('r1', '0.10', '212', 'stands'), ('r2', '0.30', '278', 'corrected')]
    >>> again.book.bits() == season.book.bits()
    True
    >>> folder.cleanup()
    """

    def __init__(self, path: Union[str, "os.PathLike[str]"], waiting: Optional[Callable[[], None]] = None) -> None:
        """Use `SeasonFile.open` and `SeasonFile.create`. `waiting` is called where another program has the file."""
        self.path = os.fspath(path)
        self._waiting = waiting
        self._numbers = Numbers()
        #: How the file was when it was last read or written.
        self._known: Optional[Tuple[int, ...]] = None

    @classmethod
    def open(cls, path: Union[str, "os.PathLike[str]"], waiting: Optional[Callable[[], None]] = None) -> "SeasonFile":
        """Reads a season, and makes its book by running its calls again."""
        season = cls(path, waiting)
        with opened(season.path, False, waiting) as descriptor:
            season._catch_up(descriptor)
        return season

    @classmethod
    def create(
        cls,
        path: Union[str, "os.PathLike[str]"],
        settings: Union[Settings, SettingsText] = SettingsText(),
        source: Optional[str] = None,
        note: Optional[str] = None,
        surface: bool = False,
        glacier: bool = False,
    ) -> "SeasonFile":
        """A new season, in a file that was not there; of a surface, if its readings have a z; of a glacier, if they are of several stakes."""
        path = os.fspath(path)
        if surface and glacier:
            raise SeasonError(_NO_SURFACES)
        text = _judged(settings, Numbers(), "surface" if surface else "")
        data = checked(FIRST_OF_GLACIER if glacier else FIRST) + checked(f"2 {text.body}{tail(source, note)}".encode())
        try:
            descriptor = os.open(path, os.O_WRONLY | os.O_CREAT | os.O_EXCL | os.O_APPEND | os.O_CLOEXEC, 0o666)
        except FileExistsError:
            raise SeasonError(f"{path}: it is there already, and is left as it is") from None
        except OSError as error:
            raise SeasonError(words_of(error, path)) from error
        try:
            lock(descriptor, fcntl.LOCK_EX, None)
            write_whole(descriptor, data)
            os.fsync(descriptor)
            sync_folder(path)
        except OSError as error:
            # Nothing was ever in it, and so nothing is lost.
            os.unlink(path)
            raise NotSaved(f"{words_of(error, path)}: no season was made") from error
        finally:
            os.close(descriptor)
        return cls.open(path)

    # ---- reading

    def _catch_up(self, descriptor: int) -> None:
        """Reads the file, if it is not as this season knows it."""
        state = _state(descriptor)
        if self._known != state:
            self._known = None
            self._load(read_all(descriptor, self.path))
            self._known = state

    def _load(self, data: bytes) -> None:
        scan = Scan(self.path, data)
        if scan.damaged:
            first = scan.damaged[0]
            more = f" ({counted(len(scan.damaged), 'line')} in all)" if len(scan.damaged) > 1 else ""
            raise SeasonError(f"{self.path}: line {first} is damaged: {scan.why(first)}{more}; `stake check` says more")
        self._lines, self._ended, self._torn_from, self.glacier = scan.count, scan.ended, scan.torn, scan.glacier
        self.history, self.left_out, self.torn = [], [], None
        self._stack = []
        self._ys: Dict[str, List[str]] = {}
        self._gone: Set[str] = set()
        self._last_name = 0
        pending: List[str] = []
        end = scan.torn or scan.count + 1
        place = 2
        while place < end:
            entry = scan.entries[place]
            if place not in scan.marked and entry is not None:
                if entry[0] == "import":
                    block = scan.block(place)
                    rows = [(row, scan.entries[row][1]) for row in block if row not in scan.marked]  # type: ignore[index]
                    self._take(place, entry[0], entry[1], rows, pending)
                    place = block.stop - 1
                else:
                    self._take(place, entry[0], entry[1], (), pending)
            place += 1
        if scan.torn is not None:
            self.torn = f"{_lines_named(scan.torn, scan.count)} left out: {scan.why(scan.torn)}"
            self.left_out.append(self.torn)
        try:
            self._numbers.read(pending)
        except RefusedText as refused:
            self._wrong(self._line_of(refused.text), f"{refused.text!r}: {refused}")
        self._run()

    def _line_of(self, number: str) -> int:
        """The first line that has a number."""
        for call in self.history:
            if call.y_text == number or (call.settings and number in SettingsText(*call.settings).numbers):
                return call.line
            for row in call.rows:
                if number in row[1:4] or number == row.z_text:
                    return row.line
        raise KeyError(number)

    def _wrong(self, place: int, words: str) -> NoReturn:
        raise SeasonError(f"{self.path}: line {place}: {words}")

    def _take(self, place: int, word: str, fields: Tuple[Any, ...], rows: Sequence[Tuple[int, Tuple[Any, ...]]], pending: List[str]) -> Call:
        """Takes one call of the file. What it needs of the calls before it is judged as they stand by then."""
        source, note, at = said(fields[-3]), said(fields[-2]), fields[-1]
        call = Call(place, "new" if place == 2 else word, source, note, at)
        if word == "add":
            name, x, y, z, weight, stake = fields[:6]
            self._given(call, [Row(name, x, y, weight or "1", source, note, None, place, z, self._stake(stake))], pending)
            call.name = name
        elif word == "import":
            call.lines = 1 + int(fields[0])
            call.columns = (said(fields[1]), said(fields[2]), said(fields[4]), said(fields[3]))
            origin = source or "import"
            given = []
            for line, (name, x, y, z, weight, stake, of, called, row_note) in rows:
                where = f"{origin}:{of}" if of else source
                given.append(Row(name, x, y, weight or "1", where, said(row_note), said(called), line, z, self._stake(stake, fields[5])))
            self._given(call, given, pending)
        elif word == "correct":
            ys = self._standing(call, fields[0])
            call.y_text, call.was = fields[1], ys[-1]
            pending.append(fields[1])
            ys.append(fields[1])
        elif word == "withdraw":
            self._standing(call, fields[0])
            self._gone.add(fields[0])
        elif word == "settings":
            call.settings = fields[1:6] + ((fields[0] or "").strip(),)
            if self.history and call.settings[5] != self.history[0].settings[5]:
                self._wrong(place, "a season is of curves or of a surface, and stays so")
            if self.glacier and call.settings[5]:
                self._wrong(place, _NO_SURFACES)
            pending.extend(SettingsText(*call.settings).numbers)
        elif word == "undo":
            self._undone(call, int(fields[0]))
        elif word == "left-out":
            call.of = (int(fields[0]), int(fields[1]))
            self.left_out.append(call.text)
        self.history.append(call)
        if place != 2 and word not in ("undo", "left-out"):
            self._stack.append(call)
        return call

    def _stake(self, *texts: Optional[str]) -> Optional[int]:
        """The stake of a glacier's reading: the first that is said, else 0."""
        return int(next((text for text in texts if text is not None), 0)) if self.glacier else None

    def _given(self, call: Call, rows: List[Row], pending: List[str]) -> None:
        for row in rows:
            number = int(row.name[1:])
            if number <= self._last_name:
                self._wrong(row.line, f"the name {row.name} comes after r{self._last_name}")
            self._last_name = number
            self._ys[row.name] = [row.y_text]
            pending += row[1:4]
            if row.z_text is not None:
                pending.append(row.z_text)
            self._fits(row.z_text, row.weight_text, row.stake, row.line)
        call.rows = rows

    def _fits(self, z: Optional[Number], weight: Number, stake: Optional[int], line: Optional[int] = None) -> None:
        """Whether a reading is of the season's kind."""
        if self.glacier and stake is None:
            words = "a reading of a glacier has a stake: give --stake"
        elif stake is not None and not self.glacier:
            words = _ONE_STAKE
        elif self.history[0].settings[5]:
            words = "a reading of a surface has a z: give --z" if z is None else "a reading of a surface has no weight" if weight != "1" else ""
        else:
            words = "" if z is None else "a reading of a curve has no z; a season of a surface is begun by `stake new --surface`"
        if words:
            raise SeasonError(f"{self.path}: " + (f"line {line}: " if line else "") + words)

    def _standing(self, call: Call, name: str) -> List[str]:
        ys = self._ys.get(name)
        if ys is None or name in self._gone:
            self._wrong(call.line, f"there is no reading {name} to {call.call}")
        call.name = name
        return ys

    def _undone(self, call: Call, line: int) -> None:
        if not self._stack or self._stack[-1].line != line:
            self._wrong(call.line, f"it takes back line {line}, which is not the last call that stands")
        call.of = undone = self._stack.pop()
        undone.undone = True
        if undone.call == "correct":
            self._ys[undone.name or ""].pop()
        elif undone.call == "withdraw":
            self._gone.remove(undone.name or "")
        for row in undone.rows:
            del self._ys[row.name]

    # ---- the book

    def _run(self) -> None:
        """Makes book, readings and settings of the calls in force."""
        self.readings = []
        self._by_name: Dict[str, Reading] = {}
        self._orders = {}
        self.settings_text = SettingsText(*self.history[0].settings)
        # the list that is run: kind and index, x, y and weight of each step
        self._whole: Tuple[List[int], List[int]] = ([], [])
        self._floats: Tuple[List[float], List[float], List[float]] = ([], [], [])
        self._zs: List[float] = []
        self._stakes: List[int] = []
        for call in self._stack:
            self._do(call)
        refusals: Iterable[int]
        if self.glacier:
            self.book = Season()
            refusals = self._one_by_one(self.book)
        else:
            self.book, answers = Surface.replay(self.calls, self._calls(self._zs)) if self.surface else Book.replay(self.calls)
            refusals = (answer.refusal for answer in answers)
        for place, refusal in enumerate(refusals):
            if refusal:
                lines = []
                for call in self._stack:
                    lines += [call.line] if call.call in ("correct", "withdraw") else [row.line for row in call.rows]
                self._wrong(lines[place], str(Refused(refusal)))
        self.settings = self.settings_text.meant(self._numbers)
        self._number_order()

    def _one_by_one(self, book: Any) -> Iterator[int]:
        """Runs the list by one call each, and answers which refused it, 0 for none."""
        calls = self.calls
        for kind, index, x, y, weight, z, stake in zip(calls.kinds, calls.indices, calls.xs, calls.ys, calls.ws, self._zs, self._stakes):
            of = book.at(stake) if self.glacier else book
            try:
                if kind == 0:
                    of.add(*((x, z, y) if self.surface else (x, y, weight)))
                elif kind == 1:
                    of.correct(index, y)
                else:
                    of.withdraw(index)
                yield 0
            except Refused as refused:
                yield refused.number

    def _do(self, call: Call) -> None:
        """What a call in force does to the readings, and its part of the list that is run."""
        numbers = self._numbers
        if call.call == "correct" or call.call == "withdraw":
            reading = self._by_name[call.name or ""]
            stake = reading.stake or 0
            place = self._orders[stake].index(reading)
            if call.call == "withdraw":
                del self._orders[stake][place]
                reading.index = None
                self._step(2, place, 0.0, 0.0, 1.0, 0.0, stake)
            else:
                reading.was += (reading.y_text,)
                reading.y_text, reading.y = call.y_text, numbers[call.y_text]
                self._step(1, place, 0.0, reading.y, 1.0, 0.0, stake)
        elif call.call == "settings":
            self.settings_text = SettingsText(*call.settings)
        else:
            for name, x_text, y_text, weight_text, source, note, called, line, z_text, of_stake in call.rows:
                x, y, weight = numbers[x_text], numbers[y_text], numbers[weight_text]
                order = self._orders.setdefault(of_stake or 0, [])
                reading = Reading(name, x_text, y_text, weight_text, source, note, len(order), called, line, x, y, weight, stake=of_stake)
                if z_text is not None:
                    reading.z_text, reading.z = z_text, numbers[z_text]
                self.readings.append(reading)
                order.append(reading)
                self._by_name[name] = reading
                self._step(0, 0, x, y, weight, reading.z or 0.0, of_stake or 0)

    def _step(self, kind: int, index: int, x: float, y: float, weight: float, z: float, stake: int) -> None:
        kinds, indices = self._whole
        xs, ys, weights = self._floats
        kinds.append(kind)
        indices.append(index)
        xs.append(x)
        ys.append(y)
        weights.append(weight)
        self._zs.append(z)
        self._stakes.append(stake)

    def _number_order(self) -> None:
        for order in self._orders.values():
            for index, reading in enumerate(order):
                reading.index = index

    @property
    def calls(self) -> Calls:
        return self._calls(self._floats[0])

    @property
    def lists(self) -> List[Calls]:
        return [self.calls] + ([self._calls(self._zs)] if self.surface else [])

    def _calls(self, xs: List[float]) -> Calls:
        calls = Calls()
        calls.kinds.extend(self._whole[0])
        calls.indices.extend(self._whole[1])
        calls.xs.extend(xs)
        calls.ys.extend(self._floats[1])
        calls.ws.extend(self._floats[2])
        return calls

    def reading(self, name: str) -> Optional[Reading]:
        """The reading of a name, or None."""
        return self._by_name.get(name)

    def reports(self, settings: Optional[Settings] = None) -> SeasonReport:
        """Of a glacier, each stake's report or refusal."""
        if not self.glacier:
            raise SeasonError(f"{self.path}: {_ONE_STAKE}")
        reports: SeasonReport = self.book.report(settings=settings or self.settings)
        return reports

    def stake(self, number: int) -> "OneStake":
        """A stake of a glacier. Whether there is one of that number, the library says."""
        if not self.glacier:
            raise SeasonError(f"{self.path}: {_ONE_STAKE}")
        try:
            self.book.fit(number, 0)
        except Refused as refused:
            if refused.number == 18:
                raise
        return OneStake(self, number)

    # ---- writing

    @contextlib.contextmanager
    def _writing(self) -> Iterator[int]:
        """The file locked for this program, with all that others have written read. Where a call is not saved, the book is made anew."""
        with opened(self.path, True, self._waiting) as descriptor:
            self._catch_up(descriptor)
            try:
                yield descriptor
            except BaseException:
                self._known = None
                self._run()
                raise

    def _append(self, descriptor: int, bodies: List[str]) -> Call:
        """Writes the lines of one call, and takes it as a reader would."""
        place = self._lines + 1
        begin = b""
        if self._torn_from is not None:
            begin = b"" if self._ended else CLOSES
            bodies = [f"left-out {self._torn_from} {self._lines}{tail(None, None)}"] + bodies
        lines = [checked(f"{place + i} {body}".encode()) for i, body in enumerate(bodies)]
        entries = [number_and_entry(line[:-1], self.glacier) for line in lines]
        if None in entries:
            raise SeasonError(f"{bodies[entries.index(None)]!r} can't be a line of a season")
        data = begin + b"".join(lines)
        append_all(descriptor, self.path, data)
        self._known = _state(descriptor)
        pending: List[str] = []
        taken = [(place + i, *entry[1]) for i, entry in enumerate(entries) if entry is not None]
        if self._torn_from is not None:
            # From now on it is a line of the file that tells of the tail.
            self.left_out.remove(self.torn or "")
            self._take(*taken.pop(0), (), pending)
        self._lines, self._ended, self._torn_from, self.torn = place + len(lines) - 1, True, None, None
        call = self._take(*taken[0], [(line, fields) for line, _, fields in taken[1:]], pending)
        self._numbers.read(pending)
        if call.call == "undo" or call.call == "settings":
            self._run()
        else:
            self._do(call)
            if call.call == "withdraw":
                self._number_order()
        return call

    def _read(self, *numbers: Number) -> List[float]:
        """Numbers as they are given: text by the proved reader."""
        self._numbers.read([number for number in numbers if isinstance(number, str)])
        return [self._numbers[number] if isinstance(number, str) else float(number) for number in numbers]

    def book_of(self, stake: Optional[int]) -> Any:
        """The book that a stake's readings are in."""
        return self.book.at(stake or 0) if self.glacier else self.book

    def _try(self, x: Number, y: Number, weight: Number, z: Optional[Number], stake: Optional[int]) -> None:
        """Adds a reading to the book alone."""
        self._fits(z, weight, stake)
        self.book_of(stake).add(*(self._read(x, y, weight) if z is None else self._read(x, z, y)))

    def add(
        self,
        x: Number,
        y: Number,
        weight: Number = "1",
        source: Optional[str] = None,
        note: Optional[str] = None,
        z: Optional[Number] = None,
        stake: Optional[int] = None,
    ) -> Reading:
        """One reading more. Of a surface it has a z, and no weight; of a glacier a stake."""
        with self._writing() as descriptor:
            self._try(x, y, weight, z, stake)
            body = f"add r{self._last_name + 1} {written(x)} {written(y)}" + ("" if z is None else f" z {written(z)}")
            body += ("" if weight == "1" else f" weight {written(weight)}") + ("" if stake is None else f" stake {stake}")
            self._append(descriptor, [body + tail(source, note)])
            return self.readings[-1]

    def add_rows(
        self,
        rows: Sequence[NewRow],
        columns: Sequence[Optional[str]] = (),
        source: Optional[str] = None,
        note: Optional[str] = None,
        progress: Callable[[int], None] = lambda done: None,
        stake: Optional[int] = None,
    ) -> List[Reading]:
        """Many readings, all or none: a `RefusedRow` says which was refused. Of a glacier `stake` is that of the rows that have none of their own."""
        if not rows:
            raise SeasonError("there are no readings to import")
        with self._writing() as descriptor:
            for i, row in enumerate(rows):
                try:
                    self._try(row.x, row.y, row.weight or "1", row.z, stake if row.stake is None else row.stake)
                except Refused as refused:
                    raise RefusedRow(refused.number, i) from None
                progress(i + 1)
            named = dict(zip(("x", "y", "weight", "z"), columns))
            heads = "".join(f" {key} {quoted(named[key] or '')}" for key in ("x", "y", "z", "weight") if named.get(key))
            heads += "" if stake is None else f" stake {stake}"
            bodies = [f"import {len(rows)}{heads}{tail(source, note)}"]
            for i, row in enumerate(rows, self._last_name + 1):
                weight = (f" z {row.z}" if row.z else "") + (f" weight {row.weight}" if row.weight else "")
                weight += "" if row.stake is None else f" stake {row.stake}"
                line = f" line {row.line}" if row.line else ""
                called = f" called {quoted(row.called)}" if row.called else ""
                row_note = f" note {quoted(row.note)}" if row.note else ""
                bodies.append(f"row r{i} {row.x} {row.y}{weight}{line}{called}{row_note}")
            self._append(descriptor, bodies)
            return self.readings[-len(rows) :]

    def _place(self, name: str) -> Tuple[Any, int]:
        """A reading's book and place. One that has none is asked for behind the last, so that it is the library that refuses it."""
        reading = self._by_name.get(name)
        book = self.book_of(reading.stake if reading else None)
        return book, len(book) if reading is None or reading.index is None else reading.index

    def _missing(self, name: str) -> str:
        if name in self._gone:
            lines = [call.line for call in self._stack if call.call == "withdraw" and call.name == name]
            return f"{name} was withdrawn on line {lines[-1]}"
        if any(row.name == name for call in self.history for row in call.rows):
            return f"{name} was taken back by an undo"
        return f"there is no reading {name}" + (f"; the last one is r{self._last_name}" if self._last_name else " yet")

    def correct(self, name: str, y: Number, source: Optional[str] = None, note: Optional[str] = None) -> Reading:
        """A reading's new y."""
        (value,) = self._read(y)
        with self._writing() as descriptor:
            book, place = self._place(name)
            try:
                book.correct(place, value)
            except Refused as refused:
                if place == book.count:
                    raise RefusedName(refused.number, self._missing(name)) from None
                raise
            self._append(descriptor, [f"correct {name} {written(y)}{tail(source, note)}"])
            return self._by_name[name]

    def withdraw(self, name: str, source: Optional[str] = None, note: Optional[str] = None) -> Reading:
        """A reading goes. Its name stays its own."""
        with self._writing() as descriptor:
            book, place = self._place(name)
            try:
                book.withdraw(place)
            except Refused as refused:
                raise RefusedName(refused.number, self._missing(name)) from None
            self._append(descriptor, [f"withdraw {name}{tail(source, note)}"])
            return self._by_name[name]

    def set(self, settings: Union[Settings, SettingsText], source: Optional[str] = None, note: Optional[str] = None) -> None:
        """Other settings from here on."""
        text = _judged(settings, self._numbers, self.settings_text.surface)
        with self._writing() as descriptor:
            self._append(descriptor, [text.body + tail(source, note)])

    def undo(self, source: Optional[str] = None, note: Optional[str] = None) -> Call:
        """Takes back the last call that stands, and says which it was."""
        with self._writing() as descriptor:
            if not self._stack:
                raise SeasonError(f"{self.path}: there is nothing to undo")
            call = self._stack[-1]
            self._append(descriptor, [f"undo {call.line}{tail(source, note)}"])
            return call


class OneStake(Answers):
    """A stake of a glacier as a season of its own, to ask and not to change: its readings, its book, and the calls that made them."""

    def __init__(self, season: SeasonFile, number: int) -> None:
        self.path, self.settings, self.settings_text = season.path, season.settings, season.settings_text
        self.left_out, self.torn = season.left_out, season.torn
        self.number = number
        self.book: BookCalls = season.book[number]
        self.readings = [reading for reading in season.readings if reading.stake == number]
        self._orders = {0: season._orders.get(number, [])}
        names = {row.name for call in season.history for row in call.rows if row.stake == number}

        def of_it(call: Call) -> bool:
            return of_it(call.of) if call.call == "undo" else number in call.stakes if call.rows else call.name is None or call.name in names

        self.history = [call for call in season.history if of_it(call)]
        self._stack = [call for call in season._stack if of_it(call)]
        self._season = season

    @property
    def calls(self) -> Calls:
        calls, its = self._season.calls, [stake == self.number for stake in self._season._stakes]
        for name in Calls.__slots__:
            setattr(calls, name, array(getattr(calls, name).typecode, itertools.compress(getattr(calls, name), its)))
        return calls


# ---- checking


@dataclass
class Check:
    """What a check found."""

    path: str
    #: Lines in the file, and the last of them that nothing was wrong with and that everything before stands on.
    lines: int
    #: Lines that are damaged, with why.
    damaged: List[Tuple[int, str]]
    #: The tail that is torn, in words.
    torn: Optional[str]
    #: Other lines that are left out, in words.
    left_out: List[str]
    #: Calls in force, and the readings that stand.
    calls: int = 0
    readings: int = 0
    #: What a reading has, and so what is compared.
    what: str = "x's, y's and weights and 272 sums"
    #: What was compared with the replayed book, and whether every bit was the same.
    compared: Tuple[Tuple[str, bool], ...] = ()

    @property
    def good(self) -> bool:
        return not self.damaged and all(same for _, same in self.compared)

    def as_dict(self) -> Dict[str, Any]:
        return {
            "path": self.path,
            "good": self.good,
            "lines": self.lines,
            "damaged": [{"line": line, "why": why} for line, why in self.damaged],
            "torn": self.torn,
            "left_out": self.left_out,
            "calls": self.calls,
            "readings": self.readings,
            "compared": [{"what": what, "same": same} for what, same in self.compared],
        }


def check(path: Union[str, "os.PathLike[str]"], waiting: Optional[Callable[[], None]] = None) -> Check:
    """Reads a season again, and makes its book in two further ways: call by call through the C calls, and from the standing readings alone."""
    season = SeasonFile(path, waiting)
    with opened(season.path, False, waiting) as descriptor:
        data = read_all(descriptor, season.path)
    scan = Scan(season.path, data)
    found = Check(season.path, scan.count, [(line, scan.why(line)) for line in scan.damaged], None, [])
    if scan.damaged:
        return found
    season._load(data)
    found.torn, found.left_out = season.torn, [words for words in season.left_out if words != season.torn]
    one_by_one, afresh = type(season.book)(), type(season.book)()
    for reading in season.standing:
        of = afresh.at(reading.stake) if season.glacier else afresh
        of.add(*((reading.x, reading.z, reading.y) if season.surface else (reading.x, reading.y, reading.weight)))
    bits = season.book.bits()
    found.calls, found.readings = len(season.calls), season.book.count
    if season.glacier:
        # The book was made by the calls one by one; here each stake's are run alone, as a book's.
        found.what = f"x's, y's and weights and {STAKES} times 272 sums"
        alone = all(Book.replay(season.stake(each.stake).calls)[0].bits() == each.bits() for each in season.book)
        found.compared = (("each stake's calls, replayed as one book's", alone),)
    else:
        if season.surface:
            found.what = "x's, z's and y's"
        for _ in season._one_by_one(one_by_one):
            pass
        found.compared = (("the same calls one by one", one_by_one.bits() == bits),)
    found.compared += (("the readings that stand, added to a new book", afresh.bits() == bits),)
    return found


def leave_out(path: Union[str, "os.PathLike[str]"], lines: Sequence[int], note: Optional[str] = None) -> None:
    """Gives damaged lines up by a line for each, if the season can then be opened."""
    season = SeasonFile(path)
    with opened(season.path, True, None) as descriptor:
        data = read_all(descriptor, season.path)
        scan = Scan(season.path, data)
        if not scan.damaged:
            raise SeasonError(f"{season.path}: no line is damaged, and none is left out")
        if sorted(set(lines)) != scan.damaged:
            raise SeasonError(f"{season.path}: the damaged lines are {', '.join(map(str, scan.damaged))}; all of them must go, and no other can")
        more = b"" if scan.ended else CLOSES
        for i, line in enumerate(scan.damaged, scan.count + 1):
            more += checked(f"{i} left-out {line} {line}{tail(None, note)}".encode())
        season._load(data + more)
        append_all(descriptor, season.path, more)
