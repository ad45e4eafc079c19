"""The command `stake`: a season of readings on the command line. docs/STAKE.md shows it.

It ends with 0 if all went well, 1 if something was refused or could not be read or written, which it says in words, and 2 if it was called wrongly.
"""

from __future__ import annotations

import argparse
import json
import os
import re
import sys
import textwrap
import threading
import time
from typing import Any, Callable, Dict, List, Optional, Sequence

from . import season as seasons
from ._library import STAKES, LibraryError, Refused
from .importing import RefusedField, decimal_point, read_table
from .results import Report, Scores, Split, Validation, runs, stakes
from .season import Answers, Call, Reading, RefusedName, RefusedRow, SeasonFile
from .seasonfile import NotSaved, Numbers, RefusedText, SeasonError, SettingsText, counted
from .settings import Settings, plain

#: A Debian package for each module that the pictures need.
_PACKAGES = {"matplotlib": "python3-matplotlib", "numpy": "python3-numpy"}

_WIDTH = 100


class Usage(Exception):
    """The command was called wrongly."""


# ---- saying


def _say(text: str = "") -> None:
    print(text)


def _tell(words: str) -> None:
    """On standard error, behind what was said before."""
    sys.stdout.flush()
    print(f"stake: {words}", file=sys.stderr)


def _say_json(value: Any) -> None:
    _say(json.dumps(value, ensure_ascii=False, indent=2, allow_nan=False))


def _six(value: float) -> str:
    return f"{value:.6g}"


def _shown(text: str) -> str:
    """A text in one line. A note comes from anywhere, and what moves a terminal's cursor is no part of what it says."""
    return "".join(sign if sign.isprintable() else sign.encode("unicode_escape").decode("ascii") for sign in text)


def _table(rows: List[List[str]], left: Sequence[int] = (0,)) -> str:
    """Rows of cells in columns; those of `left` begin at the left."""
    rows = [[_shown(cell) for cell in row] for row in rows]
    widths = [max(len(row[i]) for row in rows) for i in range(len(rows[0]))]
    lines = []
    for row in rows:
        cells = [cell.ljust(width) if i in left else cell.rjust(width) for i, (cell, width) in enumerate(zip(row, widths))]
        lines.append("  ".join(cells).rstrip())
    return "\n".join(lines)


def _wrapped(text: str, indent: str = "") -> str:
    return textwrap.fill(text, _WIDTH, subsequent_indent=indent, break_long_words=False, break_on_hyphens=False)


class _Progress:
    """What is going on, in one line that is written over, once it takes long. On a terminal alone."""

    _AFTER, _EVERY = 0.3, 0.2

    def __init__(self, words: str) -> None:
        self._words = words
        self._done = ""
        self._shown = 0
        self._end = threading.Event()
        self._thread = threading.Thread(target=self._run, daemon=True) if sys.stderr.isatty() else None

    def _run(self) -> None:
        begun = time.monotonic()
        wait = self._AFTER
        while not self._end.wait(wait):
            wait = self._EVERY
            line = f"stake: {self._words}{self._done} .. {time.monotonic() - begun:.1f} s"
            sys.stderr.write("\r" + line.ljust(self._shown))
            sys.stderr.flush()
            self._shown = len(line)

    def of(self, total: int) -> Callable[[int], None]:
        """To be called with how many are done."""

        def done(number: int) -> None:
            self._done = f", {number:,} of {total:,}"

        return done

    def waiting(self) -> None:
        self._done = ", waiting for another program that has the season"

    def __enter__(self) -> "_Progress":
        if self._thread is not None:
            self._thread.start()
        return self

    def __exit__(self, *_: Any) -> None:
        self._end.set()
        if self._thread is not None:
            self._thread.join()
            if self._shown:
                sys.stderr.write("\r" + " " * self._shown + "\r")
                sys.stderr.flush()


def _open(path: str) -> SeasonFile:
    with _Progress(f"reading {path}") as progress:
        season = SeasonFile.open(path, progress.waiting)
    _tell_torn(season)
    return season


def _open_all_or_one(arguments: argparse.Namespace) -> Answers:
    """The season, or the stake of a glacier that is asked for."""
    season = _open(arguments.season)
    return season if arguments.stake is None else season.stake(arguments.stake)


def _open_one(arguments: argparse.Namespace, words: str) -> Answers:
    """The same where of a glacier one stake must be asked for; the words say why."""
    return _stake_of(_open(arguments.season), arguments, words)


def _stake_of(season: SeasonFile, arguments: argparse.Namespace, words: str) -> Answers:
    if arguments.stake is not None:
        return season.stake(arguments.stake)
    if season.glacier:
        raise Usage(f"{season.path} is a glacier, and {words}: give --stake N, 0 to {STAKES - 1}")
    return season


def _tell_torn(season: SeasonFile) -> None:
    if season.torn is not None:
        _tell(f"{season.path}: {season.torn}. Everything before stands")


# ---- arguments


def _bound(text: str) -> str:
    text = text.strip()
    if text in ("conservative", "relaxed", "aggressive") or re.fullmatch(r"0|[1-9][0-9]{0,8}", text):
        return text
    raise argparse.ArgumentTypeError(f"{text!r} is neither conservative, relaxed, aggressive nor a degree")


def _confidence(text: str) -> str:
    text = text.strip()
    if text.upper() in ("P80", "P90", "P95", "P98", "P99", "P999"):
        return text.upper()
    if re.match(r"-?[0-9]", text):
        return decimal_point(text)
    raise argparse.ArgumentTypeError(f"{text!r} is neither P80, P90, P95, P98, P99, P999 nor a z score")


def _tolerance(text: str) -> str:
    match = re.fullmatch(r"(absolute|variance|measurement)=(\S+)", text)
    if match:
        return f"{match.group(1)} {decimal_point(match.group(2))}"
    if text == "none":
        return text
    raise argparse.ArgumentTypeError(f"{text!r} is neither none nor one of absolute=NUMBER, variance=NUMBER, measurement=NUMBER")


def _number(text: str) -> str:
    """A number as it is written: what it is, the library's reader says."""
    return decimal_point(text.strip())


def _whole(text: str) -> int:
    if re.fullmatch(r"[0-9]{1,18}", text):
        return int(text)
    raise argparse.ArgumentTypeError(f"{text!r} is no whole number")


def _name(text: str) -> str:
    if re.fullmatch(r"r[1-9][0-9]{0,8}", text):
        return text
    raise argparse.ArgumentTypeError(f"{text!r} is no name of a reading; they are r1, r2, ..")


def _settings_of(arguments: argparse.Namespace, base: SettingsText) -> SettingsText:
    """The base, with what the options say."""
    given = {name: getattr(arguments, name) for name in SettingsText._fields if getattr(arguments, name, None) is not None}
    return base._replace(**given)


def _asked(arguments: argparse.Namespace, season: Answers) -> Settings:
    """The settings of one answer: the season's, with what the options say."""
    return _settings_of(arguments, season.settings_text).meant(Numbers())


def _add_settings(parser: argparse.ArgumentParser, words: str) -> None:
    group = parser.add_argument_group("settings", words)
    group.add_argument(
        "--bound", type=_bound, metavar="B", help="the highest degree to try, or conservative, relaxed or aggressive, which need many readings"
    )
    group.add_argument("--criterion", choices=("aic", "bic"), help="how degrees are scored")
    group.add_argument("--confidence", type=_confidence, metavar="P", help="P80, P90, P95, P98, P99, P999 or a z score")
    group.add_argument(
        "--tolerance", type=_tolerance, metavar="T", help="what the band allows besides: none, or absolute=, variance= or measurement= with a number"
    )
    group.add_argument("--pruning", choices=("size", "positive"), help="which terms are marked: by size, or polyfit's rule")


def _add_stake(parser: argparse.ArgumentParser, words: str) -> None:
    parser.add_argument("--stake", metavar="N", type=_whole, help=f"of a glacier, and only there: {words}")


def _parser() -> argparse.ArgumentParser:
    parser = argparse.ArgumentParser(
        prog="stake",
        allow_abbrev=False,
        description="A season of readings: a density curve, its degree and how far it can be trusted. Every number comes from the proved library.",
        epilog="It ends with 0, with 1 where something was refused or could not be read or written, and with 2 where it was called wrongly.",
    )
    commands = parser.add_subparsers(title="commands", dest="command", metavar="COMMAND", required=True)

    def command(
        name: str, run: Callable[[argparse.Namespace], int], words: str, changes: bool = False, as_json: bool = False
    ) -> argparse.ArgumentParser:
        made = commands.add_parser(name, help=words, description=words[0].upper() + words[1:] + ".", allow_abbrev=False)
        made.set_defaults(run=run, parser=made, changes=changes, json=False)
        made.add_argument("season", metavar="SEASON", help="the season's file")
        if changes:
            made.add_argument("--source", metavar="TEXT", help="where it comes from" + ("; without, the file's name" if name == "import" else ""))
            made.add_argument("--note", metavar="TEXT", help="a note to keep with the call")
        if as_json:
            made.add_argument("--json", action="store_true", help="for programs")
        return made

    made = command("new", _new, "begin a season", changes=True)
    made.add_argument("--surface", dest="of_surface", action="store_true", help="of a surface: its readings have a z, the elevation say, beside x")
    made.add_argument("--glacier", action="store_true", help=f"of a glacier: its readings are of up to {STAKES} stakes, each with a curve of its own")
    _add_settings(made, "of the season's reports; without: relaxed, bic, P95, none, size")
    made = command("settings", _set, "show the season's settings, or change those that are given", changes=True, as_json=True)
    _add_settings(made, "those to change")

    made = command("import", _import, "add the readings of a table, all or none", changes=True)
    made.add_argument("file", metavar="FILE", help="a table with headings: comma, semicolon or tab between; - is standard input")
    made.add_argument("--x", metavar="COLUMN", help="the heading of x; without, x or depth")
    made.add_argument("--y", metavar="COLUMN", help="the heading of y; without, y or density")
    made.add_argument("--weight", metavar="COLUMN", help="the heading of the weights; without, every weight is 1")
    made.add_argument("--z", metavar="COLUMN", help="the heading of z; for a season of a surface, and only there")
    _add_stake(made, "the stake of all its readings")
    made.add_argument("--stake-column", metavar="COLUMN", help="the heading of the stakes' numbers, in place of --stake")
    made.add_argument("--name", metavar="COLUMN", help="the heading of your own names of readings; without, name")
    made.add_argument("--remarks", metavar="COLUMN", help="the heading of remarks, kept as the readings' notes; without, note or remarks")
    made.add_argument("--missing", metavar="TEXT", action="append", default=[], help="what else stands for a missing number, as -9999")

    made = command("add", _add, "add one reading", changes=True)
    made.add_argument("x", metavar="X", type=_number)
    made.add_argument("y", metavar="Y", type=_number)
    made.add_argument("--z", metavar="Z", type=_number, help="of a reading of a surface, and only there")
    _add_stake(made, "the reading's stake")
    made.add_argument("--weight", metavar="W", type=_number, default="1", help="what the reading counts; without, 1")

    made = command("correct", _correct, "give a reading a new y", changes=True)
    made.add_argument("name", metavar="NAME", type=_name, help="r1, r2, ..")
    made.add_argument("y", metavar="Y", type=_number)

    made = command("withdraw", _withdraw, "take a reading out; its name stays its own", changes=True)
    made.add_argument("name", metavar="NAME", type=_name, help="r1, r2, ..")

    command("undo", _undo, "take back the last call that stands, an import whole", changes=True)

    made = command("list", _list, "list the readings", as_json=True)
    made.add_argument("--history", action="store_true", help="list the calls instead")
    _add_stake(made, "of this stake alone")

    made = command("report", _report, "the curve, why it has its degree, and how far it can be trusted", as_json=True)
    _add_stake(made, "the whole report of a stake; without, a line for each")
    made.add_argument("--at", metavar="X", type=_number, action="append", default=[], help="the curve and its band at an x too; may be given again")
    made.add_argument("--z", metavar="Z", type=_number, action="append", default=[], help="of a surface, the z that goes with an --at")
    made.add_argument("--folds", metavar="N", type=_whole, help="the degree that cross-validation in so many folds chooses too")
    made.add_argument("--split", action="store_true", help="where the list breaks in two too, each side with a curve of its own")
    made.add_argument("--limit", metavar="N", type=_whole, help="of a split, the most pivot tests to make")
    _add_settings(made, "for this answer alone, in place of the season's")

    made = command("scores", _scores, "each degree's score, and which is chosen", as_json=True)
    _add_stake(made, "whose scores")
    _add_settings(made, "for this answer alone, in place of the season's")

    made = command("plot", _plot, "draw readings, curve and band, residuals and scores")
    made.add_argument("file", metavar="FILE", help="an .svg, .png or .pdf file to write")
    _add_stake(made, "whose picture")
    made = command("page", _page, "write a page for colleagues, in one file")
    made.add_argument("file", metavar="FILE", help="an .html file to write")
    _add_stake(made, "the whole page of a stake; without, a small picture of each")

    made = command("export", _export, "write the season for other programs")
    made.add_argument(
        "--format",
        choices=("csv", "frame", "calls"),
        default="csv",
        help="csv: the readings that stand; frame: these as one frame of version 2; calls: the list of calls for journal",
    )
    made.add_argument("--output", metavar="FILE", help="without, standard output")
    _add_stake(made, "of this stake alone")

    made = command("check", _check, "read the file again, make its book in other ways and compare every bit", as_json=True)
    made.add_argument(
        "--leave-out", metavar="LINE", type=_whole, action="append", default=[], help="give a damaged line up, by a line more in the file"
    )
    made = command("mirror-check", _mirror_check, "run the calls again with the sign of every y changed, and compare both reports", as_json=True)
    _add_stake(made, "of this stake alone; without, of all that have readings")
    return parser


# ---- changes


def _new(arguments: argparse.Namespace) -> int:
    settings = _settings_of(arguments, SettingsText())
    season = SeasonFile.create(arguments.season, settings, arguments.source, arguments.note, arguments.of_surface, arguments.glacier)
    kind = f" of a glacier of {STAKES} stakes" if season.glacier else " of a surface" if season.surface else ""
    _say(f"{season.path}: a new season{kind}, {season.settings.summary()}")
    return 0


def _set(arguments: argparse.Namespace) -> int:
    season = _open(arguments.season)
    text = _settings_of(arguments, season.settings_text)
    if text != season.settings_text or arguments.note:
        season.set(text, arguments.source, arguments.note)
    if arguments.json:
        _say_json(season.settings.as_dict())
    else:
        _say(f"{season.path}: {season.settings.summary()}")
    return 0


def _import(arguments: argparse.Namespace) -> int:
    if arguments.stake is not None and arguments.stake_column is not None:
        raise Usage("give --stake or --stake-column, and not both")
    table = read_table(
        arguments.file,
        arguments.x,
        arguments.y,
        arguments.weight,
        arguments.name,
        arguments.remarks,
        [text.strip() for text in arguments.missing],
        z=arguments.z,
        stake=arguments.stake_column,
    )
    left = f"{counted(len(table.missing), 'line')} left out, where a number is missing: {runs(table.missing)}" if table.missing else ""
    if not table.rows:
        raise SeasonError(f"{table.source}: there are no readings in it" + (f"; {left}" if left else ""))
    season = _open(arguments.season)
    with _Progress(f"importing {table.source}") as progress:
        try:
            source = arguments.source or table.source
            readings = season.add_rows(table.rows, table.columns, source, arguments.note, progress.of(len(table.rows)), arguments.stake)
        except RefusedRow as refused:
            raise RefusedField(refused.number, "", f"{table.source}:{table.rows[refused.row].line}") from None
    names = readings[0].name if len(readings) == 1 else f"{readings[0].name} to {readings[-1].name}"
    weight = f"weight {table.columns[2]!r}" if table.columns[2] else f"z {table.columns[3]!r}" if table.columns[3] else "weight 1"
    comma = ", decimal comma" if table.decimal_comma else ""
    encoding = "" if table.encoding == "UTF-8" else f", {table.encoding}"
    of = sorted({reading.stake for reading in readings if reading.stake is not None})
    _say(f"{season.path}: {counted(len(readings), 'reading')} saved from {table.source}, {names}" + (f", of {stakes(of)}" if of else ""))
    _say(f"  x {table.columns[0]!r}, y {table.columns[1]!r}, {weight} ({table.delimiter}{comma}{encoding})")
    if left:
        _say(f"  {left}")
    return 0


def _of(reading: Reading) -> str:
    return "" if reading.stake is None else f" of stake {reading.stake}"


def _add(arguments: argparse.Namespace) -> int:
    season = _open(arguments.season)
    reading = season.add(arguments.x, arguments.y, arguments.weight, arguments.source, arguments.note, arguments.z, arguments.stake)
    weight = "" if reading.weight_text == "1" else f", weight {reading.weight_text}"
    z = f", z {reading.z_text}" if reading.z_text else ""
    count = counted(season.book_of(reading.stake).count, "reading")
    _say(f"{season.path}: {reading.name} saved: x {reading.x_text}{z}, y {reading.y_text}{weight}; {count}{_of(reading)}")
    return 0


def _correct(arguments: argparse.Namespace) -> int:
    season = _open(arguments.season)
    reading = season.correct(arguments.name, arguments.y, arguments.source, arguments.note)
    _say(f"{season.path}: {reading.name}{_of(reading)} saved: y {reading.y_text}, was {reading.was[-1]}")
    return 0


def _withdraw(arguments: argparse.Namespace) -> int:
    season = _open(arguments.season)
    reading = season.withdraw(arguments.name, arguments.source, arguments.note)
    _say(f"{season.path}: {reading.name} withdrawn and saved; {counted(season.book_of(reading.stake).count, 'reading')}{_of(reading)}")
    return 0


def _undo(arguments: argparse.Namespace) -> int:
    season = _open(arguments.season)
    call = season.undo(arguments.source, arguments.note)
    _say(f"{season.path}: line {call.line} taken back and saved: {call.text}; {counted(season.book.count, 'reading')}")
    return 0


# ---- answers


def _list(arguments: argparse.Namespace) -> int:
    season = _open_all_or_one(arguments)
    if arguments.json:
        _say_json(
            {
                "season": season.path,
                "settings": season.settings.as_dict(),
                "readings": [_reading_dict(reading) for reading in season.readings],
                "history": [_call_dict(call) for call in season.history],
                "left_out": season.left_out,
            }
        )
    elif arguments.history:
        rows = [["line", "time", "call", "", ""]]
        for call in season.history:
            # an import's text has its source
            kept = _remarks(call.source if call.call != "import" else None, call.note)
            rows.append([str(call.line), call.time or "", call.text, "undone" if call.undone else "", kept])
        _say(_table(rows, (1, 2, 3, 4)))
    else:
        called = any(reading.called for reading in season.readings)
        names = ["name"] + ["stake"] * season.glacier + ["own name"] * called
        rows = [names + (["x", "z", "y"] if season.surface else ["x", "y", "weight"]) + ["state", "source", "note"]]
        for reading in season.readings:
            own = ([str(reading.stake)] if season.glacier else []) + ([reading.called or ""] if called else [])
            state = f"{reading.state}, y was {', '.join(reading.was)}" if reading.was else reading.state
            numbers = [reading.x_text, reading.z_text or "", reading.y_text] if season.surface else [reading.x_text, reading.y_text, reading.weight_text]
            rows.append([reading.name] + own + numbers + [state, reading.source or "", reading.note or ""])
        last = len(names) - 1
        left = {0, *range(last + 4, last + 7)} | ({last} if called else set())
        _say(_table(rows, tuple(left)))
        _say(_standing(season))
    return 0


def _standing(season: Answers) -> str:
    withdrawn = len(season.readings) - season.book.count
    return counted(season.book.count, "reading") + (f", {withdrawn:,} withdrawn" if withdrawn else "")


def _remarks(source: Optional[str], note: Optional[str]) -> str:
    return "; ".join(part for part in (source, note) if part)


def _reading_dict(reading: Reading) -> Dict[str, Any]:
    names = ["name", "called", "x_text", "y_text", "weight_text", "x", "y", "weight", "state", "index", "was", "source", "note", "line"]
    names += ["z_text", "z"] if reading.z_text else ["stake"] if reading.stake is not None else []
    return {name: plain(getattr(reading, name)) for name in names}


def _call_dict(call: Call) -> Dict[str, Any]:
    return {name: getattr(call, name) for name in ("line", "lines", "call", "name", "text", "time", "source", "note", "undone")}


def _scores(arguments: argparse.Namespace) -> int:
    season = _open_one(arguments, "each stake has scores of its own")
    scores = season.scores(_asked(arguments, season))
    if arguments.json:
        _say_json({"season": season.path, **scores.as_dict(), "within": scores.within})
    else:
        _say(f"{season.path}: {_standing(season)}; {scores.settings.summary()}")
        _say(_why(scores))
    return 0


def _why(scores: Scores) -> str:
    """The degree, and why it is this one."""
    criterion = scores.settings.criterion.upper()
    rows = [["degree", criterion, "above least", ""]]
    for each in scores.degrees:
        if each.score is None:
            rows.append([str(each.degree), "unsolved", "", ""])
            continue
        marks = ["least"] * (each.score == scores.least) + ["within 2"] * (each.degree in scores.within) + ["chosen"] * (each.degree == scores.degree)
        rows.append([str(each.degree), _six(each.score), _six(each.score - scores.least), ", ".join(marks)])
    if scores.bound:
        first = f"Degree {scores.degree}: the lowest whose {criterion} is at most 2 above the least of the degrees 0 to {scores.bound}."
    else:
        first = "Degree 0: the bound allows no other."
    return first + "\n" + textwrap.indent(_table(rows, (0, 3)), "  ")


def _why_surface(report: Report) -> str:
    """The same of a surface, of which no call answers the scores."""
    rule = f"the lowest whose {report.settings.criterion.upper()} is at most 2 above the least"
    return f"Total degree {report.degree}: {rule} of the {counted(report.solved, 'total degree')} that could be solved."


def _term(power: int) -> str:
    return ("1", "x")[power] if power < 2 else f"x^{power}"


def _named(reading: Reading) -> str:
    return f"{reading.name} ({_shown(reading.called)})" if reading.called else reading.name


def _confidence_words(settings: Settings) -> str:
    return settings.confidence if isinstance(settings.confidence, str) else f"z score {_six(settings.confidence)}"


def _curve(season: Answers, report: Report) -> str:
    """Coefficients with their errors, what was pruned, and degrees of freedom."""
    rows = [["term", "coefficient", "error", "t", ""]]
    for term, c, error, t, pruned in zip(report.terms, report.coefficients, report.errors, report.t, report.pruned):
        rows.append([term, _six(c), _six(error), _six(t), "pruned" if pruned else ""])
    columns = ", ".join(f"{axis} is {name!r}" for axis, name in (("x", season.x_name), ("z", season.z_name), ("y", season.y_name)) if name)
    lines = [f"The {report.shape}" + (f" ({columns})" if columns else "") + ":", textwrap.indent(_table(rows, (0, 4)), "  ")]
    lines.append(f"{counted(report.df, 'degree')} of freedom: {counted(report.n, 'reading')} less {counted(len(report.coefficients), 'coefficient')}.")
    marked = [term for term, pruned in zip(report.terms, report.pruned) if pruned]
    rule = "size" if report.settings.pruning == "size" else "polyfit's rule, which marks no negative term"
    if marked:
        lines.append(f"Pruned by {rule}, their t being below Student's ({_confidence_words(report.settings)}): {', '.join(marked)}.")
    else:
        lines.append(f"No term is pruned by {rule} ({_confidence_words(report.settings)}).")
    return "\n".join(lines)


def _band_words(season: Answers, report: Report) -> str:
    settings = report.settings
    tolerance = "" if settings.tolerance is None else f", with the tolerance {settings.tolerance[0]} {_six(settings.tolerance[1])}"
    words = f"The band ({_confidence_words(settings)}{tolerance}) is where the {report.shape} itself lies, not where single readings do. "
    standing = season.standing
    outside = [_named(standing[index]) for index in report.outside]
    if outside:
        words += f"Outside it {'lies' if len(outside) == 1 else 'lie'} {len(outside):,} of {counted(report.n, 'reading')}: {', '.join(outside)}."
    else:
        words += "No reading lies outside it."
    return _wrapped(words)


def _reports(arguments: argparse.Namespace, season: SeasonFile) -> int:
    """Each stake of a glacier in a line."""
    settings = _asked(arguments, season)
    with _Progress("working out the reports"):
        reports = season.reports(settings)
    if arguments.json:
        found = [{"stake": stake, **(each if "refused" in each else {"report": each})} for stake, each in enumerate(reports.as_dict()["reports"])]
        _say_json({"season": season.path, "settings": settings.as_dict(), "stakes": found, "answered": reports.answered})
        return 0
    _say(f"{season.path}: {_standing(season)}; {settings.summary()}")
    for line in reports.lines:
        _say(_wrapped(line, "  "))
    _say(f"{reports.answered} of {len(reports.reports)} stakes are not refused. With --stake N the report says why, and what to take care of.")
    return 0


def _report(arguments: argparse.Namespace) -> int:
    season: Answers = _open(arguments.season)
    if isinstance(season, SeasonFile) and (season.glacier or arguments.stake is not None):
        if arguments.stake is None and not (arguments.at or arguments.z or arguments.folds is not None or arguments.split):
            return _reports(arguments, season)
        season = _stake_of(season, arguments, "--at, --folds and --split are of one stake")
    if season.surface and (arguments.folds is not None or arguments.split):
        raise Usage("a surface is neither validated nor broken in two")
    if len(arguments.z) != (len(arguments.at) if season.surface else 0):
        raise Usage("of a surface give a --z for each --at" if season.surface else "a curve has no z")
    settings = _asked(arguments, season)
    numbers = Numbers()
    numbers.read(arguments.at + arguments.z)
    where = [[numbers[text] for text in texts] for texts in ([arguments.at, arguments.z] if season.surface else [arguments.at])]
    with _Progress("working out the report"):
        report, scores = season.report(settings), None if season.surface else season.scores(settings)
        bands = season.book.band(*where, report.degree, settings)
    validation: Optional[Validation] = None
    if arguments.folds is not None:
        with _Progress(f"validating in {arguments.folds} folds"):
            validation = season.book.validate(arguments.folds, settings)
    split: Optional[Split] = None
    if arguments.split:
        with _Progress("looking for the break"):
            split = season.book.split(settings, arguments.limit)
    warnings = season.warnings(report, scores, split)
    standing = season.standing
    if arguments.json:
        _say_json(
            {
                "season": season.path,
                "readings": [reading.name for reading in standing],
                "report": report.as_dict(),
                "outside": [standing[index].name for index in report.outside],
                "scores": scores and {**scores.as_dict(), "within": scores.within},
                "bands": [band.as_dict() for band in bands],
                "validation": validation and validation.as_dict(),
                "split": split and split.as_dict(),
                "warnings": warnings,
            }
        )
        return 0
    _say(f"{season.path}: {_standing(season)}; {settings.summary()}")
    for part in [_why(scores) if scores else _why_surface(report), _curve(season, report), _band_words(season, report)]:
        _say()
        _say(part)
    if bands:
        rows = [["at x"] + ["z"] * season.surface + [report.shape, "lower", "upper"]]
        places = zip(arguments.at, arguments.z) if season.surface else zip(arguments.at)
        rows += [[*texts, _six(b.value), _six(b.lower), _six(b.upper)] for texts, b in zip(places, bands)]
        _say("\n" + _table(rows))
    if validation is not None:
        _say("\n" + validation.summary())
    if split is not None:
        first, last = _named(standing[split.at - 1]), _named(standing[split.at])
        _say(f"\nThe list breaks between {first} and {last} (total {_six(split.total)}, {counted(split.tests, 'pivot test')}):")
        for words, count, degree, coefficients in (
            ("before", split.at, split.degree_before, split.before),
            ("after", split.n - split.at, split.degree_after, split.after),
        ):
            terms = " ".join(f"{_six(c)} {_term(i)}" if i else _six(c) for i, c in enumerate(coefficients))
            _say(f"  {words}: {counted(count, 'reading')}, degree {degree}, {terms}")
    if warnings:
        _say("\nTake care:")
        for warning in warnings:
            _say(_wrapped(f"- {warning}", "  "))
    return 0


# ---- files for others


def _spare(path: str, season: Answers) -> None:
    """A season is never written over."""
    try:
        with open(path, "rb") as file:
            begin = file.read(13)
    except OSError:
        return
    if begin == b"stake season " or os.path.samefile(path, season.path):
        raise Usage(f"{path} is a season, and is not written over")


def _drawn(arguments: argparse.Namespace, season: Answers, write: Callable[[Answers, str], None]) -> int:
    _spare(arguments.file, season)
    try:
        with _Progress(f"drawing {arguments.file}"):
            write(season, arguments.file)
    except ModuleNotFoundError as error:
        module = (error.name or "").partition(".")[0]
        if module not in _PACKAGES:
            raise
        raise SeasonError(f"{module} is missing: install the Debian package {_PACKAGES[module]}") from None
    except OSError as error:
        raise SeasonError(f"{arguments.file}: {error.strerror or error}") from error
    except ValueError as error:
        raise Usage(str(error)) from None
    _say(f"{arguments.file} written")
    return 0


def _plot(arguments: argparse.Namespace) -> int:
    def write(season: Answers, path: str) -> None:
        from . import pictures

        pictures.plot(season, path)

    return _drawn(arguments, _open_one(arguments, "a picture is of one stake (`stake page` has a small one of each)"), write)


def _page(arguments: argparse.Namespace) -> int:
    def write(season: Answers, path: str) -> None:
        from . import page

        page.write(season, path)

    return _drawn(arguments, _open_all_or_one(arguments), write)


def _export(arguments: argparse.Namespace) -> int:
    from .exporting import FORMATS

    if arguments.format == "csv":
        season = _open_all_or_one(arguments)
    else:
        season = _open_one(arguments, f"{'a frame' if arguments.format == 'frame' else 'a list of calls'} is of one stake")
    data = FORMATS[arguments.format](season)
    if arguments.output is None:
        if arguments.format == "frame" and sys.stdout.isatty():
            raise Usage("a frame is bytes, and no text for a terminal: give --output FILE")
        sys.stdout.flush()
        sys.stdout.buffer.write(data)
        sys.stdout.buffer.flush()
        return 0
    _spare(arguments.output, season)
    _write_beside(arguments.output, data)
    _say(f"{arguments.output} written: {counted(season.book.count, 'reading')}")
    return 0


def _write_beside(path: str, data: bytes) -> None:
    """Writes a file whole or not at all."""
    import tempfile

    try:
        descriptor, made = tempfile.mkstemp(dir=os.path.dirname(os.path.abspath(path)), prefix=".stake-")
        try:
            with os.fdopen(descriptor, "wb") as file:
                file.write(data)
                file.flush()
                os.fsync(file.fileno())
                # mkstemp lets nobody else read it; a file that is written has the rights that any new one has.
                mask = os.umask(0)
                os.umask(mask)
                os.fchmod(file.fileno(), 0o666 & ~mask)
            os.replace(made, path)
        except BaseException:
            os.unlink(made)
            raise
    except OSError as error:
        raise SeasonError(f"{path}: {error.strerror or error}") from error


def _check(arguments: argparse.Namespace) -> int:
    if arguments.leave_out:
        seasons.leave_out(arguments.season, arguments.leave_out)
    with _Progress(f"checking {arguments.season}") as progress:
        found = seasons.check(arguments.season, progress.waiting)
    if arguments.json:
        _say_json(found.as_dict())
        return 0 if found.good else 1
    if found.damaged:
        _say(f"{found.path}: {counted(found.lines, 'line')}, {len(found.damaged):,} of them damaged, and no book can be made:")
        for line, why in found.damaged:
            _say(f"  line {line}: {why}")
        options = " ".join(f"--leave-out {line}" for line, _ in found.damaged)
        _say("Something else than stake changed the file. Take the last good copy of it, or give the lines up:")
        _say(f"  stake check {found.path} {options}")
        return 1
    _say(f"{found.path}: {counted(found.lines, 'line')}, none damaged")
    for words in found.left_out:
        _say(f"  {words}, as a later line says")
    if found.torn:
        _say(f"  {found.torn}. Everything before stands, and the next call will say so in the file")
    _say(f"  {counted(found.calls, 'call')} in force, {counted(found.readings, 'reading')}")
    for what, same in found.compared:
        bits = f"{found.readings:,} {found.what} are the same, bit for bit" if same else "they DIFFER"
        _say(f"  the replayed book and {what}: {bits}")
    return 0 if found.good else 1


def _mirror_check(arguments: argparse.Namespace) -> int:
    from . import mirror

    season = _open_all_or_one(arguments)
    of: List[Answers] = [season]
    if isinstance(season, SeasonFile) and season.glacier:
        of = [season.stake(each.stake) for each in season.book if each.count]
    with _Progress("comparing with the mirror image"):
        found = [(one.number, mirror.check(one)) for one in of]
    good = all(each.difference is None for _, each in found)
    if arguments.json:
        told = [each.as_dict() if number is None else {"stake": number, **each.as_dict()} for number, each in found]
        _say_json({"good": good, "path": season.path, "stakes": told} if season.glacier else told[0])
        return 0 if good else 1
    for number, each in found:
        stake = "" if number is None else f": stake {number}"
        readings = counted(each.readings, "reading")
        _say(f"{each.path}{stake}: {counted(each.calls, 'call')}, {readings}, and the same with the sign of every y changed; {each.settings.summary()}")
        for words in each.agree:
            _say(f"  {words}")
        _say("All agree." if each.difference is None else f"They DIFFER, first in this: {each.difference}")
    if not found:
        _say(f"{season.path}: no readings, and so nothing to compare")
    return 0 if good else 1


# ---- the whole


def _refusal_words(refused: Refused, arguments: argparse.Namespace) -> str:
    """A refusal with what is known of its place."""
    if isinstance(refused, RefusedField):
        text = f": {refused.text!r}" if refused.text else ""
        return f"{refused.where}{text}: {refused}"
    if isinstance(refused, RefusedText):
        return f"{refused.text!r}: {refused}"
    if isinstance(refused, RefusedName):
        return f"{refused}: {refused.why}"
    if refused.number == 7:
        stake = "" if getattr(arguments, "stake", None) is None else f"stake {arguments.stake}: "
        return f"{arguments.season}: {stake}{refused}"
    return str(refused)


def _refused(refused: Refused, arguments: argparse.Namespace) -> int:
    if arguments.json:
        _say_json({"refused": {"number": refused.number, "words": refused.words}})
    _tell(_refusal_words(refused, arguments))
    _tell("no season was made" if arguments.command == "new" else "the season is unchanged")
    return 1


def _run(arguments: argparse.Namespace) -> int:
    try:
        status = arguments.run(arguments)
        sys.stdout.flush()
        return int(status)
    except Refused as refused:
        return _refused(refused, arguments)
    except Usage as error:
        arguments.parser.error(str(error))
        return 2
    except (SeasonError, LibraryError) as error:
        _tell(str(error))
        if arguments.changes and arguments.command != "new" and not isinstance(error, NotSaved):
            _tell("the season is unchanged")
        return 1


def main(argv: Optional[Sequence[str]] = None) -> int:
    """Runs the command, and answers its exit status."""
    for stream in (sys.stdout, sys.stderr):
        # Where a terminal has no sign for a letter, the letter's number is better than no answer.
        if hasattr(stream, "reconfigure"):
            stream.reconfigure(errors="backslashreplace")
    # A minus with a digit behind it is a number, and a space keeps argparse from taking it as an option. `_number` takes the space away.
    words = [f" {word}" if re.match(r"-[0-9]", word) else word for word in (sys.argv[1:] if argv is None else argv)]
    arguments = _parser().parse_args(words)
    try:
        return _run(arguments)
    except KeyboardInterrupt:
        _tell("interrupted" + ("; `stake list` says whether the call was saved" if arguments.changes else ""))
        return 130
    except BrokenPipeError:
        # Nobody reads any more. Python would complain once again when it closes the stream.
        os.dup2(os.open(os.devnull, os.O_WRONLY), sys.stdout.fileno())
        return 1
    except OSError as error:
        sys.stderr.write(f"stake: standard output: {error.strerror or error}\n")
        os.dup2(os.open(os.devnull, os.O_WRONLY), sys.stdout.fileno())
        return 1
