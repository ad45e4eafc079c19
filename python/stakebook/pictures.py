"""Pictures of a season: readings, curve and band, residuals below, scores by degree beside; of a surface a map of it, and one of its band's width.

Everything that is drawn was answered by the library: the curve goes through `Book.band` at some 200 x's, and a reading is marked where the report
marks it. Where the library refuses a report the readings are drawn all the same, and the picture says the refusal in words.

`plot(season, "pit.svg")` writes SVG, PNG or PDF by the file's suffix; the same season gives the same bytes. `figure(season)` is matplotlib's own
Figure, for a notebook. No state of pyplot is touched. `plot_surface` is `plot` for a season whose book is a Surface.
"""

import contextlib
import io
import math
import os
import re
import secrets
import stat
import textwrap
import threading
import warnings
import xml.etree.ElementTree as ElementTree
from dataclasses import dataclass
from typing import Any, Dict, Iterator, List, Optional, Sequence, Tuple

try:
    import matplotlib
    import numpy
    from matplotlib.backends.backend_agg import FigureCanvasAgg
    from matplotlib.colors import LinearSegmentedColormap
    from matplotlib.figure import Figure
    from matplotlib.lines import Line2D
    from matplotlib.patches import Patch
    from matplotlib.ticker import MaxNLocator
except ModuleNotFoundError as missing:
    raise ModuleNotFoundError("pictures need matplotlib (Debian's package python3-matplotlib): %s" % missing, name=missing.name) from missing

from . import Refused, Surface

FORMATS = (".svg", ".png", ".pdf")

# Okabe and Ito's colours, which colour-blind readers tell apart; a mark outside the band has another shape too.
INSIDE = "#0072B2"
OUTSIDE = "#D55E00"
OUTSIDE_TEXT = "#A34700"  # the same, dark enough for small letters
CURVE = "#222222"
BAND = "#56B4E9"
QUIET = "#595959"

GRID = 200  # steps from x to x at which the curve is asked for
MAP = 40  # steps of a surface, both ways
NAMES = 60  # names of readings outside the band that are tried at most: more would be a grey cloud
AREA = 22.0  # of a mark of the middle weight, in square points
_PLACES = re.compile(r"-?[0-9]+\.[0-9]+")  # of an SVG, in points: a hundredth is below what a screen or a printer shows
SVG = "http://www.w3.org/2000/svg"
XLINK = "http://www.w3.org/1999/xlink"


@dataclass(frozen=True)
class View:
    """What a season shows: its readings in force, in the book's order, and what the library answered about them."""

    title: str
    settings: Any
    x_label: str
    y_label: str
    names: List[str]
    tips: List[str]
    book_ys: List[float]  # as the book has them
    x_name: str
    y_name: str
    xs: Any  # for the axes, as all that follows
    ys: Any
    ws: Any
    report: Any  # a Report, or None where it was refused
    scores: Any  # Scores, or None
    refused: Optional[Refused]  # why there is no report
    unscored: Optional[Refused]  # why there are no scores
    outside: Any  # for each reading, whether the report marks it
    values: Any  # the curve at each reading
    grid: Any  # rows of x, value, lower and upper

    @property
    def heights(self) -> Any:
        """Where the readings stand in the picture, from below."""
        return self.ys

    @property
    def line(self) -> Any:
        """Rows of x and height of a line that no name should cover."""
        return self.grid[:, :2]


@dataclass(frozen=True)
class SurfaceView(View):
    """What a season of a surface shows. Of the grid there is no row; the maps have a row for each z."""

    z_label: str
    z_name: str
    zs: Any
    at: Tuple[Any, Any]  # the x's and the z's of the maps
    value: Any  # of the surface there, and so the width of its band
    width: Any

    @property
    def heights(self) -> Any:
        return self.zs


def look(season: Any, title: Optional[str] = None) -> View:
    """Asks the library all that the pictures and the page show."""
    if isinstance(season.book, Surface):
        return look_surface(season, title)
    book = season.book
    report, refused = _answer(season.report)
    scores, unscored = _answer(season.scores)
    xs, ys = book.xs, book.ys
    grid: List[Tuple[float, float, float, float]] = []
    values: List[float] = []
    if report is not None:
        at = _between(min(xs), max(xs))
        grid = [(x, band.value, band.lower, band.upper) for x, band in zip(at, book.band(at, report.degree, season.settings))]
        once = sorted(set(xs))
        curve = {x: band.value for x, band in zip(once, book.band(once, report.degree, season.settings))}
        values = [curve[x] for x in xs]
    common, x_power, y_power = _seen(season, title, report)
    rows = numpy.column_stack([_scaled([row[j] for row in grid], (x_power, y_power)[j > 0]) for j in range(4)])
    seen = numpy.concatenate([_scaled(ys, y_power), rows[:, 1]])
    if len(rows):
        # a band that goes on and on is cut far outside the picture, where no axis can overflow
        least, most = float(numpy.nanmin(seen)), float(numpy.nanmax(seen))
        room = most - least or abs(most) or 1.0
        rows[:, 2:] = numpy.clip(rows[:, 2:], least - 100 * room, most + 100 * room)
    return View(**common, scores=scores, refused=refused, unscored=unscored, values=_scaled(values, y_power), grid=rows)


def look_surface(season: Any, title: Optional[str] = None) -> SurfaceView:
    """The same of a season whose book is a Surface. No call answers the scores of its total degrees."""
    book = season.book
    report, refused = _answer(season.report)
    xs, zs = book.xs, book.zs
    at: Tuple[List[float], List[float]] = ([], [])
    bands: List[Any] = []
    values: List[float] = []
    if report is not None:
        values = [band.value for band in book.band(xs, zs, report.degree, season.settings)]
        at = _between(min(xs), max(xs), MAP), _between(min(zs), max(zs), MAP)
        points = [(x, z) for z in at[1] for x in at[0]]
        bands = book.band([x for x, _ in points], [z for _, z in points], report.degree, season.settings)
    common, x_power, y_power = _seen(season, title, report)
    z_power = _power(zs)
    shape = len(at[1]), len(at[0])
    value, lower, upper = (_scaled([getattr(band, name) for band in bands], y_power).reshape(shape) for name in ("value", "lower", "upper"))
    return SurfaceView(
        **common,
        scores=None,
        refused=refused,
        unscored=None,
        values=_scaled(values, y_power),
        grid=numpy.empty((0, 4)),
        z_label=_label(season.z_name or "z", z_power),
        z_name=season.z_name or "z",
        zs=_scaled(zs, z_power),
        at=(_scaled(at[0], x_power), _scaled(at[1], z_power)),
        value=value,
        width=upper - lower,
    )


def _seen(season: Any, title: Optional[str], report: Any) -> Tuple[Dict[str, Any], int, int]:
    """What the views of curves and surfaces have alike, and the powers of ten of x and y."""
    book = season.book
    named = {reading.index: reading for reading in season.readings if reading.index is not None}
    readings = [named[i] for i in range(book.count)]
    xs, ys = book.xs, book.ys
    x_power, y_power = _power(xs), _power(ys)
    seen = dict(
        title=plain(title if title is not None else title_of(season), 60),
        settings=season.settings,
        x_label=_label(season.x_name or "x", x_power),
        y_label=_label(season.y_name or "y", y_power),
        names=[reading.name for reading in readings],
        tips=[plain(tip(season, reading), 200) for reading in readings],
        book_ys=ys,
        x_name=season.x_name or "x",
        y_name=season.y_name or "y",
        xs=_scaled(xs, x_power),
        ys=_scaled(ys, y_power),
        ws=numpy.array([reading.weight for reading in readings], dtype=float),
        report=report,
        outside=numpy.array(report.outliers if report is not None else [False] * len(xs), dtype=bool),
    )
    return seen, x_power, y_power


def title_of(season: Any) -> str:
    """The season file's name without its folder and suffix, and of a glacier's stake its number."""
    number = getattr(season, "number", None)
    return str(os.path.splitext(os.path.basename(season.path))[0]) + ("" if number is None else ", stake %d" % number)


def written(text: str, value: float) -> str:
    """A number as the observer wrote it; a program's hexadecimal in decimal, with every digit."""
    return repr(value) if "x" in text else text


def tip(season: Any, reading: Any) -> str:
    """A reading in one line."""
    parts = ["%s %s" % (season.x_name or "x", written(reading.x_text, reading.x))]
    if isinstance(season.book, Surface):
        parts.append("%s %s" % (season.z_name or "z", written(reading.z_text, reading.z)))
    parts.append("%s %s" % (season.y_name or "y", written(reading.y_text, reading.y)))
    if reading.weight != 1:
        parts.append("weight %s" % written(reading.weight_text, reading.weight))
    return "%s%s: %s" % (reading.name, " (%s)" % reading.called if reading.called else "", ", ".join(parts))


def plain(text: str, most: int) -> str:
    """Without control characters, which an SVG can't hold, and not longer than there is room."""
    text = "".join(character if character.isprintable() else " " for character in text)
    return text if len(text) <= most else text[: most - 1] + "\u2026"


def refusal_words(refused: Refused) -> str:
    return "refusal %d: %s" % (refused.number, refused.words)


def count_of(number: int, one: str, many: Optional[str] = None) -> str:
    """A number and its noun."""
    return "{:,} {}".format(number, one if number == 1 else many or one + "s")


def in_short(view: View) -> str:
    """The season in one line."""
    words = [count_of(len(view.names), "reading")]
    if view.report is None:
        return words[0] + ", no report"
    words.append("degree %d by %s" % (view.report.degree, view.settings.criterion.upper()))
    words.append("{:,} outside the band".format(int(view.outside.sum())))
    return ", ".join(words)


def _answer(call: Any) -> Tuple[Any, Optional[Refused]]:
    try:
        return call(), None
    except Refused as why:
        return None, why


def _between(least: float, most: float, count: int = GRID) -> List[float]:
    """x's from the least to the greatest, both among them; rounding may put none outside, where a band is refused."""
    if least == most:
        return [least]
    steps = [least * (1 - i / count) + most * (i / count) for i in range(count + 1)]
    return [min(max(x, least), most) for x in steps]


def _power(numbers: Sequence[float]) -> int:
    """0, or for numbers near the ends of the doubles' range the power of ten that brings them where an axis can be drawn."""
    size = max((abs(number) for number in numbers), default=0.0)
    return 0 if size == 0 or 1e-100 <= size <= 1e100 else int(math.floor(math.log10(size)))


def _scaled(numbers: Sequence[float], power: int) -> Any:
    """As an array; what is not finite has no place in a picture and becomes a gap."""
    array = numpy.array(numbers, dtype=float)
    array[~numpy.isfinite(array)] = numpy.nan
    if power:
        half = power // 2
        array = array / 10.0**half / 10.0 ** (power - half)  # in two steps: one factor alone may not be a double
    return array


def _label(name: str, power: int) -> str:
    name = plain(name, 50)
    return name if not power else "%s, in units of 1e%d" % (name, power)


# ---- drawing


_one_at_a_time = threading.Lock()  # matplotlib's settings are its own, and not a thread's


@contextlib.contextmanager
def _style() -> Iterator[None]:
    """matplotlib's own defaults, whatever the user's file says, and ours over them; all is put back."""
    with _one_at_a_time, matplotlib.rc_context(), warnings.catch_warnings():
        warnings.filterwarnings("ignore", "Glyph .* missing")  # a letter that the font lacks is a box in a PNG, and no news for a terminal
        matplotlib.rcdefaults()
        ours = {
            "font.size": 9,
            "axes.titlesize": 9,
            "axes.titlelocation": "left",
            "axes.spines.top": False,
            "axes.spines.right": False,
            "axes.edgecolor": QUIET,
            "axes.labelcolor": CURVE,
            "xtick.color": CURVE,
            "ytick.color": CURVE,
            "text.color": CURVE,
            "legend.frameon": False,
            "legend.fontsize": 8,
            "svg.fonttype": "none",  # texts stay texts: they can be found and read out
            "svg.hashsalt": "stakebook",
            "pdf.fonttype": 42,
            "text.parse_math": False,  # a dollar in a column's name is a dollar
        }
        matplotlib.rcParams.update({key: value for key, value in ours.items() if key in matplotlib.rcParams})  # older ones lack some
        yield


def figure(season: Any, title: Optional[str] = None) -> Figure:
    """The whole picture as matplotlib's Figure."""
    view = look(season, title)
    with _style():
        return _whole(view)


def plot(season: Any, path: Any, title: Optional[str] = None) -> None:
    """Writes the whole picture: SVG, PNG or PDF by the file's suffix. A write that fails leaves what was there."""
    path = os.fspath(path)
    suffix = os.path.splitext(path)[1].lower()
    if suffix not in FORMATS:
        raise ValueError("a picture is %s, and not %r" % (", ".join(FORMATS), suffix or "a name without a suffix"))
    view = look(season, title)
    with _style():
        drawn = _whole(view)
        out = io.BytesIO()
        if suffix == ".svg":
            out.write(b'<?xml version="1.0" encoding="utf-8" standalone="no"?>\n')
            out.write(_svg(drawn, view, title="%s: %s" % (view.title, in_short(view))).encode("utf-8"))
        elif suffix == ".png":
            drawn.savefig(out, format="png", dpi=150, metadata={"Software": None})
        else:
            drawn.savefig(out, format="pdf", metadata={"CreationDate": None, "Creator": None, "Producer": None, "Title": view.title})
    replace(path, out.getvalue())


def plot_surface(season: Any, path: Any, title: Optional[str] = None) -> None:
    """Writes the maps of a surface: a season whose book is one, or anything that has of a season what `plot` takes."""
    if not isinstance(season.book, Surface):
        raise TypeError("a map is drawn of a Surface")
    plot(season, path, title)


def replace(path: str, content: bytes) -> None:
    """Writes a file whole or not at all: beside its place first, then by a rename. What is no plain file, a pipe say, is written to as it is."""
    path = os.path.realpath(path)
    if os.path.exists(path) and not os.path.isfile(path):
        with open(path, "wb") as out:
            out.write(content)
        return
    mode = stat.S_IMODE(os.stat(path).st_mode) if os.path.exists(path) else None
    beside = os.path.join(os.path.dirname(path), ".stake-%s" % secrets.token_hex(8))
    handle = os.open(beside, os.O_WRONLY | os.O_CREAT | os.O_EXCL | os.O_CLOEXEC, 0o666)
    try:
        with os.fdopen(handle, "wb") as out:
            if mode is not None:
                os.fchmod(out.fileno(), mode)
            out.write(content)
            out.flush()
            os.fsync(out.fileno())
        os.replace(beside, path)
    except BaseException:
        os.unlink(beside)
        raise


def inline(view: View) -> Tuple[str, str]:
    """Two SVG elements for a page, readings over residuals and scores, drawn narrow so that their texts can be read on a phone. A surface's maps are one."""
    with _style():
        if isinstance(view, SurfaceView):
            return _svg(_maps(view, narrow=True), view, prefix="surface-"), ""
        readings = _empty(4.4, 4.9)
        above, below = readings.subplots(2, 1, sharex=True, gridspec_kw={"height_ratios": [3, 1.25]})
        _draw_curve(above, view, legend_above=True)
        _draw_residuals(below, view)
        _settle(readings, [(above, view)])
        scores = _empty(4.4, 2.9)
        _draw_scores(scores.subplots(), view)
        _settle(scores, [])
        return _svg(readings, view, prefix="curve-"), _svg(scores, view, prefix="scores-")


def small(view: View, prefix: str) -> str:
    """One SVG element for a page of many: readings, curve and band. Why there is no curve, the page says."""
    with _style():
        drawn = _empty(3.4, 2.5)
        axes = drawn.subplots()
        _draw_curve(axes, view)
        axes.set_title("")
        axes.set_xlabel(view.x_label)
        _settle(drawn, [(axes, view)])
        return _svg(drawn, view, prefix=prefix)


def _empty(width: float, height: float) -> Figure:
    drawn = Figure(figsize=(width, height), constrained_layout=True)
    FigureCanvasAgg(drawn)
    return drawn


def _whole(view: View) -> Figure:
    if isinstance(view, SurfaceView):
        return _maps(view)
    drawn = _empty(9.6, 6.2)
    grid = drawn.add_gridspec(2, 2, width_ratios=[2.5, 1], height_ratios=[3, 1.25])
    above = drawn.add_subplot(grid[0, 0])
    below = drawn.add_subplot(grid[1, 0], sharex=above)
    beside = drawn.add_subplot(grid[0, 1])
    words = drawn.add_subplot(grid[1, 1])
    _draw_curve(above, view)
    above.tick_params(labelbottom=False)
    _draw_residuals(below, view)
    _draw_scores(beside, view, narrow=True)
    words.axis("off")
    handles, texts = _legend(view)
    words.legend(handles, texts, loc="upper left", borderaxespad=0, bbox_to_anchor=(-0.15, 1))
    drawn.suptitle("%s: %s" % (view.title, in_short(view)), x=0.01, ha="left", fontsize=11)
    _settle(drawn, [(above, view)])
    return drawn


def _maps(view: SurfaceView, narrow: bool = False) -> Figure:
    """The surface with the readings, and beside it, or below, how wide its band is."""
    drawn = _empty(4.4, 6.8) if narrow else _empty(9.6, 4.9)
    shape, ratios = ((2, 2), [1, 0.05]) if narrow else ((1, 4), [1, 0.05, 1, 0.05])
    left, left_bar, right, right_bar = drawn.subplots(*shape, gridspec_kw={"width_ratios": ratios}).flat
    _draw_map(left, left_bar, view)
    _draw_width(right, right_bar, view)
    if not narrow:
        drawn.suptitle("%s: %s" % (view.title, in_short(view)), x=0.01, ha="left", fontsize=11)
    _settle(drawn, [(left, view)])
    return drawn


def _draw_map(axes: Any, bar: Any, view: SurfaceView) -> None:
    axes.set_xlabel(view.x_label)
    axes.set_ylabel(view.z_label)
    if len(view.xs) == 0:
        bar.axis("off")
        _say(axes, "No readings are in force.")
        axes.set_xticks([])
        return
    _contours(axes, bar, view, view.value, view.y_label, "surface", "#F2F2F2", "#8C8C8C")
    _points(axes, view, view.zs, "mark")
    words = _of_the_maps(view)
    if words:
        axes.set_title(_wrap(capital(". ".join(words)), 50), color=OUTSIDE_TEXT)
    else:
        handles, texts = _legend(view)
        axes.legend(handles, texts, loc="lower left", bbox_to_anchor=(-0.02, _above(axes)), ncol=2, borderaxespad=0.2)


def _draw_width(axes: Any, bar: Any, view: SurfaceView) -> None:
    axes.set_xlabel(view.x_label)
    if view.report is None:
        bar.axis("off")
        _say(axes, "No surface, no band." if len(view.xs) else "")
        return
    _contours(axes, bar, view, view.width, "width of the band, %s" % band_of(view.settings), "width", "#F1F8FD", BAND)
    axes.scatter(view.xs, view.zs, s=5, c=QUIET, linewidths=0, zorder=3)


def _contours(axes: Any, bar: Any, view: SurfaceView, numbers: Any, label: str, name: str, least: str, most: str) -> None:
    """Filled contours with a bar beside them. None where all readings lie on a line across the map, or where no number is finite."""
    for limits, places in ((axes.set_xlim, view.xs), (axes.set_ylim, view.zs)):
        first, last = float(places.min()), float(places.max())
        room = last - first if last > first else abs(last) or 1.0
        limits(first - 0.05 * room, last + 0.05 * room)
    if not _mapped(view) or not numpy.isfinite(numbers).any():
        bar.axis("off")
        return
    low, high = float(numpy.nanmin(numbers)), float(numpy.nanmax(numbers))
    if high - low <= 1e-9 * max(abs(low), abs(high)):  # flat but for rounding: one colour, and no steps that are none
        room = abs(high) * 1e-3 or 1.0
        levels = [low - room, high + room]
    else:
        levels = MaxNLocator(12).tick_values(low, high)
    colours = LinearSegmentedColormap.from_list(name, [least, most])
    drawn = axes.contourf(view.at[0], view.at[1], numbers, levels=levels, cmap=colours, zorder=1)
    for i, part in enumerate([drawn] if hasattr(drawn, "set_gid") else drawn.collections):  # one of all from matplotlib 3.8 on
        part.set_gid("%s-%d" % (name, i))
    axes.figure.colorbar(drawn, cax=bar).set_label(label)


def _settle(drawn: Figure, named: Sequence[Tuple[Any, View]]) -> None:
    """Lays the figure out once and for all, and then puts the names where there is room."""
    if hasattr(drawn, "get_layout_engine"):
        drawn.get_layout_engine().execute(drawn)
        drawn.set_layout_engine("none")
    else:  # before matplotlib 3.6
        drawn.execute_constrained_layout()
        drawn.set_constrained_layout(False)
    renderer = drawn.canvas.get_renderer()
    for axes in drawn.axes:
        _shorten(axes.xaxis.label, axes.get_window_extent(renderer).width * (0.55 if _offset(axes.xaxis) else 1), renderer)
        _shorten(axes.yaxis.label, axes.get_window_extent(renderer).height * 1.1, renderer)
    for axes, view in named:
        _put_words(axes, view, renderer)


def _put_words(axes: Any, view: View, renderer: Any) -> None:
    """The names of the readings outside the band, and in a corner what the picture can't show."""
    unnamed = "{:,} more outside have no room for a name"
    notes = [] if isinstance(view, SurfaceView) else _of_the_band(axes, view)  # of a surface, see _draw_map
    outside = int(view.outside.sum())
    corner = axes.annotate(
        "\n".join(notes + [unnamed.format(outside)]),
        (1, 0),
        xycoords="axes fraction",
        xytext=(-3, 3),
        textcoords="offset points",
        ha="right",
        va="bottom",
        fontsize=8,
        color=OUTSIDE_TEXT,
        zorder=6,
        bbox={"facecolor": "white", "alpha": 0.8, "edgecolor": "none", "pad": 1},
    )
    box = corner.get_window_extent(renderer)
    # where a few are outside each will have its name, and the corner is free
    kept = [[box.x0, box.y0, box.x1, box.y1]] if notes or outside > 8 else []
    left = _name_outside(axes, view, kept)
    if left:
        notes.append(unnamed.format(left))
    if notes:
        corner.set_text("\n".join(notes))
    else:
        corner.remove()


def _of_the_band(axes: Any, view: View) -> List[str]:
    """What the picture does not show of the band, in words."""
    if view.report is None:
        return []
    band = view.grid[:, 2:]
    least, most = axes.get_ylim()
    words = []
    if numpy.isnan(band).any():
        words.append("the band is not finite" if numpy.isnan(band).all() else "the band is not finite everywhere")
    if numpy.nanmax(band, initial=most) > most or numpy.nanmin(band, initial=least) < least:
        words.append("the band reaches beyond the picture")
    return words


def _mapped(view: SurfaceView) -> bool:
    """Whether there is a map to draw: a report, and readings that don't all have one x or one z."""
    return bool(min(view.value.shape) > 1)


def _of_the_maps(view: SurfaceView) -> List[str]:
    """What the maps don't show, in words."""
    if view.refused is not None:
        return ["no report. %s" % capital(refusal_words(view.refused))]
    if not _mapped(view):
        return ["all readings have one %s: there is no map" % (view.x_name if len(view.at[0]) < 2 else view.z_name)]
    parts = (("surface", view.value), ("band", view.width))
    return ["the %s is not finite everywhere" % name for name, numbers in parts if not numpy.isfinite(numbers).all()]


def _shorten(text: Any, room: float, renderer: Any) -> None:
    """Ends a label that is longer than its axis with dots."""
    box = text.get_window_extent(renderer)
    long = max(box.width, box.height)
    if long > room:
        words = text.get_text()
        text.set_text(words[: max(1, int(len(words) * room / long) - 2)] + "\u2026")


def _crowded(view: View) -> bool:
    """Whether the marks would hide the curve: then it is drawn over them."""
    return len(view.xs) > 250


def _area(view: View) -> float:
    """The area of a mark of the middle weight: smaller where there are many."""
    return max(4.0, AREA * math.sqrt(min(1.0, 120 / max(1, len(view.xs)))))


def _areas(view: View) -> Any:
    """A mark's area goes with its weight; none is too small to be seen or as large as the picture."""
    if len(view.ws) == 0:
        return view.ws
    return numpy.clip(_area(view) * view.ws / float(numpy.median(view.ws)), 4.0, 12 * AREA)


def _points(axes: Any, view: View, ys: Any, kind: str) -> None:
    areas = _areas(view)
    for name, chosen, colour, marker in (("inside", ~view.outside, INSIDE, "o"), ("outside", view.outside, OUTSIDE, "D")):
        if chosen.any():
            drawn = axes.scatter(
                view.xs[chosen],
                ys[chosen],
                s=areas[chosen],
                c=colour,
                marker=marker,
                linewidths=0 if _crowded(view) else 0.5,
                edgecolors="white",
                zorder=3,
            )
            drawn.set_gid("%s-%s" % (kind, name))


def _draw_curve(axes: Any, view: View, legend_above: bool = False) -> None:
    axes.set_ylabel(view.y_label)
    if len(view.xs) == 0:
        _say(axes, "No readings are in force.")
        axes.set_xticks([])
        return
    _points(axes, view, view.ys, "mark")
    if view.report is not None:
        _band(axes, view, "mark", 0.0)
    seen = numpy.concatenate([view.ys, view.grid[:, 1]])
    _limits(axes, view, seen, view.grid[:, 2:])
    if view.refused is not None:
        axes.set_title(_wrap("No report. %s" % capital(refusal_words(view.refused)), 50 if legend_above else 80), color=OUTSIDE_TEXT)
    if legend_above:
        handles, texts = _legend(view)
        if view.refused is None:
            axes.legend(handles, texts, loc="lower left", bbox_to_anchor=(-0.02, _above(axes)), ncol=2, borderaxespad=0.2)
        else:
            axes.legend(handles, texts, loc="best")


def _band(axes: Any, view: View, kind: str, below: Any) -> None:
    """Curve and band, less `below` at each x of the grid."""
    x, value, lower, upper = (view.grid[:, j] for j in range(4))
    if len(x) == 1:  # one x alone: the band is a line upwards
        band = axes.vlines(x, lower - below, upper - below, color=BAND, linewidth=4, alpha=0.5, zorder=1)
        curve = axes.plot(x, value - below, "_", color=CURVE, markersize=12, zorder=2)[0]
    else:
        band = axes.fill_between(x, lower - below, upper - below, color=BAND, alpha=0.3, linewidth=0, zorder=1)
        if _crowded(view):
            axes.plot(x, value - below, color="white", linewidth=3, zorder=3.5)
        curve = axes.plot(x, value - below, color=CURVE, linewidth=1.3, zorder=4 if _crowded(view) else 2)[0]
    band.set_gid("%s-band" % kind)
    curve.set_gid("%s-curve" % kind)


def _limits(axes: Any, view: View, seen: Any, band: Any) -> None:
    """Shows every reading and the curve whole; of the band as much as would not make them flat."""
    seen = seen[numpy.isfinite(seen)]
    least, most = float(seen.min()), float(seen.max())
    room = most - least if most > least else abs(most) or 1.0
    limits = band[numpy.isfinite(band)]
    if len(limits):
        least, most = max(min(least, float(limits.min())), least - 1.5 * room), min(max(most, float(limits.max())), most + 1.5 * room)
    room = most - least if most > least else abs(most) or 1.0
    axes.set_ylim(least - 0.06 * room, most + 0.06 * room)
    left, right = float(view.xs.min()), float(view.xs.max())
    wide = right - left if right > left else abs(right) or 1.0
    axes.set_xlim(left - 0.04 * wide, right + 0.04 * wide)


def _draw_residuals(axes: Any, view: View) -> None:
    axes.set_xlabel(view.x_label)
    axes.set_ylabel("residual")
    if view.report is None:
        _say(axes, "No curve, no residuals." if len(view.xs) else "")
        return
    residuals = view.ys - view.values
    _band(axes, view, "residual", view.grid[:, 1])
    _points(axes, view, residuals, "residual")
    _limits(axes, view, numpy.append(residuals, 0.0), view.grid[:, 2:] - view.grid[:, 1:2])


def _draw_scores(axes: Any, view: View, narrow: bool = False) -> None:
    axes.set_xlabel("degree")
    axes.set_ylabel("score (%s)" % view.settings.criterion.upper())
    if view.unscored is not None:
        _say(axes, _wrap(capital(refusal_words(view.unscored)), 30))
        axes.set_xticks([])
        return
    known = [(row.degree, row.score) for row in view.scores.degrees if row.solved and math.isfinite(row.score)]
    blank = [row.degree for row in view.scores.degrees if not row.solved]
    odd = [row.degree for row in view.scores.degrees if row.solved and not math.isfinite(row.score)]
    line = view.scores.least + 2
    if known:
        axes.plot([row[0] for row in known], [row[1] for row in known], "o", color=INSIDE, markersize=4.5, zorder=3, gid="scores")
        chosen = [row for row in known if row[0] == view.scores.degree]
        ring = dict(color="none", markeredgecolor=OUTSIDE, markersize=11, markeredgewidth=1.6)
        axes.plot([row[0] for row in chosen], [row[1] for row in chosen], "o", zorder=4, gid="chosen", **ring)
    if math.isfinite(line):
        axes.axhline(line, color=QUIET, linewidth=0.9, linestyle="--", zorder=1, gid="within")
    shown = [row[1] for row in known] + ([line] if math.isfinite(line) else [])
    least, most = (min(shown), max(shown)) if shown else (0.0, 1.0)
    room = most - least or 1.0
    axes.set_ylim(least - (0.22 if blank or odd else 0.1) * room, most + 0.1 * room)
    last = max(view.scores.bound, 1)
    axes.set_xlim(-0.6, last + 0.6)
    axes.set_xticks(range(view.scores.bound + 1))
    axes.tick_params(axis="x", labelsize=7 if narrow and last >= 10 else 8)
    for degrees, marker, name in ((blank, "x", "unsolved"), (odd, "+", "not-finite")):
        if degrees:  # at the foot, whatever the scores are: these have none
            foot = axes.get_xaxis_transform()
            axes.plot(degrees, [0.05] * len(degrees), marker, transform=foot, color=QUIET, markersize=6, markeredgewidth=1.4, zorder=3, gid=name)
    handles = [
        Line2D([], [], linestyle="none", marker="o", color="none", markeredgecolor=OUTSIDE, markersize=9, markeredgewidth=1.6),
        Line2D([], [], color=QUIET, linewidth=0.9, linestyle="--"),
    ]
    texts = ["chosen: degree %d" % view.scores.degree, "least + 2"]
    if blank:
        handles.append(Line2D([], [], linestyle="none", marker="x", color=QUIET, markersize=6, markeredgewidth=1.4))
        texts.append("unsolved")
    if odd:
        handles.append(Line2D([], [], linestyle="none", marker="+", color=QUIET, markersize=7, markeredgewidth=1.4))
        texts.append("not finite")
    axes.legend(handles, texts, loc="lower left", bbox_to_anchor=(-0.05, _above(axes)), ncol=2, borderaxespad=0.2, columnspacing=1.2)


def _legend(view: View) -> Tuple[List[Any], List[str]]:
    handles: List[Any] = []
    texts: List[str] = []

    def entry(handle: Any, text: str) -> None:
        handles.append(handle)
        texts.append(text)

    def dot(area: float, colour: str = INSIDE, marker: str = "o") -> Line2D:
        return Line2D([], [], linestyle="none", marker=marker, color=colour, markersize=math.sqrt(area), markeredgecolor="white", markeredgewidth=0.5)

    area = max(AREA / 2, _area(view))
    weights = sorted(set(view.ws.tolist()))
    if len(weights) > 1:
        areas = dict(zip(view.ws.tolist(), _areas(view).tolist()))
        for weight in weights if len(weights) <= 3 else [weights[0], weights[len(weights) // 2], weights[-1]]:
            entry(dot(areas[weight]), "reading, weight %.6g" % weight)
    elif weights:
        entry(dot(area), "reading")
    if view.outside.any():
        entry(dot(area, OUTSIDE, "D"), "outside the band: {:,}".format(int(view.outside.sum())))
    if view.report is not None and not isinstance(view, SurfaceView):  # a map's bars say what it shows
        entry(Line2D([], [], color=CURVE, linewidth=1.3), "curve, degree %d" % view.report.degree)
        entry(Patch(color=BAND, alpha=0.3, linewidth=0), "band, %s" % band_of(view.settings))
    return handles, texts


def band_of(settings: Any) -> str:
    """Confidence and tolerance of a band, in a few words."""
    confidence = settings.confidence if isinstance(settings.confidence, str) else "z %g" % settings.confidence
    if settings.tolerance is None:
        return str(confidence)
    kind, value = settings.tolerance
    return "%s, %s" % (confidence, {"absolute": "± %g", "variance": "variance %g", "measurement": "± %g of the value"}[kind] % value)


def _offset(axis: Any) -> str:
    """What an axis takes out of its numbers and writes at its end, as +1.2e6, if it does."""
    formatter = axis.get_major_formatter()
    formatter.set_locs(axis.get_majorticklocs())
    return str(formatter.get_offset())


def _above(axes: Any) -> float:
    """Where a legend above the axes begins, in their height."""
    return 1.07 if _offset(axes.yaxis) else 1.0


def _say(axes: Any, words: str) -> None:
    axes.set_yticks([])
    axes.text(0.5, 0.5, words, transform=axes.transAxes, ha="center", va="center", color=QUIET)


def capital(words: str) -> str:
    return words[:1].upper() + words[1:]


def _wrap(words: str, width: int) -> str:
    return "\n".join(textwrap.wrap(words, width))


def _name_outside(axes: Any, view: View, kept: Sequence[Sequence[float]]) -> int:
    """Names beside the marks outside the band, the farthest from the curve first, each where it covers no mark, no other name and no place
    that is kept free, and not the curve if that can be. Answers how many have no room."""
    where = numpy.flatnonzero(view.outside)
    if len(where) == 0:
        return 0
    drawn = axes.figure
    renderer = drawn.canvas.get_renderer()
    heights = view.heights
    places = axes.transData.transform(numpy.column_stack([view.xs, heights]))
    half = numpy.sqrt(_areas(view)) / 2 * drawn.dpi / 72
    marks = numpy.column_stack([places[:, 0] - half, places[:, 1] - half, places[:, 0] + half, places[:, 1] + half])
    frame = axes.get_window_extent(renderer)
    distance = numpy.abs(view.ys - view.values)
    curve = axes.transData.transform(view.line)
    curve = numpy.hstack([curve, curve])
    taken = numpy.vstack([marks] + list(kept))
    left = 0
    for i in sorted(where.tolist(), key=lambda i: (-distance[i] if math.isfinite(distance[i]) else 0.0, i))[:NAMES]:
        place = dict(xytext=(0, 0), textcoords="offset pixels", ha="center", va="center")
        text = axes.annotate(view.names[i], (view.xs[i], heights[i]), fontsize=8, color=OUTSIDE_TEXT, zorder=5, **place)
        text.set_gid("name-%s" % view.names[i])
        box = text.get_window_extent(renderer)
        wide, high = box.width / 2 + 1, box.height / 2
        around = list(_around(half[i] + 3, wide, high))
        for right, up, lines in [place + (True,) for place in around] + [place + (False,) for place in around]:
            middle = places[i] + (right, up)
            tried = numpy.array([middle[0] - wide, middle[1] - high, middle[0] + wide, middle[1] + high])
            within = tried[0] >= frame.x0 and tried[1] >= frame.y0 and tried[2] <= frame.x1 and tried[3] <= frame.y1
            if within and not _hits(tried, taken) and not (lines and _hits(tried, curve)):
                # in points, which are the same in every format
                text.set_position((right * 72 / drawn.dpi, up * 72 / drawn.dpi))
                text.set_anncoords("offset points")
                taken = numpy.vstack([taken, tried])
                break
        else:
            text.remove()
            left += 1
    return left + max(0, len(where) - NAMES)


def _hits(box: Any, others: Any) -> bool:
    """Whether a box meets one of the others; each is left, bottom, right, top."""
    return bool(((box[0] < others[:, 2]) & (others[:, 0] < box[2]) & (box[1] < others[:, 3]) & (others[:, 1] < box[3])).any())


def _around(gap: float, wide: float, high: float) -> Iterator[Tuple[float, float]]:
    """Places about a mark, in the order in which they are tried."""
    for far in (1.0, 2.2):
        reach = gap * far
        yield (reach + wide, high * 0.6)
        yield (-reach - wide, high * 0.6)
        yield (0.0, reach + high)
        yield (0.0, -reach - high)
        yield (reach + wide, -high * 0.8)
        yield (-reach - wide, -high * 0.8)


# ---- SVG


def _svg(drawn: Figure, view: View, prefix: str = "", title: Optional[str] = None) -> str:
    """The figure as one `svg` element whose marks have their readings' names: `mark-r7`, with its numbers as a title.

    With a prefix every other id begins with it, so that a page can hold several pictures.
    """
    out = io.BytesIO()
    drawn.savefig(out, format="svg", metadata={"Date": None, "Creator": None, "Type": None, "Format": None})
    ElementTree.register_namespace("", SVG)
    ElementTree.register_namespace("xlink", XLINK)
    root = ElementTree.fromstring(out.getvalue())
    for child in list(root):
        if child.tag == "{%s}metadata" % SVG:
            root.remove(child)
    for definitions in root.findall("{%s}defs" % SVG):
        for style in definitions.findall("{%s}style" % SVG):
            definitions.remove(style)  # it would speak to the whole page; what it says is inherited as well
    root.set("style", "stroke-linejoin: round; stroke-linecap: butt")
    if title is not None:
        named_so = ElementTree.Element("{%s}title" % SVG)
        named_so.text = title
        root.insert(0, named_so)
    groups = {element.get("id"): element for element in root.iter("{%s}g" % SVG)}
    named = set()
    for kind in ("mark", "residual"):
        for which, chosen in (("inside", ~view.outside), ("outside", view.outside)):
            group = groups.get("%s-%s" % (kind, which))
            if group is None:
                continue
            marks = [element for element in _shown(group) if element.tag in ("{%s}use" % SVG, "{%s}path" % SVG)]
            indices = numpy.flatnonzero(chosen).tolist()
            if len(marks) != len(indices):
                raise RuntimeError("matplotlib drew %d marks of %d readings" % (len(marks), len(indices)))
            for element, i in zip(marks, indices):
                element.set("id", "%s-%s" % (kind, view.names[i]))
                ElementTree.SubElement(element, "{%s}title" % SVG).text = view.tips[i]
                named.add("%s-%s" % (kind, view.names[i]))
    named.update("name-%s" % name for name in view.names)
    if prefix:
        _prefix(root, prefix, named)
    for element in root.iter():
        for key in ("d", "x", "y", "transform"):
            value = element.get(key)
            if value is not None:
                element.set(key, _PLACES.sub(lambda found: "%g" % round(float(found.group()), 2), value))
    return ElementTree.tostring(root, encoding="unicode") + "\n"


def _shown(element: Any) -> Iterator[Any]:
    for child in element:
        if child.tag != "{%s}defs" % SVG:
            yield child
            yield from _shown(child)


def _prefix(root: Any, prefix: str, keep: Any) -> None:
    own: Dict[str, str] = {}
    for element in root.iter():
        name = element.get("id")
        if name is not None and name not in keep:
            own[name] = prefix + name
            element.set("id", own[name])
    for element in root.iter():
        for key, value in list(element.attrib.items()):
            if key == "{%s}href" % XLINK and value[:1] == "#":
                element.set(key, "#" + own.get(value[1:], value[1:]))
            elif value.startswith("url(#") and value.endswith(")"):
                element.set(key, "url(#%s)" % own.get(value[5:-1], value[5:-1]))
