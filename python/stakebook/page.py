"""A season as one HTML file for colleagues: summary, pictures, tables and the history of calls.

The file needs nothing else: no script, no other file, no network. It reads on a phone and prints on A4. Every number on it is the library's or the
observer's own; where the library refuses a report the page says so in words and shows the readings all the same.
"""

import html
import math
import os
import re
from typing import Any, Iterable, List, Optional, Sequence, Tuple

from . import Refused, pictures
from .pictures import SurfaceView, View, band_of, capital, count_of, in_short, look, refusal_words, title_of, written
from .results import stakes

LONG = 25  # rows from which on a table may run over several printed pages


class Html(str):
    """Text that is HTML already. All other text is escaped by `element`, so that none can be forgotten."""


def element(name: str, *content: Any, **attributes: Any) -> Html:
    """An element with its content; an underscore ends the names that Python keeps to itself, as class_."""
    given = [(key.rstrip("_").replace("_", "-"), value) for key, value in attributes.items() if value is not None]
    return Html("<%s%s>%s</%s>" % (name, "".join(' %s="%s"' % (key, _escaped(str(value))) for key, value in given), join(content), name))


def join(content: Iterable[Any], between: str = "") -> Html:
    return Html(between.join(part if isinstance(part, Html) else _escaped(str(part)) for part in content))


def _escaped(text: str) -> str:
    """As HTML; what no page can hold, a control character say, becomes the sign for what can't be shown."""
    if not text.isprintable():
        text = "".join(character if character.isprintable() or character in "\n\t" else "\ufffd" for character in text)
    return html.escape(text)


def write(season: Any, path: Any, title: Optional[str] = None) -> None:
    """Writes the page. A write that fails leaves what was there."""
    pictures.replace(os.fspath(path), render(season, title).encode("utf-8"))


def render(season: Any, title: Optional[str] = None) -> str:
    """The page as text. Of a glacier it has a small picture of each stake."""
    if season.glacier:
        return _glacier(season, title)
    view = look(season, title)
    curve, scores = pictures.inline(view)
    surface = isinstance(view, SurfaceView)  # of which there are no scores
    two = _curve(view, curve) if surface else element("div", _curve(view, curve), _scores(view, scores), class_="two")
    return _whole(season, view.title, in_short(view), _summary(season, view), two, _readings(season, view), _history(season))


def _whole(season: Any, title: str, short: str, *sections: Html, css: str = "") -> str:
    made = "Made by stake page from %s. Every number is the proved library's answer or the observer's own." % os.path.basename(season.path)
    parts = [
        element("header", element("h1", title), element("p", short + ".", class_="short")),
        element("main", *sections),
        element("footer", element("p", made)),
    ]
    head = [
        Html('<meta charset="utf-8">'),
        Html('<meta name="viewport" content="width=device-width, initial-scale=1">'),
        # nothing may be loaded and nothing may run, whatever a note says
        Html("<meta http-equiv=\"Content-Security-Policy\" content=\"default-src 'none'; style-src 'unsafe-inline'\">"),
        element("title", "%s: %s" % (title, short)),
        Html("<style>%s</style>" % (CSS + css)),
    ]
    return "<!DOCTYPE html>\n<html lang=\"en\">\n<head>\n%s\n</head>\n<body>\n%s\n</body>\n</html>\n" % (join(head, "\n"), join(parts, "\n"))


def _glacier(season: Any, title: Optional[str]) -> str:
    """Each stake that has readings: a small picture, and its report or refusal in words."""
    reports = season.reports()
    shown, rows = [], []
    empty = [stake for stake, each in enumerate(reports.reports) if isinstance(each, Refused) and each.number == 7]
    for stake, report in enumerate(reports.reports):
        if stake in empty:
            continue
        view = look(season.stake(stake))
        name = "stake-%d" % stake
        words: Any = in_short(view)
        cells: List[Cell] = [(stake, ""), (len(view.names), "number")]
        if isinstance(report, Refused):
            words = join([words, ". ", element("strong", capital(refusal_words(report)))])
            cells += [("none", ""), ("", "number"), ("", "")]
        else:
            pruned = [term for term, mark in zip(report.terms, report.pruned) if mark]
            cells += [("degree %d" % report.degree, ""), (len(report.outside), "number"), (", ".join(pruned) or "none", "")]
        told = "Picture of %s by %s at stake %d: %s." % (view.y_name, view.x_name, stake, in_short(view))
        picture = _named(pictures.small(view, name + "-"), "picture-" + name, told)
        caption = element("figcaption", words, ".", class_="refused" if isinstance(report, Refused) else None)
        shown.append(element("figure", element("h3", "Stake %d" % stake), picture, caption, id=name))
        rows.append(cells)
    said = ["%s in force." % _are(season.book.count, "reading")]
    if empty:
        said.append("%s: no readings." % capital(stakes(empty)))
    parts = [element("p", " ".join(said))]
    if shown:
        legend = "Dots are readings, orange diamonds those outside the band; the line is the curve, and about it is its band (%s), which says where the"
        parts.append(element("p", (legend + " curve itself lies, not where single readings do.") % band_of(season.settings), class_="quiet"))
    parts.append(element("p", "Settings, of all stakes: %s. A stake's own page is made by stake page --stake." % season.settings.summary(), class_="quiet"))
    if season.left_out:
        notes = element("ul", *[element("li", words) for words in season.left_out], aria_label="Warnings")
        parts.append(element("div", element("h3", "Warnings"), notes, class_="warnings"))
    sections = [_section("summary", "Summary", *parts)]
    if shown:
        table = _table("reports", ["stake", "readings", "curve", "outside", "pruned"], rows)
        sections += [_section("stakes", "Stakes", element("div", *shown, class_="stakes")), _section("reports", "Reports", table)]
    short = "%s, %d of %d stakes with a report" % (count_of(season.book.count, "reading"), reports.answered, len(reports.reports))
    title = pictures.plain(title if title is not None else title_of(season), 60)
    return _whole(season, title, short, *sections, _history(season), css=STAKES)


def _section(name: str, heading: str, *content: Any) -> Html:
    inner = [element("h2", heading, id=name + "-heading"), "\n", *content]
    return join(["\n", element("section", *inner, id=name, aria_labelledby=name + "-heading")])


# ---- summary


def _summary(season: Any, view: View) -> Html:
    withdrawn = sum(reading.index is None for reading in season.readings)
    said = ["%s in force%s." % (_are(len(view.names), "reading"), ", {:,} withdrawn".format(withdrawn) if withdrawn else "")]
    paragraphs: List[Html] = []
    if view.report is None:
        if view.names and view.refused is not None:
            why = element("strong", capital(refusal_words(view.refused)) + ".")
            paragraphs.append(element("p", "There is no report. ", why, class_="refused"))
    else:
        said.extend(_report_sentences(view))
    paragraphs.insert(0, element("p", " ".join(said)))
    if view.report is not None:
        paragraphs.append(element("p", "The %s, with rounded numbers: " % view.report.shape, element("span", _formula(view), class_="formula")))
    paragraphs.append(element("p", "Settings: %s." % view.settings.summary(), class_="quiet"))
    warned = list(season.left_out)
    if view.report is not None:  # without one a season would ask for it again, and be refused
        warned += season.warnings(report=view.report, scores=view.scores)
    if warned:
        notes = element("ul", *[element("li", words) for words in warned], aria_label="Warnings")
        paragraphs.append(element("div", element("h3", "Read this first" if view.report is not None else "Warnings"), notes, class_="warnings"))
    return _section("summary", "Summary", *paragraphs)


def _are(number: int, one: str) -> str:
    return "%s %s" % (count_of(number, one), "is" if number == 1 else "are")


def _report_sentences(view: View) -> List[str]:
    report, settings = view.report, view.settings
    words = []
    if view.scores is not None:
        words.append(
            "%s chose degree %d among degrees 0 to %d: the lowest one whose score is at most 2 above the least."
            % (settings.criterion.upper(), report.degree, view.scores.bound)
        )
    else:
        words.append("%s chose degree %d." % (settings.criterion.upper(), report.degree))
    left = count_of(report.df, "degree of freedom", "degrees of freedom")
    words.append("The %s has %s, which leaves %s." % (report.shape, count_of(len(report.coefficients), "coefficient"), left))
    pruned = [name if i else "the constant" for i, (name, mark) in enumerate(zip(report.terms, report.pruned)) if mark]
    if pruned:
        words.append("Student's t says that the %s could do without %s." % (report.shape, _and(pruned)))
    words.append("The band (%s) says where the %s itself lies, not where single readings do." % (band_of(settings), report.shape))
    names = [name for name, outside in zip(view.names, view.outside) if outside]
    if not names:
        words.append("No reading lies outside it.")
    else:
        listed = names if len(names) <= 30 else names[:30] + ["{:,} more, marked in the table".format(len(names) - 30)]
        words.append("Outside it %s %s: %s." % ("lies" if len(names) == 1 else "lie", count_of(len(names), "reading"), _and(listed)))
    return words


def _and(words: Sequence[str]) -> str:
    return words[0] if len(words) == 1 else "%s and %s" % (", ".join(words[:-1]), words[-1])


def _term(view: View, i: int) -> Html:
    if isinstance(view, SurfaceView):
        return Html(re.sub(r"([xz])", r"<var>\1</var>", view.report.terms[i]))
    return Html("1" if i == 0 else "<var>x</var>" if i == 1 else "<var>x</var><sup>%d</sup>" % i)


def _formula(view: View) -> Html:
    parts: List[Any] = [Html("<var>y</var> = ")]
    for i, coefficient in enumerate(view.report.coefficients):
        sign = "\u2212" if coefficient < 0 else "+" if i else ""
        parts.append(" " if i else "")
        parts.append(element("span", sign, " " if i else "", number(abs(coefficient), 5), " " if i else "", _term(view, i) if i else "", class_="term"))
    letters = [("x", view.x_name)] + ([("z", view.z_name)] if isinstance(view, SurfaceView) else []) + [("y", view.y_name)]
    named = [join([element("var", letter), " is ", name]) for letter, name in letters if name != letter]
    parts.append(join([", where " if named else "", join(named, " and "), "."]))
    return join(parts)


def number(value: float, digits: int = 6) -> str:
    """Rounded for reading, with a true minus."""
    if math.isnan(value):
        return "none"
    if math.isinf(value):
        return "\u221e" if value > 0 else "\u2212\u221e"
    return ("%.*g" % (digits, value)).replace("-", "\u2212")


# ---- pictures


def _figure(svg: str, name: str, told: str, caption: str) -> Html:
    return element("figure", _named(svg, name, told), element("figcaption", caption))


def _named(svg: str, name: str, told: str) -> Html:
    """An SVG as a picture with words for who can't see it; its size is the page's."""
    start, rest = svg.split(">", 1)
    kept = [part for part in start.split('" ') if not part.split("=")[0].strip() in ("width", "height")]
    return Html('%s" role="img" id="%s" aria-label="%s">%s' % ('" '.join(kept).rstrip('"'), name, _escaped(told), rest.rstrip("\n")))


# ---- tables

Cell = Tuple[Any, str]  # what stands in it and its class


def _table(heading: str, columns: Sequence[str], rows: Sequence[Sequence[Cell]], kinds: Optional[Sequence[str]] = None) -> Html:
    """A table whose first column heads its rows. On a phone a row becomes lines, each number with its column's name; the roles keep it a table."""
    number_like = ["number" if any("number" in row[j][1].split() for row in rows) else None for j in range(len(columns))]
    head = [element("th", _heading(column), scope="col", role="columnheader", class_=number_like[j]) for j, column in enumerate(columns)]
    body = []
    for i, row in enumerate(rows):
        cells = [element("th", row[0][0], scope="row", role="rowheader", class_=row[0][1] or None)]
        cells += [element("td", content, role="cell", class_=kind or None, data_label=columns[j]) for j, (content, kind) in enumerate(row) if j]
        body.append(element("tr", *cells, role="row", class_=(kinds[i] or None) if kinds else None))
    return element(
        "table",
        element("thead", element("tr", *head, role="row"), role="rowgroup"),
        "\n",
        element("tbody", join(body, "\n"), role="rowgroup"),
        aria_labelledby=heading + "-heading",
        role="table",
        class_=_room(columns, rows) + (" long" if len(rows) >= LONG else ""),
    )


def _room(columns: Sequence[str], rows: Sequence[Sequence[Cell]]) -> str:
    """How much room a table needs, roughly: a small one fits any window but a phone's, a middle one A4 and a desk's; a broad one is always lines."""
    total = 0.0
    for j, column in enumerate(columns):
        need = max([len(word) for word in re.split(r" (?![^()]*\)$)", column)])
        for row in rows:
            content, kind = row[j]
            text = re.sub("<[^>]*>", "", content) if isinstance(content, Html) else str(content)
            kinds = kind.split()
            if "text" in kinds:
                need = max(need, 14 if "source" in kinds else 13)  # it is broken anywhere, and has this much by the style
            elif j == 0 or "number" in kinds or "whole" in kinds:
                need = max(need, len(text))
            else:
                need = max([need, 14 if "said" in kinds else 0] + [len(word) for word in text.split()])
        total += 1 + 0.6 * need  # in units of the letters' size, with the gap
    return "small" if total < 44 else "middle" if total < 62 else "broad"


def _heading(column: str) -> Html:
    """A column's name; a unit in brackets at its end stays in one line."""
    before, bracket, unit = column.rpartition(" (")
    if not bracket or not unit.endswith(")") or len(unit) > 15:
        return join([column])
    return join([before, " ", element("span", bracket.strip() + unit, class_="unit")])


def _curve(view: View, svg: str) -> Html:
    by = "%s and %s" % (view.x_name, view.z_name) if isinstance(view, SurfaceView) else view.x_name
    told = "Picture of %s by %s. " % (view.y_name, by)
    caption = "%s by %s." % (capital(view.y_name), by)
    shape = "surface" if isinstance(view, SurfaceView) else "curve"
    if view.report is None:
        return _section("curve", "Readings, no %s" % shape, _figure(svg, "picture-curve", told + "No %s." % shape, caption))
    report = view.report
    below = "the width of the band" if shape == "surface" else "the residuals"
    told += "A %s of degree %d and its band; below it %s; " % (shape, report.degree, below)
    told += "%d of %s outside the band." % (int(view.outside.sum()), count_of(len(view.names), "reading"))
    caption += " Below, how wide the band is." if shape == "surface" else " Below, how far each reading lies from the curve."
    rows = []
    for i in range(len(report.coefficients)):
        rows.append(
            [
                (_term(view, i), ""),
                (number(report.coefficients[i]), "number"),
                (number(report.errors[i]), "number"),
                (number(report.t[i], 4), "number"),
                ("pruned" if report.pruned[i] else "kept", "mark" if report.pruned[i] else ""),
            ]
        )
    table = _table("curve", ["term", "coefficient", "error", "t", "term is"], rows)
    words = "t is the size of a coefficient over its error. Numbers are rounded here; stake export has them whole."
    return _section("curve", capital(shape), _figure(svg, "picture-curve", told, caption), table, element("p", words, class_="quiet"))


def _scores(view: View, svg: str) -> Html:
    told = "Picture of the score of each degree. "
    if view.unscored is not None:
        return _section("scores", "Scores", element("p", "There are no scores. %s." % capital(refusal_words(view.unscored))))
    told += "Scores of degrees 0 to %d; degree %d is chosen." % (view.scores.bound, view.scores.degree)
    caption = "The lower, the better; the lowest degree up to the dashed line is chosen."
    rows, kinds = [], []
    for row in view.scores.degrees:
        kinds.append("chosen" if row.degree == view.scores.degree else "")
        score, above = (number(row.score, 7), number(row.score - view.scores.least, 4)) if row.solved else ("unsolved", "")
        verdict = kinds[-1] or ("within 2" if row.degree in view.scores.within else "")
        rows.append([(row.degree, ""), (score, "number"), (above, "number"), (verdict, "mark bare" if kinds[-1] else "bare")])
    table = _table("scores", ["degree", view.settings.criterion.upper(), "above the least", ""], rows, kinds)
    return _section("scores", "Scores", _figure(svg, "picture-scores", told, caption), table)


def _readings(season: Any, view: View) -> Html:
    if not season.readings:
        return _section("readings", "Readings", element("p", "There are none."))
    weighted = any(reading.weight != 1 for reading in season.readings)
    called = any(reading.called for reading in season.readings)
    depth = [view.x_name, view.z_name] if isinstance(view, SurfaceView) else [view.x_name]
    columns = ["name"] + ["called"] * called + depth + [view.y_name] + ["weight"] * weighted
    columns += ["band"] * (view.report is not None)
    noted = any(reading.note for reading in season.readings)
    sourced = any(reading.source for reading in season.readings)
    columns += ["mark"] + ["note"] * noted + ["source"] * sourced
    rows, kinds = [], []
    for reading in season.readings:
        i = reading.index
        row: List[Cell] = [(reading.name, "")]
        if called:
            row.append((reading.called or "", "bare"))
        row.append((written(reading.x_text, reading.x), "number"))
        if isinstance(view, SurfaceView):
            row.append((written(reading.z_text, reading.z), "number"))
        row.append((written(reading.y_text, reading.y), "number"))
        if weighted:
            row.append((written(reading.weight_text, reading.weight), "number"))
        if view.report is not None:
            row.append(("%s to %s" % (number(view.report.lower[i], 5), number(view.report.upper[i], 5)) if i is not None else "", "number"))
        marks = ["withdrawn"] if i is None else [_side(view, i)] if view.outside[i] else []
        if reading.was:
            marks.append("corrected, was %s" % ", ".join(reading.was))
        row.append(("; ".join(marks), "mark said"))
        if noted:
            row.append((reading.note or "", "text"))
        if sourced:
            row.append((reading.source or "", "text source bare"))
        rows.append(row)
        kinds.append("withdrawn" if i is None else "outside" if view.outside[i] else "")
    return _section("readings", "Readings", _table("readings", columns, rows, kinds))


def _side(view: View, i: int) -> str:
    y, lower, upper = view.book_ys[i], view.report.lower[i], view.report.upper[i]
    return "above the band" if y > upper else "below the band" if y < lower else "outside the band"


def _history(season: Any) -> Html:
    rows, kinds = [], []
    timed = any(call.time for call in season.history)
    for call in season.history:
        row: List[Cell] = [(call.line, "")]
        if timed:
            row.append(((call.time or "").replace("T", " ").replace("Z", " UTC"), "whole bare"))
        text = join([element("s", call.text), " (undone)"]) if call.undone else call.text
        row += [(text, "text bare"), (call.note or "", "text"), (call.source or "", "text source bare")]
        rows.append(row)
        kinds.append("undone" if call.undone else "")
    table = _table("history", ["line"] + ["time"] * timed + ["call", "note", "source"], rows, kinds)
    return _section("history", "History of calls", table)


CSS = """
*, *::before { box-sizing: border-box; }
html { color-scheme: light; background: #fff; }
body { max-width: 70rem; margin: 0 auto; padding: 1rem; color: #1a1a1a; font: 1rem/1.5 system-ui, "DejaVu Sans", sans-serif; overflow-wrap: anywhere; }
h1 { font-size: 1.6rem; line-height: 1.2; margin: 0.5rem 0 0; }
h2 { font-size: 1.2rem; margin: 2rem 0 0.75rem; border-bottom: 1px solid #ccc; }
h3 { font-size: 1rem; margin: 0 0 0.25rem; }
p { margin: 0.5rem 0; max-width: 46rem; }
.short { font-size: 1.1rem; margin-top: 0.2rem; }
.quiet, footer, figcaption { color: #555; font-size: 0.875rem; }
.refused strong, .outside .mark { color: #a34700; }
.warnings { border-left: 4px solid #e69f00; padding: 0.5rem 0.75rem; margin: 1rem 0; background: #fff8e6; max-width: 46rem; }
.warnings ul { margin: 0; padding-left: 1.2rem; }
.term, .unit { white-space: nowrap; }
var { font-style: italic; }
sup { line-height: 0; }
figure { margin: 0 0 1rem; max-width: 34rem; }
figure svg { display: block; width: 100%; height: auto; }
table { border-collapse: collapse; margin: 0.5rem 0; font-size: 0.9375rem; }
th, td { text-align: left; vertical-align: top; padding: 0.2rem 0.5rem; border-bottom: 1px solid #ddd; overflow-wrap: normal; }
thead { display: table-header-group; }
thead th { border-bottom: 2px solid #767676; font-weight: 600; }
tbody th, .mark { font-weight: 600; }
tbody th { white-space: nowrap; }
td.said { min-width: 8.5em; }
.number { text-align: right; font-variant-numeric: tabular-nums; }
td.number, .whole { white-space: nowrap; }
td.text { overflow-wrap: anywhere; min-width: 8em; }
td.source { color: #555; min-width: 9em; font-size: 0.93em; }
.chosen { background: #eaf4fb; }
.outside { background: #fdf0e7; }
.withdrawn, .undone { color: #595959; }
.withdrawn .number { text-decoration: line-through; }
footer { margin-top: 2rem; border-top: 1px solid #ccc; }
@media (min-width: 64rem) {
  .two { display: grid; grid-template-columns: 1fr 1fr; gap: 0 2.5rem; align-items: start; }
}
@media (max-width: 44rem) {
  body { padding: 0.75rem; }
}
LINES
@page { size: A4; margin: 15mm; }
@media print {
  html { font-size: 10pt; }
  body { max-width: none; padding: 0; }
  h2, h3 { break-after: avoid; }
  p, figure, .warnings, tr { break-inside: avoid; }
  table:not(.long) { break-inside: avoid; }
  figure { max-width: 26rem; }
  table { font-size: 8.5pt; }
  th, td { padding: 0.2rem 0.4rem; }
  .chosen, .outside, .warnings { print-color-adjust: exact; -webkit-print-color-adjust: exact; }
}
"""

# small pictures beside each other, as many as there is room for
STAKES = """
.stakes { display: grid; grid-template-columns: repeat(auto-fill, minmax(min(17rem, 100%), 1fr)); gap: 0.5rem 1.5rem; align-items: start; }
"""

# a table's rows as lines, each number with its column's name
LINES = """
  table.NAME, .NAME tbody { display: block; }
  .NAME thead { position: absolute; width: 1px; height: 1px; overflow: hidden; clip-path: inset(50%); }
  .NAME tr { display: flex; flex-wrap: wrap; gap: 0 0.9rem; padding: 0.3rem 0.25rem; border-bottom: 1px solid #ddd; }
  .NAME tbody th, .NAME td { display: block; border: 0; padding: 0; min-width: 0; text-align: left; white-space: normal; overflow-wrap: anywhere; }
  .NAME tbody th { min-width: 2rem; }
  .NAME td:empty { display: none; }
  .NAME td::before { content: attr(data-label) " "; color: #555; font-weight: 400; font-size: 0.8125rem; }
  .NAME td.bare::before { content: none; }
"""
CSS = CSS.replace(
    "LINES",
    "\n".join(
        "@media %s {%s}" % (width, LINES.replace("NAME", name))
        for name, width in (("small", "(max-width: 44rem)"), ("middle", "screen and (max-width: 68rem)"), ("broad", "all"))
    ),
)
