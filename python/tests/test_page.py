"""The page, opened in headless Chromium: at the widths of a phone and of a desk, and printed. What is looked for is what a reader would miss."""

import html.parser
import io
import os
import re
import stat
import subprocess
import sys
import tempfile
import unittest
from types import SimpleNamespace
from unittest import mock

HERE = os.path.dirname(os.path.abspath(__file__))
ROOT = os.path.dirname(os.path.dirname(HERE))
sys.path[:0] = [HERE, os.path.dirname(HERE)]

import matplotlib.image
import numpy

from browser import Browser
from shown import Shown, ShownSurface, raising, reading
from stakebook import DegreeScore, Refused, Scores, Settings, page, _library
from stakebook.season import NewRow, SeasonFile

WIDTHS = (360, 1280)
BAD_NOTE = "<script>document.title='run'</script> & \"quoted\" <b>bold</b>"

# Complaints about the page as it is shown: what is wider than the window, what is cut, too small or too pale, what covers what.
COMPLAINTS = """
(() => {
  const said = [];
  const wide = document.documentElement.clientWidth;
  if (document.documentElement.scrollWidth > wide) said.push('the page is ' + document.documentElement.scrollWidth + ' wide');
  const numbers = (colour) => colour.match(/[0-9.]+/g).map(Number);
  const bright = (colour) => {
    const [r, g, b] = numbers(colour).map((c) => { c /= 255; return c <= 0.03928 ? c / 12.92 : ((c + 0.055) / 1.055) ** 2.4; });
    return 0.2126 * r + 0.7152 * g + 0.0722 * b;
  };
  const behind = (element) => {
    for (let e = element; e; e = e.parentElement) {
      const parts = numbers(getComputedStyle(e).backgroundColor);
      if (parts.length === 3 || parts[3] > 0) return getComputedStyle(e).backgroundColor;
    }
    return 'rgb(255, 255, 255)';
  };
  const walker = document.createTreeWalker(document.body, NodeFilter.SHOW_TEXT);
  while (walker.nextNode()) {
    const node = walker.currentNode, owner = node.parentElement, text = node.data.trim().slice(0, 40);
    const head = owner.closest('thead');
    if (!text || owner.tagName === 'title' || (head && getComputedStyle(head).position === 'absolute')) continue;
    const range = document.createRange();
    range.selectNodeContents(node);
    const boxes = [...range.getClientRects()].filter((box) => box.width > 0);
    if (!boxes.length) said.push('not shown: ' + text);
    const svg = owner.closest('svg'), style = getComputedStyle(owner);
    const frame = svg ? svg.getBoundingClientRect() : {left: 0, right: wide, top: -1e9, bottom: 1e9};
    for (const box of boxes) {
      if (box.left < frame.left - 0.5 || box.right > frame.right + 0.5 || box.top < frame.top - 0.5 || box.bottom > frame.bottom + 0.5)
        said.push('cut: ' + text);
      for (let e = owner; e && e !== document.body; e = e.parentElement) {
        const around = e.getBoundingClientRect();
        if (getComputedStyle(e).overflow !== 'visible' && e.tagName !== 'svg' && (box.right > around.right + 0.5 || box.bottom > around.bottom + 0.5))
          said.push('hidden: ' + text);
      }
    }
    const size = parseFloat(style.fontSize) * (svg ? frame.width / svg.viewBox.baseVal.width : 1);
    if (size < (svg ? 7.4 : 12)) said.push('small (' + size + '): ' + text);
    const a = bright(svg ? style.fill : style.color), b = bright(behind(owner));
    const contrast = (Math.max(a, b) + 0.05) / (Math.min(a, b) + 0.05);
    if (contrast < 4.5) said.push('pale (' + contrast.toFixed(1) + '): ' + text);
  }
  for (const svg of document.querySelectorAll('svg')) {
    const texts = [...svg.querySelectorAll('text')].map((e) => [e.textContent, e.getBoundingClientRect()]);
    texts.forEach(([text, a], i) => texts.slice(0, i).forEach(([other, b]) => {
      if (Math.min(a.right, b.right) - Math.max(a.left, b.left) > 1 && Math.min(a.bottom, b.bottom) - Math.max(a.top, b.top) > 2.5)
        said.push('one over the other: ' + text + ', ' + other);
    }));
  }
  for (const e of document.querySelectorAll('table, figure, svg, p, li, h1, h2')) {
    const box = e.getBoundingClientRect();
    if (box.left < -0.5 || box.right > wide + 0.5) said.push('wider than the window: ' + e.tagName);
  }
  return said;
})()
"""

ONE_BY_ONE = "(() => { const ids = [...document.querySelectorAll('[id]')].map((e) => e.id); return ids.filter((id, i) => ids.indexOf(id) !== i); })()"


def scored(settings, chosen, scores):
    degrees = [DegreeScore(degree, score is not None, score) for degree, score in enumerate(scores)]
    known = [score for score in scores if score is not None]
    return Scores(settings, 0, chosen, len(scores) - 1, min(known), len(known), degrees, 1)


def call(line, text, **more):
    fields = dict(call=text.split()[0], time="2024-04-17T10:02:03Z", note=None, source=None, undone=False, name=None)
    fields.update(more)
    return SimpleNamespace(line=line, text=text, **fields)


def rich():
    """A season with something of everything: weights, marks, a correction, a withdrawal, an undone call, long words, and notes that try to be HTML."""
    xs = [i / 10 for i in range(1, 31)]
    ys = [round(100 + 90 * x - 12 * x * x) + (35 if i in (7, 22) else -35 if i == 14 else 2 if i % 2 else -2) for i, x in enumerate(xs)]
    settings = Settings(bound=6, tolerance=("absolute", 12))
    season = Shown(xs, ys, [1.0, 1.0, 2.0] * 10, settings, scores=lambda: scored(settings, 2, [140.0, 90.5, 60.25, 61.5, 64.0, None, None]))
    season.x_name, season.y_name, season.weight_name = "depth (m)", "density (kg m-3)", "people"
    for i, each in enumerate(season.readings):
        each.called, each.source = "P1-%02d" % (i + 1), "field/pit.csv:%d" % (i + 2)
    season.readings[4].note = BAD_NOTE
    season.readings[5].note = "unbroken" * 30
    season.readings[6].was = ("912", "192")
    season.readings.append(reading("r31", 3.2, 999.0, 1.0, None))
    season.history += [
        call(3, "import of 30 readings (r1 to r30) from field/pit.csv", source="field/pit.csv"),
        call(34, "correct r7: y 163, was 192", note=BAD_NOTE),
        call(35, "add r31: x 3.2, y 999"),
        call(36, "withdraw r31", note="typed twice"),
        call(37, "withdraw r1", undone=True),
    ]
    season.left_out = ["line 38 left out: it is cut off"]
    season.said = ["A reading outside the band is not a bad reading <i>."]
    return season


def words_of(text):
    return re.findall(r"[\w.<>&%-]+", text.replace("\u2212", "-"))


def setUpModule():
    """One browser for all: it takes a second to start."""
    Shows.browser = Browser()
    Shows.browser.__enter__()
    unittest.addModuleCleanup(Shows.browser.__exit__)


class Shows(unittest.TestCase):
    """One page, looked at by all tests of the class."""

    browser = None

    @classmethod
    def setUpClass(cls):
        cls.folder = tempfile.TemporaryDirectory()
        cls.addClassCleanup(cls.folder.cleanup)
        cls.made = rich()
        cls.path = os.path.join(cls.folder.name, "page.html")
        page.write(cls.made, cls.path)
        with open(cls.path, encoding="utf-8") as file:
            cls.text = file.read()


class OnScreen(Shows):
    def test_nothing_is_cut_or_small_or_pale_at_either_width(self):
        for width in WIDTHS:
            with self.subTest(width):
                self.browser.show(self.path, width)
                self.assertEqual(self.browser.ask(COMPLAINTS), [])

    def test_nothing_is_cut_between_these_widths_and_on_the_smallest_phone(self):
        for width in (320, 500, 703, 705, 800, 1023, 1025):
            with self.subTest(width):
                self.browser.show(self.path, width)
                self.assertEqual(self.browser.ask(COMPLAINTS), [])

    def test_screenshots_have_a_blank_border_and_something_between(self):
        for width in WIDTHS:
            with self.subTest(width):
                self.browser.show(self.path, width)
                shot = matplotlib.image.imread(io.BytesIO(self.browser.screenshot()))[..., :3]
                self.assertEqual(shot.shape[1], width)
                self.assertGreater(shot.shape[0], 1500)
                self.assertTrue((shot[:, -4:] == 1).all(), "something reaches the right border")
                self.assertTrue((shot[:, :4] == 1).all(), "something reaches the left border")
                self.assertGreater(float((shot < 0.5).any(axis=2).mean()), 0.005)

    def test_the_file_asks_for_nothing_and_runs_nothing(self):
        self.browser.show(self.path, 360)
        self.assertEqual(self.browser.requested, ["file://" + self.path])
        self.assertEqual(self.browser.ask("document.scripts.length"), 0)
        self.assertEqual(self.browser.ask("document.querySelectorAll('link, img, iframe, object, embed, audio, video, b, i').length"), 0)
        handlers = "[...document.querySelectorAll('*')].flatMap((e) => [...e.attributes]).filter((a) => a.name.startsWith('on')).length"
        self.assertEqual(self.browser.ask(handlers), 0)
        self.assertEqual(self.browser.ask("document.title"), "shown: 30 readings, degree 2 by BIC, 3 outside the band")

    def test_notes_stand_as_they_were_written(self):
        self.browser.show(self.path, 1280)
        shown = self.browser.ask("document.body.innerText")
        self.assertEqual(shown.count(BAD_NOTE), 2)
        self.assertIn("not a bad reading <i>.", shown)
        self.assertNotIn(BAD_NOTE, self.text)

    def test_summary_in_sentences(self):
        self.browser.show(self.path, 360)
        shown = self.browser.ask("document.getElementById('summary').innerText")
        for words in (
            "30 readings are in force, 1 withdrawn.",
            "BIC chose degree 2 among degrees 0 to 6: the lowest one whose score is at most 2 above the least.",
            "The curve has 3 coefficients, which leaves 27 degrees of freedom.",
            "The band (P95, \u00b1 12) says where the curve itself lies, not where single readings do.",
            "Outside it lie 3 readings: r8, r15 and r23.",
            "x2, where x is depth (m) and y is density (kg m-3).",
            "Settings: degrees up to 6, BIC, P95, tolerance absolute 12, terms pruned by size.",
            "line 38 left out: it is cut off",
        ):
            self.assertIn(words, shown)

    def test_every_reading_has_its_mark_and_its_row(self):
        for width in WIDTHS:
            self.browser.show(self.path, width)
            marks = self.browser.ask(
                "[...document.querySelectorAll('#picture-curve [id^=mark-r], #picture-curve [id^=residual-r]')].map((e) => "
                "[e.id, e.getBoundingClientRect().width > 1, e.querySelector('title').textContent])"
            )
            self.assertEqual(len(marks), 60)
            self.assertTrue(all(visible for _, visible, _ in marks))
            self.assertEqual(sorted(name for name, _, _ in marks), sorted(kind + "-r%d" % i for kind in ("mark", "residual") for i in range(1, 31)))
            self.assertIn(["mark-r8", True, "r8 (P1-08): depth (m) 0.8, density (kg m-3) %r" % self.made.readings[7].y], marks)
            rows = self.browser.ask("[...document.querySelectorAll('#readings tbody tr')].map((row) => [...row.cells].map((cell) => cell.textContent))")
            self.assertEqual([row[0] for row in rows], ["r%d" % i for i in range(1, 32)])
            self.assertEqual([row[0] for row in rows if "band" in row[6]], ["r8", "r15", "r23"])
            self.assertEqual(rows[7][6], "above the band")
            self.assertEqual(rows[14][6], "below the band")
            self.assertEqual(rows[6][6], "corrected, was 912, 192")
            self.assertEqual(rows[30][6], "withdrawn")

    def test_names_in_the_picture_are_those_outside(self):
        self.browser.show(self.path, 360)
        names = self.browser.ask("[...document.querySelectorAll('#picture-curve [id^=name-r]')].map((e) => e.textContent.trim())")
        self.assertEqual(sorted(names), ["r15", "r23", "r8"])

    def test_scores_and_coefficients(self):
        self.browser.show(self.path, 1280)
        scores = self.browser.ask("[...document.querySelectorAll('#scores tbody tr')].map((row) => [...row.cells].map((cell) => cell.textContent))")
        self.assertEqual(scores[2], ["2", "60.25", "0", "chosen"])
        self.assertEqual(scores[3], ["3", "61.5", "1.25", "within 2"])
        self.assertEqual(scores[4], ["4", "64", "3.75", ""])
        self.assertEqual(scores[6], ["6", "unsolved", "", ""])
        terms = self.browser.ask("[...document.querySelectorAll('#curve tbody tr')].map((row) => [...row.cells].map((cell) => cell.textContent))")
        fitted = numpy.polyfit(self.made.book.xs, self.made.book.ys, 2, w=numpy.sqrt(self.made.book.ws))
        self.assertEqual([row[0] for row in terms], ["1", "x", "x2"])
        for row, expected in zip(terms, fitted[::-1]):
            self.assertAlmostEqual(float(row[1].replace("\u2212", "-")), expected, delta=1e-5 * abs(expected))

    def test_history_with_what_was_undone(self):
        self.browser.show(self.path, 360)
        rows = self.browser.ask("[...document.querySelectorAll('#history tbody tr')].map((row) => [...row.cells].map((cell) => cell.textContent))")
        self.assertEqual(len(rows), 6)
        self.assertEqual(rows[1], ["3", "2024-04-17 10:02:03 UTC", "import of 30 readings (r1 to r30) from field/pit.csv", "", "field/pit.csv"])
        self.assertEqual(rows[2][3], BAD_NOTE)
        self.assertEqual(rows[5][2], "withdraw r1 (undone)")
        self.assertEqual(self.browser.ask("document.querySelectorAll('#history s').length"), 1)

    def test_for_who_can_not_see_it(self):
        self.browser.show(self.path, 360)
        self.assertEqual(self.browser.ask(ONE_BY_ONE), [])
        self.assertEqual(self.browser.ask("document.documentElement.lang"), "en")
        self.assertEqual(self.browser.ask("[...document.querySelectorAll('svg')].map((e) => e.getAttribute('role'))"), ["img", "img"])
        told = self.browser.ask("[...document.querySelectorAll('svg')].map((e) => e.getAttribute('aria-label'))")
        self.assertEqual(
            told[0],
            "Picture of density (kg m-3) by depth (m). A curve of degree 2 and its band; below it the residuals; 3 of 30 readings outside the band.",
        )
        self.assertEqual(told[1], "Picture of the score of each degree. Scores of degrees 0 to 6; degree 2 is chosen.")
        self.assertEqual(self.browser.ask("[...document.querySelectorAll('h1, h2, h3')].map((e) => e.tagName)"), ["H1", "H2", "H3", "H2", "H2", "H2", "H2"])
        # the browser's own tree for readers aloud: on a phone, where rows are laid out as lines, they are rows still
        tree = self.browser.call("Accessibility.getFullAXTree")["nodes"]
        roles = [node["role"]["value"] for node in tree if not node.get("ignored")]
        self.assertEqual(roles.count("table"), 4)
        self.assertEqual(roles.count("rowheader"), 3 + 7 + 31 + 6)
        tables = [node["name"]["value"] for node in tree if node["role"]["value"] == "table"]
        self.assertEqual(tables, ["Curve", "Scores", "Readings", "History of calls"])

    def test_the_same_season_gives_the_same_page(self):
        self.assertEqual(page.render(rich()), page.render(rich()))

    def test_tags_are_closed(self):
        problems = Nesting(self.text).problems
        self.assertEqual(problems, [])
        self.assertEqual(Nesting("<p><b></p>").problems, ["</p> closes b"])


class OnPaper(Shows):
    @classmethod
    def setUpClass(cls):
        super().setUpClass()
        # a word that must be broken is found in two halves
        cls.made.readings[5].note = "melt crust"
        cls.made.readings[4].note = cls.made.history[2].note = "<i> & words"
        page.write(cls.made, cls.path)
        cls.pdf = os.path.join(cls.folder.name, "page.pdf")
        cls.pages = cls.printed(cls.path, cls.pdf)

    @classmethod
    def printed(cls, path, pdf):
        """A page as it is printed, paper by paper."""
        cls.browser.show(path, 1280)
        with open(pdf, "wb") as file:
            file.write(cls.browser.pdf())
        text = subprocess.run(["pdftotext", "-layout", pdf, "-"], check=True, stdout=subprocess.PIPE).stdout.decode()
        return text.split("\f")[:-1]

    def test_paper(self):
        info = subprocess.run(["pdfinfo", self.pdf], check=True, stdout=subprocess.PIPE).stdout.decode()
        self.assertRegex(info, r"Page size: +59[45][0-9.]* x 84[12]")
        self.assertIn(len(self.pages), (2, 3, 4))

    def test_nothing_is_printed_on_the_margins(self):
        boxes = subprocess.run(["pdftotext", "-bbox", self.pdf, "-"], check=True, stdout=subprocess.PIPE).stdout.decode()
        words = re.findall(r'<word xMin="([0-9.-]+)" yMin="([0-9.-]+)" xMax="([0-9.-]+)" yMax="([0-9.-]+)">(.*)</word>', boxes)
        self.assertGreater(len(words), 500)
        margin = 15 / 25.4 * 72
        for left, top, right, bottom, word in words:
            self.assertGreater(float(left), margin - 1, word)
            self.assertLess(float(right), 595 - margin + 1, word)
            self.assertGreater(float(top), margin - 6, word)
            self.assertLess(float(bottom), 842 - margin + 6, word)

    def test_every_word_is_printed(self):
        self.browser.show(self.path, 1280)
        shown = set(words_of(self.browser.ask("document.body.innerText + ' ' + [...document.querySelectorAll('svg text')].map((e) => e.textContent).join(' ')")))
        printed = set(words_of(" ".join(self.pages)))
        self.assertGreater(len(shown), 150)
        self.assertEqual(sorted(shown - printed), [])

    def test_a_row_is_whole_and_its_columns_are_named_on_each_page(self):
        seen = []
        for number, text in enumerate(self.pages):
            rows = re.findall(r"^ *(r[0-9]+) +(?:P1-[0-9]+ +)?([0-9.]+) +([0-9.]+)", text, re.M)
            seen += [row[0] for row in rows]
            if rows:
                self.assertRegex(text, r"name +called +depth", "page %d" % (number + 1))
        self.assertEqual(seen, ["r%d" % i for i in range(1, 32)])

    def test_short_tables_stand_on_one_page_wherever_they_come(self):
        season, parted = rich(), set()
        for more in range(0, 48, 6):
            season.left_out = ["a line was left out"] * more  # what stands above pushes the tables down
            path = os.path.join(self.folder.name, "lower.html")
            page.write(season, path)
            pages = self.printed(path, os.path.join(self.folder.name, "lower.pdf"))
            for first, last in ((r"term +coefficient", r"(?:kept\s[\s\S]*){3}"), (r"degree +BIC", r"6 +unsolved"), (r"line +time", r"withdraw r1 ")):
                found = [number for number, text in enumerate(pages) if re.search(first, text)]
                self.assertEqual(len(found), 1, first)
                self.assertRegex(pages[found[0]], last)
                parted.add((first, found[0]))
        self.assertGreater(len(parted), 5)  # they did come on different pages


class OtherSeasons(Shows):
    """Pages with less, or with more, than the first one has."""

    def look(self, season):
        path = os.path.join(self.folder.name, "other.html")
        page.write(season, path)
        for width in WIDTHS:
            self.browser.show(path, width)
            self.assertEqual(self.browser.ask(COMPLAINTS), [], width)
            self.assertEqual(self.browser.ask(ONE_BY_ONE), [])
        return self.browser.ask("document.body.innerText")

    def test_a_refusal_in_words(self):
        why = Refused(12)
        shown = self.look(Shown([1.0, 2.0, 4.0], [3.0, 5.0, 4.0], report=raising(why), scores=raising(why)))
        self.assertIn("There is no report. Refusal 12: the covariance can't be worked out.", shown)
        self.assertEqual(self.browser.ask("document.querySelectorAll('#picture-curve [id^=mark-r]').length"), 3)
        self.assertEqual(self.browser.ask("document.querySelectorAll('#readings tbody tr').length"), 3)

    @unittest.skipUnless(_library.library().surface_band, "the library has no surfaces")
    def test_a_surface(self):
        xs, zs = [0.25 * (i // 6) for i in range(36)], [float(i % 6) for i in range(36)]
        season = ShownSurface(xs, zs, [300 + 80 * x - 10 * z + (60 if i == 8 else 0) for i, (x, z) in enumerate(zip(xs, zs))], Settings(bound=1))
        season.x_name, season.z_name, season.y_name = "depth (m)", "elevation", "density (kg m-3)"
        shown = self.look(season)
        for words in ("The surface has 3 coefficients", "z is elevation", "Density (kg m-3) by depth (m) and elevation.", "how wide the band is"):
            self.assertIn(words, shown)
        self.assertNotIn("Scores", shown)
        self.assertEqual(self.browser.ask("document.querySelectorAll('#picture-curve [id^=mark-r]').length"), 36)
        self.assertEqual(self.browser.ask("document.querySelectorAll('#curve tbody tr').length"), 3)
        cells = self.browser.ask("[...document.querySelectorAll('#readings tbody tr')][8].innerText").split()
        self.assertIn("above", cells)
        season = ShownSurface([], [], [], Settings(bound=1))
        self.assertIn("0 readings are in force", self.look(season))

    def test_a_season_file_without_a_report(self):
        """Of a real season, empty or with a bound that is refused, there is a page too."""
        season = SeasonFile.create(os.path.join(self.folder.name, "empty.stake"), Settings(bound=1))
        self.assertIn("0 readings are in force", page.render(season))
        season = SeasonFile.create(os.path.join(self.folder.name, "refused.stake"), Settings(bound=1, criterion="aic"))
        season.add_rows([NewRow("0", "0x1.fffffffffffffp+1023")] * 4)
        self.assertIn("There is no report. <strong>Refusal 11:", page.render(season))

    def test_refusals_with_many_words(self):
        for number in (4, 8):
            why = Refused(number)
            shown = self.look(Shown([1.0, 2.0, 4.0], [3.0, 5.0, 4.0], [1.0, 2.0, 3.0], report=raising(why), scores=raising(why)))
            self.assertIn(why.words, shown)

    def test_sixteen_degrees_of_which_most_are_unsolved(self):
        settings = Settings(bound=15, criterion="aic")
        season = Shown([float(i) for i in range(40)], [float((i * 7) % 11) for i in range(40)], settings=settings)
        season.scores = lambda: scored(settings, 1, [20011.5, 20010.0, 20010.25] + [None] * 13)
        self.look(season)
        self.assertEqual(self.browser.ask("[...document.querySelectorAll('#scores td')].filter((e) => e.textContent === 'unsolved').length"), 13)
        self.assertIn("unsolved", self.browser.ask("document.getElementById('picture-scores').textContent"))

    def test_nearly_all_outside(self):
        xs = [i / 10 for i in range(120)]
        ys = [5 * x + ((i * 61) % 37) / 4 for i, x in enumerate(xs)]
        settings = Settings(bound=1)
        shown = self.look(Shown(xs, ys, None, settings, scores=lambda: scored(settings, 1, [9.0, 1.0])))
        self.assertRegex(shown, r"rounded numbers: y = [0-9.]+ \+ [0-9.]+ x\.\n")
        self.assertEqual(self.browser.ask("[...document.querySelectorAll('#readings thead th')].map((e) => e.textContent)"), ["name", "x", "y", "band", "mark"])
        self.assertRegex(shown, r"Outside it lie [0-9]+ readings: r1, .* and [0-9]+ more, marked in the table\.")

    def test_no_readings(self):
        shown = self.look(Shown([], [], scores=raising(Refused(7))))
        self.assertIn("0 readings are in force.", shown)
        self.assertIn("There are none.", shown)

    def test_long_numbers_and_names(self):
        xs = [1234567.000001 + i * 0.123456789012 for i in range(20)]
        ys = [-1.23456789012345e-205 * (1 + (i * 7) % 5) for i in range(20)]
        settings = Settings(bound=1)
        season = Shown(xs, ys, [0.001234567890123 * (i + 1) for i in range(20)], settings, scores=lambda: scored(settings, 0, [-123456.789012345, -123456.7]))
        season.x_name = "a column whose heading is a whole sentence, since somebody thought (that it should be, and more)"
        season.y_name = "W" * 90
        season.path = "another/" + "long-name-" * 12 + ".stake"
        self.assertIn("W" * 90, self.look(season))

    def test_four_thousand_readings(self):
        xs = [i / 1000 for i in range(4096)]
        ys = [100 + 50 * x + ((i * 37) % 101) / 10 for i, x in enumerate(xs)]
        settings = Settings(bound=1)
        season = Shown(xs, ys, None, settings, scores=lambda: scored(settings, 1, [9.0, 1.0]))
        path = os.path.join(self.folder.name, "many.html")
        page.write(season, path)
        self.browser.show(path, 360)
        self.assertEqual(self.browser.ask("document.querySelectorAll('#picture-curve [id^=mark-r]').length"), 4096)
        self.assertEqual(self.browser.ask("document.querySelectorAll('#readings tbody tr').length"), 4096)
        self.assertLessEqual(self.browser.ask("document.documentElement.scrollWidth"), 360)


class TheComplaints(Shows):
    """What is looked for is found where it is there."""

    def complaints(self, old, new):
        path = os.path.join(self.folder.name, "worse.html")
        self.assertIn(old, self.text)
        with open(path, "w", encoding="utf-8") as file:
            file.write(self.text.replace(old, new, 1))
        self.browser.show(path, 360)
        return " ".join(self.browser.ask(COMPLAINTS))

    def test_too_wide(self):
        self.assertRegex(self.complaints("<h1>", '<h1 style="width: 500px">'), "the page is 5.. wide.*wider than the window: H1")

    def test_a_line_that_is_cut(self):
        self.assertIn("cut: 30 readings are in force", self.complaints("<p>30 readings", '<p style="white-space: nowrap; overflow: hidden">30 readings'))

    def test_pale(self):
        self.assertIn("pale (2.3): shown", self.complaints("<h1>", '<h1 style="color: #aaa">'))

    def test_small(self):
        self.assertIn("small (9): shown", self.complaints("<h1>", '<h1 style="font-size: 9px">'))

    def test_not_shown(self):
        self.assertIn("not shown: shown", self.complaints("<h1>", '<h1 style="display: none">'))

    def test_a_text_outside_its_picture_and_one_over_another(self):
        self.assertIn("cut: far", self.complaints("</svg>", '<text x="310" y="20" style="font-size: 9px">far out</text></svg>'))
        twice = '<text x="100" y="100" style="font-size: 9px">one</text><text x="102" y="101" style="font-size: 9px">two</text></svg>'
        self.assertIn("one over the other: two, one", self.complaints("</svg>", twice))

    def test_an_id_twice(self):
        path = os.path.join(self.folder.name, "twice.html")
        with open(path, "w", encoding="utf-8") as file:
            file.write(self.text.replace("</body>", '<p id="summary">a</p></body>'))
        self.browser.show(path, 360)
        self.assertEqual(self.browser.ask(ONE_BY_ONE), ["summary"])

    def test_a_script_in_a_page_would_be_seen(self):
        path = os.path.join(self.folder.name, "script.html")
        with open(path, "w", encoding="utf-8") as file:
            file.write(self.text.replace("</body>", "<script>document.title = 'run'</script><img src='http://127.0.0.1:9/x.png'></body>"))
        self.browser.show(path, 360)
        self.assertEqual(self.browser.ask("document.scripts.length"), 1)
        # the page's own policy keeps both from doing anything
        self.assertNotEqual(self.browser.ask("document.title"), "run")


class Nesting(html.parser.HTMLParser):
    """Whether every tag is closed in its order."""

    EMPTY = ("meta", "wbr", "br", "hr")

    def __init__(self, text):
        super().__init__()
        self.open = []
        self.problems = []
        self.feed(text)
        if self.open:
            self.problems.append("open: %s" % self.open)

    def handle_starttag(self, tag, attributes):
        if tag not in self.EMPTY:
            self.open.append(tag)

    def handle_startendtag(self, tag, attributes):
        pass

    def handle_endtag(self, tag):
        top = self.open.pop() if self.open else None
        if top != tag:
            self.problems.append("</%s> closes %s" % (tag, top))
            self.open = []


class Files(unittest.TestCase):
    def write(self, path):
        """The file alone is looked at here, and not what is on the page."""
        with mock.patch.object(page, "render", return_value="<p>page</p>"):
            page.write(None, path)

    def test_a_write_that_fails_leaves_what_was_there(self):
        with tempfile.TemporaryDirectory() as folder:
            path = os.path.join(folder, "page.html")
            with open(path, "w") as file:
                file.write("old")
            with mock.patch("os.fsync", side_effect=OSError(28, "No space left on device")):
                with self.assertRaisesRegex(OSError, "No space left"):
                    self.write(path)
            self.assertEqual(os.listdir(folder), ["page.html"])
            with open(path) as file:
                self.assertEqual(file.read(), "old")

    def test_the_file_keeps_its_mode_and_a_link_stays_one(self):
        with tempfile.TemporaryDirectory() as folder:
            path, link = os.path.join(folder, "page.html"), os.path.join(folder, "link.html")
            mask = os.umask(0o027)
            try:
                self.write(path)
                self.assertEqual(os.stat(path).st_mode & 0o777, 0o640)
            finally:
                os.umask(mask)
            os.chmod(path, 0o604)
            os.symlink(path, link)
            self.write(link)
            self.assertTrue(os.path.islink(link))
            self.assertEqual(os.stat(path).st_mode & 0o777, 0o604)
            self.assertEqual(sorted(os.listdir(folder)), ["link.html", "page.html"])

    def test_a_pipe_is_written_to_and_stays_a_pipe(self):
        with tempfile.TemporaryDirectory() as folder:
            path = os.path.join(folder, "pipe.html")
            os.mkfifo(path)
            reader = subprocess.Popen(["cat", path], stdout=subprocess.PIPE)
            self.write(path)
            self.assertEqual(reader.communicate()[0], b"<p>page</p>")
            self.assertTrue(stat.S_ISFIFO(os.stat(path).st_mode))
            self.assertEqual(os.listdir(folder), ["pipe.html"])

    def test_what_no_page_can_hold(self):
        season = rich()
        season.readings[0].note = "a\x00b\x1bc\ud800d"
        season.path = "name\udcff.stake"
        with tempfile.TemporaryDirectory() as folder:
            path = os.path.join(folder, "page.html")
            page.write(season, path)
            with open(path, encoding="utf-8") as file:
                text = file.read()
        self.assertIn("a\ufffdb\ufffdc\ufffdd", text)
        self.assertIn("from name\ufffd.stake.", text)

    def test_numbers_that_are_none(self):
        self.assertEqual([page.number(value) for value in (float("nan"), float("inf"), -float("inf"), -1.5)], ["none", "\u221e", "\u2212\u221e", "\u22121.5"])


if __name__ == "__main__":
    unittest.main()
