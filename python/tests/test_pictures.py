"""The pictures, looked at as a reader would: where marks, curve and band lie in the SVG, measured by the axes' own ticks."""

import csv
import os
import re
import subprocess
import sys
import tempfile
import unittest
import warnings
import xml.etree.ElementTree as ElementTree
from unittest import mock

HERE = os.path.dirname(os.path.abspath(__file__))
ROOT = os.path.dirname(os.path.dirname(HERE))
sys.path[:0] = [HERE, os.path.dirname(HERE)]

import matplotlib
import numpy

from shown import Shown, ShownSurface, raising, reading
from stakebook import DegreeScore, Refused, Scores, Settings, _library, pictures

SVG = "{http://www.w3.org/2000/svg}"
NUMBER = r"-?[0-9.]+(?:e-?[0-9]+)?"


def scored(settings, chosen, scores):
    """Scores as the library would answer them, None where a degree is unsolved."""
    degrees = [DegreeScore(degree, score is not None, score) for degree, score in enumerate(scores)]
    known = [score for score in scores if score is not None]
    return Scores(settings, 0, chosen, len(scores) - 1, min(known), len(known), degrees, 1)


def curved(n=30, **more):
    """A parabola with every sixth reading far off it, and a tolerance that keeps all others within the band."""
    xs = [0.1 * i for i in range(1, n + 1)]
    ys = [100 + 40 * x - 6 * x * x + (30 if i % 6 == 3 else 2 if i % 2 else -2) for i, x in enumerate(xs)]
    settings = Settings(bound=2, tolerance=("absolute", 12))
    return Shown(xs, ys, settings=settings, scores=lambda: scored(settings, 2, [140.0, 90.5, 60.25]), **more)


class Drawn:
    """An SVG picture and what stands in it, in the numbers of its axes."""

    def __init__(self, season, title=None):
        with tempfile.TemporaryDirectory() as folder:
            path = os.path.join(folder, "picture.svg")
            pictures.plot(season, path, title)
            self._read(open_bytes(path))

    @classmethod
    def of(cls, svg):
        drawn = cls.__new__(cls)
        drawn._read(svg)
        return drawn

    def _read(self, svg):
        self.root = ElementTree.fromstring(svg)
        names = [element.get("id") for element in self.root.iter() if element.get("id")]
        assert len(names) == len(set(names)), "an id stands twice"
        self.ids = {element.get("id"): element for element in self.root.iter() if element.get("id")}
        self.texts = [element.text for element in self.root.iter(SVG + "text") if element.text]
        self.all_text = " ".join(self.texts)

    def scale(self, axes, which):
        """From points of the page to the numbers of an axis, by its first and last tick that have a label."""
        ticks = []
        name = "xtick" if which == "x" else "ytick"
        for group in self.ids[axes].iter(SVG + "g"):
            if (group.get("id") or "").startswith(name):
                use = next(group.iter(SVG + "use"))
                text = next(group.iter(SVG + "text"), None)
                if text is not None and text.text:
                    ticks.append((float(use.get(which)), float(text.text.replace("\u2212", "-"))))
        (at, value), (last_at, last_value) = ticks[0], ticks[-1]
        return lambda point: value + (point - at) * (last_value - value) / (last_at - at)

    def centre(self, name):
        """The middle of a mark."""
        box = self.box(name)
        return (box[0] + box[2]) / 2, (box[1] + box[3]) / 2

    def box(self, name):
        element = self.ids[name]
        if element.tag == SVG + "use":
            return float(element.get("x")), float(element.get("y")), float(element.get("x")), float(element.get("y"))
        points = path_points(element.get("d"))
        return points[:, 0].min(), points[:, 1].min(), points[:, 0].max(), points[:, 1].max()

    def marks(self, kind):
        """The readings' names by kind of mark, in the order drawn."""
        return [name[len(kind) + 1 :] for name in self.ids if re.fullmatch(kind + r"-r[0-9]+", name)]

    def group(self, name):
        """The readings' names that are marked in a group, as in mark-outside."""
        kind = name.split("-")[0]
        return [element.get("id")[len(kind) + 1 :] for element in self.ids[name].iter() if re.fullmatch(kind + r"-r[0-9]+", element.get("id") or "")]


def path_points(d):
    return numpy.array([float(number) for number in re.findall(NUMBER, d)]).reshape(-1, 2)


def band_polygon(drawn):
    """The band's outline in points of the page."""
    group = drawn.ids["mark-band"]
    path = next(group.iter(SVG + "path"))
    use = next(group.iter(SVG + "use"))
    return path_points(path.get("d")) + [float(use.get("x")), float(use.get("y"))]


def inside(polygon, x, y):
    """Whether a point lies in a polygon: how often a ray to the right crosses it."""
    odd = False
    for (x0, y0), (x1, y1) in zip(polygon, numpy.roll(polygon, -1, axis=0)):
        if (y0 > y) != (y1 > y) and x < x0 + (y - y0) * (x1 - x0) / (y1 - y0):
            odd = not odd
    return odd


class Looks(unittest.TestCase):
    @classmethod
    def setUpClass(cls):
        cls.season = curved(ws=[1.0, 1.0, 2.0] * 10)
        cls.drawn = Drawn(cls.season)

    def test_each_reading_lies_where_its_numbers_are(self):
        across, up = self.drawn.scale("axes_2", "x"), self.drawn.scale("axes_1", "y")
        self.assertEqual(sorted(self.drawn.marks("mark")), sorted(each.name for each in self.season.readings))
        for each in self.season.readings:
            x, y = self.drawn.centre("mark-" + each.name)
            self.assertAlmostEqual(across(x), each.x, delta=0.005)
            self.assertAlmostEqual(up(y), each.y, delta=0.2)

    def test_the_curve_is_least_squares_with_weights(self):
        points = path_points(next(self.drawn.ids["mark-curve"].iter(SVG + "path")).get("d"))
        across, up = self.drawn.scale("axes_2", "x"), self.drawn.scale("axes_1", "y")
        xs = [each.x for each in self.season.readings]
        fitted = numpy.polyfit(xs, [each.y for each in self.season.readings], 2, w=numpy.sqrt([each.weight for each in self.season.readings]))
        self.assertGreater(len(points), 20)
        for x, y in points:
            self.assertAlmostEqual(up(y), numpy.polyval(fitted, across(x)), delta=0.3)
        self.assertAlmostEqual(across(points[0][0]), min(xs), delta=0.005)
        self.assertAlmostEqual(across(points[-1][0]), max(xs), delta=0.005)

    def test_what_is_marked_as_outside_is_seen_outside_the_band(self):
        polygon = band_polygon(self.drawn)
        outside = self.drawn.group("mark-outside")
        self.assertEqual(outside, ["r4", "r10", "r16", "r22", "r28"])  # those that were put 30 higher
        for name in self.drawn.marks("mark"):
            x, y = self.drawn.centre("mark-" + name)
            x = min(max(x, polygon[:, 0].min() + 0.01), polygon[:, 0].max() - 0.01)  # the first and last x lie on the band's own border
            self.assertEqual(inside(polygon, x, y), name not in outside, name)

    def test_those_outside_are_named_and_no_other(self):
        named = sorted(text for text in self.drawn.texts if re.fullmatch("r[0-9]+", text))
        self.assertEqual(named, sorted(self.drawn.group("mark-outside")))

    def test_residuals_are_below_and_are_y_less_the_curve(self):
        across, up = self.drawn.scale("axes_2", "x"), self.drawn.scale("axes_2", "y")
        xs, ys = [each.x for each in self.season.readings], [each.y for each in self.season.readings]
        fitted = numpy.polyfit(xs, ys, 2, w=numpy.sqrt([each.weight for each in self.season.readings]))
        for each in self.season.readings:
            x, y = self.drawn.centre("residual-" + each.name)
            self.assertAlmostEqual(across(x), each.x, delta=0.005)
            self.assertAlmostEqual(up(y), each.y - numpy.polyval(fitted, each.x), delta=0.3)
            self.assertAlmostEqual(x, self.drawn.centre("mark-" + each.name)[0], delta=0.02)  # one above the other
            self.assertGreater(y, self.drawn.centre("mark-" + each.name)[1])

    def test_weight_is_area(self):
        def area(name):
            box = self.drawn.box("mark-" + name)
            return (box[2] - box[0]) * (box[3] - box[1])

        self.assertAlmostEqual(area("r3") / area("r1"), 2, delta=0.05)
        self.assertIn("reading, weight 1", self.drawn.texts)
        self.assertIn("reading, weight 2", self.drawn.texts)

    def test_a_mark_says_its_numbers(self):
        title = self.drawn.ids["mark-r3"].find(SVG + "title")
        self.assertEqual(title.text, "r3: x %r, y %r, weight 2" % (self.season.readings[2].x, self.season.readings[2].y))

    def test_legend_and_title(self):
        self.assertIn("shown: 30 readings, degree 2 by BIC, 5 outside the band", self.drawn.texts)
        self.assertIn("curve, degree 2", self.drawn.texts)
        self.assertIn("band, P95, \u00b1 12", self.drawn.texts)
        self.assertIn("outside the band: 5", self.drawn.texts)
        self.assertIn("x", self.drawn.texts)
        self.assertIn("y", self.drawn.texts)

    def test_a_title_and_names_of_columns_that_are_given(self):
        season = curved(12)
        season.x_name, season.y_name = "depth (m)", "density $ (kg m-3)"
        drawn = Drawn(season, "Pit <1> & co")
        self.assertIn("Pit <1> & co: 12 readings, degree 1 by BIC, 2 outside the band", drawn.texts)
        self.assertIn("depth (m)", drawn.texts)
        self.assertIn("density $ (kg m-3)", drawn.texts)


class ScoresBeside(unittest.TestCase):
    def test_scores_where_they_are_the_chosen_one_ringed_and_the_line(self):
        settings = Settings(bound=5)
        scores = [140.0, 90.5, 60.25, 61.5, None, None]
        season = Shown([1.0, 2.0, 3.0, 4.0, 5.0, 6.0], [1.0, 4.0, 9.0, 15.0, 26.0, 35.0], settings=settings, scores=lambda: scored(settings, 2, scores))
        drawn = Drawn(season)
        across, up = drawn.scale("axes_3", "x"), drawn.scale("axes_3", "y")

        def at(name):
            return [(across(float(use.get("x"))), up(float(use.get("y")))) for use in drawn.ids[name].iter(SVG + "use")]

        self.assertEqual(len(at("scores")), 4)
        for (degree, score), (k, expected) in zip(at("scores"), enumerate(scores)):
            self.assertAlmostEqual(degree, k, delta=0.02)
            self.assertAlmostEqual(score, expected, delta=0.5)
        self.assertEqual(len(at("chosen")), 1)
        self.assertAlmostEqual(at("chosen")[0][0], 2, delta=0.02)
        self.assertAlmostEqual(at("chosen")[0][1], 60.25, delta=0.5)
        self.assertEqual([round(degree) for degree, _ in at("unsolved")], [4, 5])
        line = path_points(next(drawn.ids["within"].iter(SVG + "path")).get("d"))
        self.assertAlmostEqual(up(line[0][1]), 62.25, delta=0.3)
        for words in ("chosen: degree 2", "least + 2", "unsolved", "score (BIC)"):
            self.assertIn(words, drawn.texts)

    def test_no_degree_unsolved_and_no_word_of_it(self):
        self.assertNotIn("unsolved", Drawn(curved(12)).texts)


class Names(unittest.TestCase):
    def crowded(self, n):
        """Readings close together, nearly all of them outside."""
        rng = numpy.random.default_rng(7)
        xs = numpy.sort(rng.uniform(0, 3, n)).tolist()
        ys = [100 + 90 * x - 12 * x * x + e for x, e in zip(xs, rng.normal(0, 9, n).tolist())]
        settings = Settings(bound=2)
        return Shown(xs, ys, settings=settings, scores=lambda: scored(settings, 2, [9.0, 8.0, 1.0]))

    def test_names_meet_no_name_and_no_mark_and_stay_in_the_frame(self):
        season = self.crowded(90)
        drawn = pictures.figure(season)
        renderer = drawn.canvas.get_renderer()
        axes = drawn.axes[0]
        frame = axes.get_window_extent(renderer)
        named = [text for text in axes.texts if re.fullmatch("r[0-9]+", text.get_text())]
        boxes = [text.get_window_extent(renderer) for text in named]
        self.assertGreater(len(named), 15)
        for i, box in enumerate(boxes):
            self.assertGreaterEqual(box.x0, frame.x0)
            self.assertLessEqual(box.x1, frame.x1)
            self.assertGreaterEqual(box.y0, frame.y0)
            self.assertLessEqual(box.y1, frame.y1)
            for other in boxes[:i]:
                self.assertFalse(box.overlaps(other), (named[i].get_text(), box, other))
            points = axes.transData.transform([(each.x, each.y) for each in season.readings])
            for x, y in points:
                self.assertFalse(box.contains(x, y), named[i].get_text())

    def test_who_has_no_room_is_counted(self):
        season = self.crowded(90)
        drawn = Drawn(season)
        outside = len(drawn.group("mark-outside"))
        named = len([text for text in drawn.texts if re.fullmatch("r[0-9]+", text)])
        self.assertLess(named, outside)
        self.assertIn("%d more outside have no room for a name" % (outside - named), drawn.texts)

    def test_a_reading_keeps_its_name_when_others_are_withdrawn(self):
        season = curved(12)
        season.book.withdraw(0)
        season.readings[0].index = None
        for i, each in enumerate(season.readings[1:]):
            each.index = i
        drawn = Drawn(season)
        self.assertEqual(sorted(drawn.marks("mark")), sorted("r%d" % i for i in range(2, 13)))
        across = drawn.scale("axes_2", "x")
        self.assertAlmostEqual(across(drawn.centre("mark-r4")[0]), 0.4, delta=0.005)


class Many(unittest.TestCase):
    def test_the_curve_is_drawn_over_small_marks(self):
        n = 600
        xs = [i / 100 for i in range(n)]
        ys = [3 * x + ((i * 37) % 101) / 10 for i, x in enumerate(xs)]
        settings = Settings(bound=1)
        drawn = Drawn(Shown(xs, ys, settings=settings, scores=lambda: scored(settings, 1, [9.0, 1.0])))
        self.assertEqual(len(drawn.marks("mark")), n)
        self.assertIn("shown: 600 readings, degree 1 by BIC, %d outside the band" % len(drawn.group("mark-outside")), drawn.texts)
        order = [element.get("id") for element in drawn.ids["axes_1"]]
        self.assertGreater(order.index("mark-curve"), order.index("mark-outside"))
        few = [element.get("id") for element in Drawn(curved(12)).ids["axes_1"]]
        self.assertLess(few.index("mark-curve"), few.index("mark-outside"))


def sloped(**more):
    """A plane with two readings far off it, of which a tolerance keeps all others within the band; no reading lies in one corner."""
    rows = [(x / 4, z / 2, 300 + 80 * x / 4 - 10 * z / 2) for x in range(1, 7) for z in range(-4, 5) if (x, z) != (6, 4)]
    ys = [y + (60 if i == 20 else -60 if i == 33 else 1 if i % 2 else -1) for i, (_, _, y) in enumerate(rows)]
    settings = more.pop("settings", Settings(bound=1, tolerance=("absolute", 30)))
    return ShownSurface([row[0] for row in rows], [row[1] for row in rows], ys, settings, **more)


@unittest.skipUnless(_library.library().surface_band, "the library has no surfaces")
class Maps(unittest.TestCase):
    @classmethod
    def setUpClass(cls):
        cls.season = sloped()
        cls.season.x_name, cls.season.z_name, cls.season.y_name = "depth (m)", "elevation", "density"
        cls.drawn = Drawn(cls.season)

    def test_each_reading_lies_at_its_x_and_z(self):
        across, up = self.drawn.scale("axes_1", "x"), self.drawn.scale("axes_1", "y")
        self.assertEqual(sorted(self.drawn.marks("mark")), sorted(each.name for each in self.season.readings))
        for each in self.season.readings:
            x, z = self.drawn.centre("mark-" + each.name)
            self.assertAlmostEqual(across(x), each.x, delta=0.01)
            self.assertAlmostEqual(up(z), each.z, delta=0.02)

    def test_those_outside_are_named_and_no_other(self):
        self.assertEqual(self.drawn.group("mark-outside"), ["r21", "r34"])  # those that were put 60 off
        self.assertEqual(sorted(text for text in self.drawn.texts if re.fullmatch("r[0-9]+", text)), ["r21", "r34"])

    def test_the_maps_are_least_squares_and_within_the_readings(self):
        """The value and the band's width on the grid by numpy, and no point of it outside the least to greatest x and z."""
        view = pictures.look(self.season)
        xs, zs, ys = (numpy.array(values) for values in (self.season.book.xs, self.season.book.zs, self.season.book.ys))
        terms = numpy.column_stack([numpy.ones(len(xs)), xs, zs])
        fitted = numpy.linalg.lstsq(terms, ys, rcond=None)[0]
        residuals = ys - terms @ fitted
        covariance = numpy.linalg.inv(terms.T @ terms) * (residuals @ residuals) / (len(xs) - 3)
        self.assertEqual((view.at[0][0], view.at[0][-1], view.at[1][0], view.at[1][-1]), (0.25, 1.5, -2.0, 2.0))
        self.assertEqual(view.value.shape, (41, 41))
        for i, j in ((0, 0), (40, 40), (0, 40), (7, 23)):
            at = numpy.array([1, view.at[0][j], view.at[1][i]])
            self.assertAlmostEqual(view.value[i, j], at @ fitted, places=8)
            self.assertAlmostEqual(view.width[i, j], 2 * (1.959 * numpy.sqrt(at @ covariance @ at) + 30), places=8)

    def test_both_maps_and_what_they_are(self):
        for name in ("surface-0", "width-0"):
            self.assertIn(name, self.drawn.ids)
        for text in ("depth (m)", "elevation", "density", "width of the band, P95, ± 30", "outside the band: 2"):
            self.assertIn(text, self.drawn.texts)
        self.assertIn("shown: 53 readings, degree 1 by BIC, 2 outside the band", self.drawn.texts)
        self.assertIn("r21: depth (m) 0.75, elevation -1.0, density 430.0", [element.text for element in self.drawn.root.iter(SVG + "title")])

    def test_refusals_are_said_and_the_readings_drawn(self):
        drawn = Drawn(sloped(settings=Settings(bound=5)))
        self.assertEqual(len(drawn.group("mark-inside")), 53)
        self.assertIn("refusal 8:", drawn.all_text.lower())
        self.assertIn("No surface, no band.", drawn.texts)
        self.assertNotIn("surface-0", drawn.ids)
        self.assertIn("No readings are in force.", Drawn(ShownSurface([], [], [], Settings())).texts)

    def test_readings_on_a_line_have_no_map(self):
        for xs, zs, name in (([1.0] * 4, [0, 1, 2, 3], "x"), ([0, 1, 2, 3], [2.0] * 4, "z"), ([1.0], [2.0], "x")):
            drawn = Drawn(ShownSurface(xs, zs, [1, 2, 3, 5][: len(xs)], Settings(bound=1)))
            self.assertIn("All readings have one %s: there is no map" % name, drawn.texts)
            self.assertNotIn("surface-0", drawn.ids)
            self.assertEqual(len(drawn.marks("mark")), len(xs))

    def test_odd_numbers(self):
        """A flat surface, and coordinates and values near the ends of the doubles, are drawn all the same."""
        season = sloped()
        xs, zs, ys = season.book.xs, season.book.zs, season.book.ys
        for season in (
            ShownSurface(xs, zs, [5.0] * len(xs), Settings(bound=1)),
            ShownSurface(xs, zs, [0.0] * len(xs), Settings(bound=1)),
            ShownSurface([1e200 * x for x in xs], zs, ys, Settings(bound=1)),
            ShownSurface(xs, zs, [1e300 * y for y in ys], Settings(bound=1)),
        ):
            with warnings.catch_warnings():
                warnings.simplefilter("error")
                self.assertEqual(len(Drawn(season).marks("mark")), len(xs))

    def test_formats_and_only_surfaces(self):
        with tempfile.TemporaryDirectory() as folder:
            for suffix, begin in ((".png", b"\x89PNG"), (".pdf", b"%PDF"), (".svg", b"<?xml")):
                path = os.path.join(folder, "map" + suffix)
                pictures.plot_surface(self.season, path)
                self.assertTrue(open_bytes(path).startswith(begin))
            again = os.path.join(folder, "again.svg")
            pictures.plot(self.season, again)
            self.assertEqual(open_bytes(again), open_bytes(path))
            with self.assertRaises(TypeError):
                pictures.plot_surface(curved(), again)


class Refusals(unittest.TestCase):
    def test_a_refusal_is_said_in_words_and_the_readings_are_drawn(self):
        why = Refused(12)
        drawn = Drawn(Shown([1.0, 2.0, 4.0], [3.0, 5.0, 4.0], report=raising(why), scores=raising(why)))
        self.assertEqual(drawn.group("mark-inside"), ["r1", "r2", "r3"])
        self.assertIn("refusal 12: the covariance can't be worked out", drawn.all_text.lower())
        self.assertNotIn("mark-curve", drawn.ids)
        self.assertNotIn("mark-band", drawn.ids)
        self.assertIn("shown: 3 readings, no report", drawn.texts)

    def test_a_refusal_of_the_library_itself(self):
        season = Shown([1.0, 2.0, 4.0], [3.0, 5.0, 4.0], settings=Settings(bound=16), scores=raising(Refused(8)))
        drawn = Drawn(season)
        self.assertEqual(drawn.group("mark-inside"), ["r1", "r2", "r3"])
        self.assertIn("refusal 8:", drawn.all_text.lower())

    def test_no_readings(self):
        drawn = Drawn(Shown([], [], scores=raising(Refused(7))))
        self.assertIn("No readings are in force.", drawn.texts)
        self.assertIn("shown: 0 readings, no report", drawn.texts)


class Odd(unittest.TestCase):
    """Readings that no one would draw by hand: the picture is made, without a warning, and every reading is in it."""

    def shows_all(self, xs, ys, ws=None, others=(), **settings):
        chosen = Settings(**settings)
        with warnings.catch_warnings():
            warnings.simplefilter("error")
            season = Shown(xs, ys, ws, chosen, scores=lambda: scored(chosen, 0, [1.0]))
            for suffix in others:
                with tempfile.TemporaryDirectory() as folder:
                    pictures.plot(season, os.path.join(folder, "picture." + suffix))
            drawn = Drawn(season)
        self.assertEqual(len(drawn.marks("mark")), len(xs))
        page = [float(part) for part in drawn.root.get("viewBox").split()]
        for name in drawn.marks("mark"):
            x, y = drawn.centre("mark-" + name)
            self.assertTrue(0 < x < page[2] and 0 < y < page[3], (name, x, y))
        return drawn

    def test_one_reading(self):
        self.shows_all([2.0], [5.0], bound=0)

    def test_two_readings_and_as_many_coefficients(self):
        self.shows_all([1.0, 2.0], [5.0, 7.0], bound=1)

    def test_a_band_far_wider_than_the_readings(self):
        for tolerance in (1000, 1e308):
            drawn = self.shows_all([0.0, 1.0, 2.0, 3.0], [1.0, 2.0, 4.0, 3.0], bound=1, tolerance=("absolute", tolerance))
            self.assertIn("the band reaches beyond the picture", drawn.texts)
        self.assertNotIn("the band reaches beyond the picture", self.shows_all([0.0, 1.0, 2.0, 3.0], [1.0, 2.0, 4.0, 3.0], bound=1).texts)

    def test_a_band_that_is_not_finite(self):
        drawn = self.shows_all([1.0, 2.0, 3.0, 4.0], [1e150, 2e150, 3e150, 5e150], bound=0, tolerance=("measurement", 1e300))
        self.assertIn("the band is not finite", drawn.texts)

    def test_one_x_alone(self):
        self.shows_all([2.0] * 5, [1.0, 2.0, 3.0, 4.0, 9.0], bound=0, others=("png", "pdf"))

    def test_one_y_alone(self):
        self.shows_all([1.0, 2.0, 3.0, 4.0], [5.0] * 4, bound=1)

    def test_great_numbers(self):
        drawn = self.shows_all([1.0, 2.0, 3.0, 4.0], [1e308, -1e308, 1.5e308, -1.5e308], bound=1, others=("png", "pdf"))
        self.assertIn("y, in units of 1e308", drawn.texts)

    def test_great_x(self):
        self.shows_all([-1.7e308, 0.0, 1.7e308], [1.0, 2.0, 3.0], bound=0)

    def test_small_numbers(self):
        drawn = self.shows_all([1.0, 2.0, 3.0, 4.0], [3e-310, 1e-310, 2e-310, 5e-324], bound=1)
        self.assertIn("y, in units of 1e-310", drawn.texts)

    def test_numbers_next_to_each_other(self):
        self.shows_all([1e15, 1e15 + 0.125, 1e15 + 0.25], [1.0, 1.0 + 2**-52, 1.0 + 2**-51], bound=0)

    def test_weights_far_apart(self):
        self.shows_all([1.0, 2.0, 3.0, 4.0], [5.0, 7.0, 8.0, 11.0], [1e-300, 1.0, 3.0, 1e300], bound=0)

    def test_letters_that_a_font_lacks_and_control_characters(self):
        season = curved(12)
        season.x_name = "\u96ea\u306e\u6df1\u3055\x07"
        season.readings[0].called = "P\x001"
        with warnings.catch_warnings():
            warnings.simplefilter("error")
            drawn = Drawn(season)
            with tempfile.TemporaryDirectory() as folder:
                pictures.plot(season, os.path.join(folder, "picture.png"))
        self.assertIn("\u96ea\u306e\u6df1\u3055", drawn.all_text)


class Files(unittest.TestCase):
    def test_format_by_suffix(self):
        season = curved(12)
        with tempfile.TemporaryDirectory() as folder:
            for suffix, begins in ((".svg", b"<?xml"), (".PNG", b"\x89PNG"), (".pdf", b"%PDF")):
                path = os.path.join(folder, "picture" + suffix)
                pictures.plot(season, path)
                with open(path, "rb") as file:
                    self.assertTrue(file.read().startswith(begins), suffix)
            self.assertEqual(len(os.listdir(folder)), 3)

    def test_another_suffix_is_a_value_error_and_writes_nothing(self):
        with tempfile.TemporaryDirectory() as folder:
            for name in ("picture.jpg", "picture", "svg"):
                with self.assertRaisesRegex(ValueError, r"\.svg, \.png, \.pdf"):
                    pictures.plot(curved(12), os.path.join(folder, name))
            self.assertEqual(os.listdir(folder), [])

    def test_the_same_season_gives_the_same_bytes(self):
        program = (
            "import sys; sys.path[:0] = sys.argv[1:3]; import test_pictures as t; "
            "[t.pictures.plot(t.curved(12), sys.argv[3] + s) for s in ('.svg', '.png', '.pdf')]"
        )
        with tempfile.TemporaryDirectory() as folder:
            made = []
            for seed in ("1", "2"):
                begin = os.path.join(folder, seed)
                subprocess.run([sys.executable, "-c", program, HERE, os.path.dirname(HERE), begin], check=True, env=dict(os.environ, PYTHONHASHSEED=seed))
                made.append([open_bytes(begin + suffix) for suffix in (".svg", ".png", ".pdf")])
        self.assertEqual(made[0], made[1])

    def test_a_write_that_fails_leaves_what_was_there(self):
        with tempfile.TemporaryDirectory() as folder:
            path = os.path.join(folder, "picture.svg")
            with open(path, "w") as file:
                file.write("old")
            with mock.patch("os.fsync", side_effect=OSError(28, "No space left on device")):
                with self.assertRaisesRegex(OSError, "No space left"):
                    pictures.plot(curved(12), path)
            self.assertEqual(os.listdir(folder), ["picture.svg"])
            self.assertEqual(open_bytes(path), b"old")

    def test_a_folder_that_is_not_there(self):
        with self.assertRaises(FileNotFoundError):
            pictures.plot(curved(12), os.path.join(tempfile.gettempdir(), "no-such-folder", "picture.svg"))

    def test_matplotlib_is_left_as_it_was(self):
        program = (
            "import sys; sys.path[:0] = sys.argv[1:3]; import matplotlib; matplotlib.rcParams['font.size'] = 17; "
            "import test_pictures as t; t.pictures.plot(t.curved(12), sys.argv[3]); "
            "print(matplotlib.rcParams['font.size'], 'matplotlib.pyplot' in sys.modules)"
        )
        with tempfile.TemporaryDirectory() as folder:
            out = subprocess.run(
                [sys.executable, "-c", program, HERE, os.path.dirname(HERE), os.path.join(folder, "p.svg")], check=True, stdout=subprocess.PIPE
            ).stdout
        self.assertEqual(out.split(), [b"17.0", b"False"])

    def test_without_matplotlib_the_package_is_named(self):
        program = "import sys; sys.path.insert(0, sys.argv[1]); sys.modules['matplotlib'] = None; import stakebook; import stakebook.pictures"
        done = subprocess.run([sys.executable, "-c", program, os.path.dirname(HERE)], stderr=subprocess.PIPE)
        self.assertEqual(done.returncode, 1)
        self.assertIn(b"python3-matplotlib", done.stderr)


class Committed(unittest.TestCase):
    """What README shows is what its own five lines make, of examples/pit.csv; and what docs/STAKE.md shows of a surface what its lines make."""

    @classmethod
    def setUpClass(cls):
        cls.folder = tempfile.TemporaryDirectory()
        cls.addClassCleanup(cls.folder.cleanup)
        done = subprocess.run([os.path.join(ROOT, "tools", "make_pictures.sh"), cls.folder.name], stdout=subprocess.PIPE, stderr=subprocess.STDOUT)
        if done.returncode != 0:
            raise AssertionError("README's lines failed:\n" + done.stdout.decode())
        cls.said = done.stdout.decode()
        cls.made = Drawn.of(open_bytes(os.path.join(cls.folder.name, "pit.svg")))

    def test_the_committed_pictures_are_those_made_now(self):
        surface = ["glacier.svg"] if _library.library().surface_band else []
        for name in ["pit.svg", "pit.html"] + surface:
            made, kept = open_bytes(os.path.join(self.folder.name, name)), open_bytes(os.path.join(ROOT, "docs", "pictures", name))
            if matplotlib.__version__.startswith("3.6."):  # Debian 12's: others may put a text a hair's breadth elsewhere
                self.assertTrue(made == kept, "%s is not what is made now: tools/make_pictures.sh makes it anew" % name)
            else:
                self.assertEqual(re.findall(rb'id="[a-z]+-r[0-9]+"|<title>[^<]*', made), re.findall(rb'id="[a-z]+-r[0-9]+"|<title>[^<]*', kept))

    def test_the_picture_has_the_rows_of_the_file(self):
        with open(os.path.join(ROOT, "examples", "pit.csv"), newline="") as file:
            rows = list(csv.DictReader(file))
        self.assertTrue(24 <= len(rows) <= 40)
        self.assertEqual(sorted(self.made.marks("mark")), sorted("r%d" % (i + 1) for i in range(len(rows))))
        across, up = self.made.scale("axes_2", "x"), self.made.scale("axes_1", "y")
        for i, row in enumerate(rows):
            x, y = self.made.centre("mark-r%d" % (i + 1))
            self.assertAlmostEqual(across(x), float(row["depth (m)"]), delta=0.005)
            self.assertAlmostEqual(up(y), float(row["density (kg m-3)"]), delta=0.5)
        self.assertEqual(rows[0]["note"].split(";")[0], "made-up pit")
        outside = [rows[int(name[1:]) - 1]["note"] for name in self.made.group("mark-outside")]
        self.assertEqual(outside, ["melt crust", "ice lens", "depth hoar"])
        for words in ("depth (m)", "density (kg m-3)", "r8", "r17", "r33"):
            self.assertIn(words, self.made.texts)

    def test_readme_shows_the_picture_first(self):
        with open(os.path.join(ROOT, "README.md"), encoding="utf-8") as file:
            lines = [line for line in file.read().split("\n") if line]
        self.assertRegex(lines[1], r"^!\[.+\]\(docs/pictures/pit\.svg\)$")

    def test_the_lines_say_what_they_did(self):
        self.assertIn("34 readings", self.said)
        self.assertIn("r17", self.said)


def open_bytes(path):
    with open(path, "rb") as file:
        return file.read()


if __name__ == "__main__":
    unittest.main()
