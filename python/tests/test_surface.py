"""Surfaces (document 02, E9) over the library that is found.

    python3 python/tests/test_surface.py

Expected numbers come from numpy's least squares, from the definitions of document 02 and of include/stakebook.h; none from the module itself.
"""

import json
import math
import random
import sys
import threading
import unittest
from pathlib import Path
from unittest import mock

ROOT = Path(__file__).resolve().parents[2]
sys.path.insert(0, str(ROOT / "python"))

import stakebook
from stakebook import Allowance, LibraryError, Refused, Settings, Surface, _library

try:
    import numpy
except ImportError:
    numpy = None

NAN, INF = math.nan, math.inf
HAS_SURFACE = _library.library().surface_fit is not None
HAS_GROUPS = _library.library().group_surface_report is not None
#: Document 02: ordered by a + b and then by falling a, written out.
EXPONENTS = [(0, 0), (1, 0), (0, 1), (2, 0), (1, 1), (0, 2), (3, 0), (2, 1), (1, 2), (0, 3), (4, 0), (3, 1), (2, 2), (1, 3), (0, 4)]
COUNTS = (1, 3, 6, 10, 15)


def surface_of(rows, capacity=stakebook.MOST):
    surface = Surface(capacity)
    surface.extend(*zip(*rows))
    return surface


def rows_of(n, seed=9):
    """Depth and elevation about 0, and a bent surface with noise."""
    random_ = random.Random(seed)
    rows = []
    for _ in range(n):
        x, z = random_.uniform(-1, 1), random_.uniform(-1, 1)
        rows.append((x, z, 300 + 80 * x - 30 * z + 20 * x * x - 15 * x * z + random_.gauss(0, 4)))
    return rows


def grid(m, y):
    return [(i / (m - 1), j / (m - 1), y(i / (m - 1), j / (m - 1))) for i in range(m) for j in range(m)]


def matrix(points, k):
    return numpy.array([[x**a * z**b for a, b in EXPONENTS[:k]] for x, z in points])


def readings(surface):
    return surface.xs, surface.zs, surface.ys, surface.bits()


class Kept(unittest.TestCase):
    """Changes need no surface of the library: they are a book's."""

    def test_changes(self):
        surface = Surface()
        self.assertEqual(surface.add(0.1, 2.9, 212), 1)
        self.assertEqual(surface.extend([0.3, 0.5], (3.0, 3.1), iter([240.5, 251])), 3)
        self.assertEqual(surface.correct(1, 241), 3)
        self.assertEqual((surface.xs, surface.zs, surface.ys), ([0.1, 0.3, 0.5], [2.9, 3.0, 3.1], [212.0, 241.0, 251.0]))
        self.assertEqual(surface.withdraw(0), 2)
        self.assertEqual((surface.xs, surface.zs, surface.ys), ([0.3, 0.5], [3.0, 3.1], [241.0, 251.0]))
        self.assertEqual((surface.count, len(surface), surface.capacity), (2, 2, 4096))
        self.assertEqual(repr(surface), "<Surface: 2 of 4096 readings>")

    def test_refused_changes(self):
        """A change is made of all three columns or of none, and the refusal is the one that is checked first."""
        surface = surface_of([(0, 0, 1), (1, 0, 2), (0, 1, 3)], capacity=4)
        before = readings(surface)
        cases = [(4, lambda values=values: surface.add(*values)) for values in ((NAN, 0, 0), (0, NAN, 0), (0, 0, NAN), (0, INF, 0), (0, -INF, 0))]
        cases += [
            (4, lambda: surface.extend([0], [NAN], [0])),
            (4, lambda: surface.extend([0, 0], [0, NAN], [0, 0])),  # 4 of z stands before 5 of x
            (5, lambda: surface.extend([0, 0], [0, 0], [0, 0])),
            (6, lambda: surface.correct(3, 1)),
            (4, lambda: surface.correct(3, NAN)),
            (6, lambda: surface.withdraw(3)),
        ]
        for number, call in cases:
            with self.assertRaises(Refused) as caught:
                call()
            self.assertEqual((caught.exception.number, caught.exception.words), (number, stakebook.WORDS[number]))
            self.assertEqual(readings(surface), before)
        surface.add(1, 1, 4)
        with self.assertRaises(Refused) as caught:
            surface.add(1, 1, 4)
        self.assertEqual((caught.exception.number, surface.count), (5, 4))

    def test_errors(self):
        surface = surface_of([(0, 0, 1)])
        before = readings(surface)
        for error, call in (
            (ValueError, lambda: surface.extend([0, 1], [0], [0, 1])),
            (ValueError, lambda: surface.extend([0], [0], [0, 1])),
            (TypeError, lambda: surface.add(0, "1", 0)),
            (TypeError, lambda: surface.extend([0], "1", [0])),
            (ValueError, lambda: surface.withdraw(-1)),
            (ValueError, lambda: Surface(4097)),
            (TypeError, lambda: __import__("pickle").dumps(surface)),
        ):
            with self.assertRaises(error):
                call()
            self.assertEqual(readings(surface), before)

    def test_interrupt(self):
        """Ctrl-C between the two books takes the change back, also where readings have moved."""
        for name, arguments in (("add", (5, 6, 7)), ("extend", ([5], [6], [7])), ("correct", (0, 9)), ("withdraw", (0,))):
            for which in (0, 1):
                surface = surface_of([(0, 1, 2), (3, 4, 5)])
                before = readings(surface)
                book = surface._books[which]
                real = getattr(book, name)

                def cut(*given):
                    real(*given)
                    raise KeyboardInterrupt

                with mock.patch.object(book, name, cut), self.assertRaises(KeyboardInterrupt):
                    getattr(surface, name)(*arguments)
                self.assertEqual(readings(surface), before, (name, which))

    def test_library_without(self):
        """A library of an earlier version is named, and nothing else fails."""
        surface = surface_of(rows_of(6))
        for name, call in (
            ("surface_fit", lambda: surface.fit(1)),
            ("surface_report", lambda: surface.report()),
            ("surface_band", lambda: surface.band(0, 0, 1)),
        ):
            with mock.patch.object(surface._library, name, None), self.assertRaisesRegex(LibraryError, f"stakebook_{name}"):
                call()


@unittest.skipUnless(HAS_SURFACE, "the library has no surfaces")
class Answers(unittest.TestCase):
    def refused(self, number, call, *arguments):
        with self.assertRaises(Refused) as caught:
            call(*arguments)
        self.assertEqual(caught.exception.number, number)

    @unittest.skipIf(numpy is None, "numpy is not there")
    def test_least_squares(self):
        """The coefficients are those of least squares, of every total degree; the errors those of its covariance; the band its root times z."""
        rows = rows_of(60)
        surface = surface_of(rows)
        points, ys = [row[:2] for row in rows], numpy.array([row[2] for row in rows])
        for degree, k in enumerate(COUNTS):
            terms = matrix(points, k)
            expected = numpy.linalg.lstsq(terms, ys, rcond=None)[0]
            fit = surface.fit(degree)
            self.assertEqual((fit.n, fit.degree, len(fit.coefficients), len(fit.terms)), (60, degree, k, k))
            numpy.testing.assert_allclose(fit.coefficients, expected, rtol=1e-8, atol=1e-8)
            residuals = ys - terms @ expected
            covariance = numpy.linalg.inv(terms.T @ terms) * (residuals @ residuals) / (60 - k)
            xs, zs = [0.1, -0.4, 0.5], [0.2, 0.3, -0.6]
            at = matrix(list(zip(xs, zs)), k)
            values, spread = at @ expected, numpy.sqrt(numpy.einsum("ij,jk,ik->i", at, covariance, at))
            bands = surface.band(xs, zs, degree, Settings(confidence=2.0, tolerance=("absolute", 0.5)))
            self.assertEqual([(band.x, band.z, band.degree) for band in bands], [(x, z, degree) for x, z in zip(xs, zs)])
            numpy.testing.assert_allclose([band.value for band in bands], values, rtol=1e-9)
            numpy.testing.assert_allclose([band.lower for band in bands], values - 2 * spread - 0.5, rtol=1e-8)
            numpy.testing.assert_allclose([band.upper for band in bands], values + 2 * spread + 0.5, rtol=1e-8)

    @unittest.skipIf(numpy is None, "numpy is not there")
    def test_report(self):
        rows = rows_of(60)
        surface = surface_of(rows)
        asked = Settings(bound=4, confidence=2.0)
        report = surface.report(asked)
        self.assertEqual((report.settings, report.n, report.degree, report.solved, report.df), (asked, 60, 2, 5, 54))
        self.assertEqual(report.terms, ["1", "x", "z", "x²", "xz", "z²"])
        terms, ys = matrix([row[:2] for row in rows], 6), numpy.array([row[2] for row in rows])
        expected = numpy.linalg.lstsq(terms, ys, rcond=None)[0]
        residuals = ys - terms @ expected
        covariance = numpy.linalg.inv(terms.T @ terms) * (residuals @ residuals) / 54
        errors = numpy.sqrt(numpy.diag(covariance))
        numpy.testing.assert_allclose(report.coefficients, expected, rtol=1e-8)
        numpy.testing.assert_allclose(report.errors, errors, rtol=1e-8)
        numpy.testing.assert_allclose(report.t, abs(expected) / errors, rtol=1e-8)
        # y has no z² in it; the others are many errors away from 0
        self.assertEqual(report.pruned, (abs(expected) / errors < 2).tolist())
        self.assertEqual(report.pruned, [False] * 5 + [True])
        spread = 2 * numpy.sqrt(numpy.einsum("ij,jk,ik->i", terms, covariance, terms))
        numpy.testing.assert_allclose(report.lower, terms @ expected - spread, rtol=1e-8)
        numpy.testing.assert_allclose(report.upper, terms @ expected + spread, rtol=1e-8)
        self.assertEqual(report.outliers, (abs(residuals) > spread).tolist())
        self.assertEqual(report.outside, numpy.flatnonzero(abs(residuals) > spread).tolist())

    def test_bands_of_a_report(self):
        """The report's band at a reading is the band's own there, bit for bit."""
        rows = rows_of(40, seed=3)
        surface = surface_of(rows)
        asked = Settings(bound=3, confidence="P99", tolerance=("measurement", 0.01))
        report = surface.report(asked)
        bands = surface.band(surface.xs, surface.zs, report.degree, asked)
        self.assertEqual(([band.lower for band in bands], [band.upper for band in bands]), (report.lower, report.upper))
        one = surface.band(rows[0][0], rows[0][1], report.degree, asked)
        self.assertEqual(one, bands[0])

    def test_curve_of_x(self):
        """Where z does not count, the surface's first terms are the curve's."""
        rows = grid(5, lambda x, z: 1 + 2 * x + 4 * x * x)
        fit = surface_of(rows).fit(2)
        for c, expected in zip(fit.coefficients, (1, 2, 0, 4, 0, 0)):
            self.assertAlmostEqual(c, expected, places=9)

    def test_places(self):
        """15 places are written, +0 from the number of terms on, and the one behind them is left."""
        surface = surface_of(rows_of(60))
        book = surface._books[0]
        for degree, k in enumerate(COUNTS):
            for memory in (book._coefficients, book._errors):
                memory[15] = 77.0
            book._pruned[15] = 77
            self.assertEqual(len(surface.fit(degree).coefficients), k)
            self.assertEqual([str(c) for c in book._coefficients[k:15]], ["0.0"] * (15 - k))
            self.assertEqual(book._coefficients[15], 77.0)
            report = surface.report(Settings(bound=0))
            self.assertEqual((report.degree, len(report.errors)), (0, 1))
            self.assertEqual([str(value) for value in book._errors[1:15]], ["0.0"] * 14)
            self.assertEqual((book._pruned[1:15].tolist(), book._errors[15], book._pruned[15]), ([0] * 14, 77.0, 77))

    def test_tried(self):
        """A total degree with more terms than readings is not tried, and an asked one is refused by 8."""
        for n, solved in ((1, 1), (2, 1), (3, 2), (5, 2), (6, 3), (9, 3), (10, 4), (14, 4), (15, 5)):
            surface = surface_of(rows_of(n))
            self.assertEqual(surface.report(Settings(bound=4)).solved, solved, n)
            self.assertEqual(surface.fit(solved - 1).degree, solved - 1)
            self.refused(8, surface.fit, solved)
            self.refused(8, surface.band, surface.xs[0], surface.zs[0], solved)

    def test_refused(self):
        empty, surface = Surface(), surface_of(rows_of(60))
        for call in (lambda: empty.fit(0), lambda: empty.report(), lambda: empty.band(0, 0, 0)):
            self.refused(7, call)
        before = readings(surface)
        # 4: what is given, and before 7
        self.refused(4, surface.band, NAN, 0, 1)
        self.refused(4, surface.band, 0, NAN, 1)
        self.refused(4, surface.band, 0, INF, 1)
        self.refused(4, empty.band, 0, NAN, 1)
        self.refused(4, surface.report, Settings(bound=1, confidence=NAN))
        self.refused(4, surface.report, Settings(bound=1, tolerance=("absolute", INF)))
        # 8: above 4, and before 9
        self.refused(8, surface.fit, 5)
        self.refused(8, surface.report, Settings(bound=5))
        self.refused(8, surface.report, Settings(bound=2**32 + 1))
        self.refused(8, surface.band, 5, 5, 5)
        # 9: outside the x's or the z's
        self.refused(9, surface.band, 1.5, 0, 1)
        self.refused(9, surface.band, 0, 1.5, 1)
        self.refused(9, surface.band, 0, -1.5, 1)
        self.refused(9, surface.band, [0, 0], [0, 1.5], 1)
        self.assertEqual(readings(surface), before)
        # 10: one line of x's says nothing of z
        line = surface_of([(i, i, i) for i in range(6)])
        self.refused(10, line.fit, 1)
        self.assertEqual(line.report(Settings(bound=2)).degree, 0)
        # 11: no score is a number
        self.refused(11, surface_of([(0, 0, sys.float_info.max)] * 4).report, Settings(bound=1))

    @unittest.skipUnless(HAS_GROUPS, "the library has no groups")
    def test_groups(self):
        """Document 02, E10: each total degree that is tried costs a pivot test for each of its terms."""
        surface, asked = surface_of(rows_of(40)), Settings(bound=4)
        before, cost = readings(surface), sum(COUNTS)
        allowance = Allowance(2 * cost - 1)
        self.assertEqual(surface.report(asked, group=6, allowance=allowance), surface.report(asked))
        self.assertEqual((allowance.left(6), allowance.left(5)), (cost - 1, 2 * cost - 1))
        with self.assertRaises(Refused) as caught:
            surface.report(asked, group=6, allowance=allowance)
        self.assertEqual((caught.exception.number, allowance.left(6)), (16, cost - 1))
        lower = Settings(bound=2)
        self.assertEqual(surface.report(lower, group=6, allowance=allowance), surface.report(lower))
        self.assertEqual(allowance.left(6), cost - 1 - sum(COUNTS[:3]))
        allowance.renew()
        self.assertEqual(surface.report(asked, group=6, allowance=allowance).degree, surface.report(asked).degree)
        with self.assertRaises(Refused) as caught:
            surface.report(asked, group=8, allowance=allowance)
        self.assertEqual((caught.exception.number, allowance.quota), (17, 2 * cost - 1))
        self.assertEqual(readings(surface), before)

    def test_bounds_by_name(self):
        """Document 02's design: relaxed passes total degree 4 from 125 readings on, aggressive from 48."""
        rows = rows_of(125)
        for bound, n in (("relaxed", 125), ("aggressive", 48)):
            self.assertLessEqual(surface_of(rows[: n - 1]).report(Settings(bound=bound)).degree, 4)
            self.refused(8, surface_of(rows[:n]).report, Settings(bound=bound))

    def test_nan_in_a_column(self):
        """A value that came past the changes is found by the library."""
        for which in (0, 1):
            surface = surface_of(rows_of(6))
            surface._books[which]._xs[2] = NAN
            self.refused(4, surface.fit, 1)
            self.refused(4, surface.report, Settings(bound=1))
            self.refused(4, surface.band, 0, 0, 1)

    def test_words(self):
        surface = surface_of(grid(5, lambda x, z: (1 + x + z) ** 4))
        fit = surface.fit(4)
        names = ["1", "x", "z", "x²", "xz", "z²", "x³", "x²z", "xz²", "z³", "x⁴", "x³z", "x²z²", "xz³", "z⁴"]
        self.assertEqual([line.split()[0] for line in fit.summary().splitlines()[2:]], names)
        self.assertEqual(fit.summary().splitlines()[0], "degree 4 through 25 readings")
        # (1 + x + z)^4 has these by the multinomial theorem, as its terms have in SURFACE's order
        for c, (a, b) in zip(fit.coefficients, EXPONENTS):
            self.assertAlmostEqual(c, math.factorial(4) / math.factorial(a) / math.factorial(b) / math.factorial(4 - a - b), places=6)
        report = surface.report(Settings(bound=2))
        lines = report.summary().splitlines()
        self.assertEqual([line.split()[0] for line in lines[2:-2]], names[: len(report.coefficients)])
        self.assertIn("the surface's and not the readings'", lines[-1])
        for result in (fit, report, surface.band(0.5, 0.5, 2)):
            json.dumps(result.as_dict(), allow_nan=False)
        self.assertEqual((report.as_dict()["terms"], fit.as_dict()["terms"]), (names[: len(report.coefficients)], names))
        self.assertRegex(surface.band(0.5, 0.25, 4).summary(), r"^at x 0\.5, z 0\.25 the surface of degree 4 is 9\.378\d*, between ")

    def test_points(self):
        surface = surface_of(rows_of(20))
        self.assertEqual(surface.band([], [], 1), [])
        for x, z in ((0, [0]), ([0], 0), ([0, 0], [0])):
            with self.assertRaises(ValueError):
                surface.band(x, z, 1)
        with self.assertRaises(TypeError):
            surface.band("0", 0, 1)
        if numpy is not None:
            xs, zs = numpy.meshgrid([-0.2, 0.2], [-0.1, 0.1])
            self.assertEqual(surface.band(xs.ravel(), zs.ravel(), 1), surface.band([-0.2, 0.2] * 2, [-0.1, -0.1, 0.1, 0.1], 1))
            self.assertEqual(surface.band(numpy.array(0.2), numpy.float64(0.1), 1), surface.band(0.2, 0.1, 1))
            columns = numpy.array(rows_of(20)).T
            other = Surface()
            other.extend(columns[0], columns[1], columns[2])
            self.assertEqual(other.bits(), surface.bits())

    def test_threads(self):
        """Threads that ask one surface get the answers that one alone gets."""
        surface = surface_of(rows_of(30))
        expected = [surface.report(Settings(bound=bound)) for bound in range(4)]
        wrong = []

        def ask(bound):
            for _ in range(20):
                if surface.report(Settings(bound=bound)) != expected[bound] or surface.band(0, 0, bound).degree != bound:
                    wrong.append(bound)

        threads = [threading.Thread(target=ask, args=(bound,)) for bound in range(4)]
        for thread in threads:
            thread.start()
        for thread in threads:
            thread.join()
        self.assertEqual(wrong, [])


if __name__ == "__main__":
    unittest.main()
